#!/bin/sh
# Times conjugate gradients over 150 nodes and 600 links: simit beside a Python program. Usage: bench/gradients.sh [ROUNDS]
set -eu
rounds=${1:-5}
bench=$(cd "$(dirname "$0")" && pwd)
simit=$(realpath -m "${SIMIT:-$bench/../crates/simit/out/simit}")
python=${PYTHON:-$(command -v python3)}
cd "$bench"
mkdir -p work/gradients
"$python" gradients.py 150 600 work/gradients
cd work/gradients
exec python3 -I -S ../../pair.py "$rounds" "$simit run cg.sim nodes.csv links.csv" "$python -I -S ../../gradients.py nodes.csv links.csv"
