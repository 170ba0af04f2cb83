#!/bin/sh
# Times the proved program beside a plain C program and a Python program that do the same job.
# Usage: job.sh JOB [ROUNDS]; table.sh, springs.sh and scales.sh start it.
# README.md says what is timed and how to read the figures.
set -eu

job=$1
rounds=${2:-5}
case $rounds in
'' | *[!0-9]* | 0*)
    echo "usage: $job.sh [ROUNDS], a number from 1" >&2
    exit 2
    ;;
esac

bench=$(cd "$(dirname "$0")" && pwd)
simit=$(realpath -m "${SIMIT:-$bench/../crates/simit/out/simit}")
python=${PYTHON:-$(command -v python3)}
if [ ! -f "$simit" ] || [ ! -x "$simit" ]; then
    cat >&2 <<END
$job.sh: there is no program at $simit
Build the proved program first: 'rt ci' at the top proves it and leaves it at crates/simit/out/simit. Then run this
script again.
A program that stands elsewhere is named by SIMIT, as in: SIMIT=/path/to/simit bench/$job.sh
END
    exit 1
fi

cd "$bench"
mkdir -p work
gcc -O3 -Wall -Wextra -o "work/$job" "$job.c"
echo "C: $(gcc --version | head -n 1), -O3"
"$python" - <<'END'
import sys

try:
    import numpy
    import pandas
    packages = f"pandas {pandas.__version__}, NumPy {numpy.__version__}"
except ImportError:
    packages = "without pandas and NumPy"
print(f"Python: {sys.version.split()[0]}, {packages}")
END
python3 -I -S "make_$job.py" work
exec python3 -I -S measure.py "$job" "$simit" "$python" "$rounds"
