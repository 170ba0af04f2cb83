#!/bin/sh
# Writes some 1,500 programs with the answers of an interpreter of its own, and runs the built program on each.
# Usage: sh conformance/check.sh [PROGRAM]; without one, the program that `rt ci` built.
set -eu
here=$(cd "$(dirname "$0")" && pwd)
program=$(realpath "${1:-$here/../crates/simit/out/simit}")
cd "$here"
rm -rf work
mkdir -p work/programs
python3 build.py >work/build.log
python3 generate.py --write 100 >>work/build.log
python3 generate.py --write 40 mat >>work/build.log
python3 generate.py --write 40 ix >>work/build.log
python3 generate.py --write 40 host >>work/build.log
exec python3 check.py "$program"
