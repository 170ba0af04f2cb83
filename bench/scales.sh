#!/bin/sh
# Times reading and writing tables with decimals: 524,288 points and 1,048,576 springs. Usage: bench/scales.sh [ROUNDS]
exec "$(dirname "$0")/job.sh" scales "$@"
