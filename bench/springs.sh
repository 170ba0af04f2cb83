#!/bin/sh
# Times an assembly over 1,048,576 springs between 524,288 points. Usage: bench/springs.sh [ROUNDS]
exec "$(dirname "$0")/job.sh" springs "$@"
