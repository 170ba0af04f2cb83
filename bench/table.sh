#!/bin/sh
# Times assignments over one table of 1,048,576 rows. Usage: bench/table.sh [ROUNDS]
exec "$(dirname "$0")/job.sh" table "$@"
