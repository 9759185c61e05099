#!/bin/sh
# checks/arrivals.py says what this looks at.
# usage: checks/arrivals.sh [PROGRAM]
exec python3 -B "$(dirname "$0")/arrivals.py" "$@"
