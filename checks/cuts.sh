#!/bin/sh
# checks/cuts.py says what this looks at.
# usage: checks/cuts.sh [PROGRAM]
exec python3 -B "$(dirname "$0")/cuts.py" "$@"
