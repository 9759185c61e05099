#!/bin/sh
# checks/programs.py says what this looks at.
# usage: checks/programs.sh [PROGRAM]
exec python3 -B "$(dirname "$0")/programs.py" "$@"
