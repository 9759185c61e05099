#!/bin/sh
# checks/refused.py says what this looks at.
# usage: checks/refused.sh [--long] [PROGRAM]
exec python3 -B "$(dirname "$0")/refused.py" "$@"
