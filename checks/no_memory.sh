#!/bin/sh
# checks/no_memory.py says what this looks at.
# usage: checks/no_memory.sh [--tests]
exec python3 -B "$(dirname "$0")/no_memory.py" "$@"
