#!/bin/sh
# checks/names.py says what this looks at.
# usage: checks/names.sh
exec python3 -B "$(dirname "$0")/names.py" "$@"
