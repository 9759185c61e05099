#!/bin/sh
# checks/scripts.py says what this looks at.
# usage: checks/scripts.sh
exec python3 -B "$(dirname "$0")/scripts.py" "$@"
