#!/bin/sh
# checks/unused.py says what this looks at.
# usage: checks/unused.sh
exec python3 -B "$(dirname "$0")/unused.py" "$@"
