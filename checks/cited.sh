#!/bin/sh
# checks/cited.py says what this looks at.
# usage: checks/cited.sh
exec python3 -B "$(dirname "$0")/cited.py" "$@"
