#!/bin/sh
# checks/reading.py says what this looks at.
# usage: checks/reading.sh
exec python3 -B "$(dirname "$0")/reading.py" "$@"
