#!/bin/sh
# checks/own_image.py says what this looks at.
# usage: checks/own_image.sh [PROGRAM]
exec python3 -B "$(dirname "$0")/own_image.py" "$@"
