#!/bin/sh
# checks/board_types.py says what this looks at.
# usage: checks/board_types.sh
exec python3 -B "$(dirname "$0")/board_types.py" "$@"
