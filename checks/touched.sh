#!/bin/sh
# checks/touched.py says what this looks at.
# usage: checks/touched.sh [--crates | --write]
exec python3 -B "$(dirname "$0")/touched.py" "$@"
