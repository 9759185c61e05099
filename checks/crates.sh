#!/bin/sh
# checks/crates.py says what this looks at.
# usage: checks/crates.sh
exec python3 -B "$(dirname "$0")/crates.py" "$@"
