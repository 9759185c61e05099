#!/bin/sh
# checks/documents.py says what this looks at.
# usage: checks/documents.sh
exec python3 -B "$(dirname "$0")/documents.py" "$@"
