#!/bin/sh
# checks/as_written.py says what this looks at.
# usage: checks/as_written.sh [PROGRAM [VIEW]]
exec python3 -B "$(dirname "$0")/as_written.py" "$@"
