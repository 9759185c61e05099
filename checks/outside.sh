#!/bin/sh
# Whether the part of bin/test that proves nothing, as an ordinary user calls it, leaves everything outside its clone as
# it was, and whether no command of this repository gives a compiler or objcopy a device as its output
# (checks/outside.py).
# usage: checks/outside.sh [--words]          with --words only the second, which takes no time
exec python3 -B "$(dirname "$0")/outside.py" "$@"
