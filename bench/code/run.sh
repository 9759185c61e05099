#!/bin/sh
# Instructions that compiled programs execute, beside gcc's, as code.py says. Wants Debian's gcc-arm-none-eabi.
# usage: bench/code/run.sh
set -eu
here=$(cd "$(dirname "$0")" && pwd)
exec python3 "$here/code.py" "$("$here/../../bin/program")"
