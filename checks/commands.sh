#!/bin/sh
# Runs the rows of checks/commands.txt through the program sts: words, files, and the status and output that are due. PROGRAM
# is sts, as bin/program names it where it is left out.
# usage: checks/commands.sh [PROGRAM]
set -eu
top=$(cd "$(dirname "$0")/.." && pwd)
program=${1:-$("$top/bin/program")}
exec python3 "$top/checks/commands.py" "$program" "$top/checks/commands.txt"
