#!/bin/sh
# Lets each call that can fail do so in turn, in some runs of the programs sts, as bin/program names it, and rows of tests/, as bin/compile --fast makes it where it is left out (checks/faults.py).
# Without a C compiler the check is skipped (status 77).
# usage: checks/faults.sh [STS [ROWS]]
set -eu
top=$(cd "$(dirname "$0")/.." && pwd)
program=${1:-$("$top/bin/program")}
command -v cc >/dev/null || {
    echo 'faults: there is no C compiler'
    exit 77
}
rows=${2:-$("$top/bin/compile" --fast rows)}
folder=$(mktemp -d)
trap 'rm -rf "$folder"' EXIT
cc -O2 -fno-builtin -shared -fPIC "$top/checks/faults.c" -o "$folder/faults.so"
python3 "$top/checks/faults.py" "$folder/faults.so" "$program" "$rows"
