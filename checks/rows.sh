#!/bin/sh
# The programs of rows of tests/, which are one program, compiled from the sources without proofs (bin/compile --fast): each reads its stdin, and must write its stdout and nothing else, and end with 0. Their
# sources are laid out as rt fmt does it, where rt is there.
# usage: checks/rows.sh [NAME..]
set -eu
top=$(cd "$(dirname "$0")/.." && pwd)
rows=$("$top/bin/compile" --fast rows)
exec python3 "$top/checks/rows.py" "$rows" "$@"
