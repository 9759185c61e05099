#!/bin/sh
# Asks, of each try in checks/hints.txt, the program sts where it is refused and the library refusal_hints, by `rows input_rows`, what is said there; compares the calls of docs/CALLS.md with the rows, each code's own
# sentence with docs/LANGUAGE.md, and each example with what sts takes; and gives the library texts, places and codes of all kinds. PROGRAM is sts, as bin/program names it where it is left out; ROWS is the program rows of
# tests/, as bin/compile makes it.
# usage: checks/hints.sh [PROGRAM [ROWS]]
set -eu
top=$(cd "$(dirname "$0")/.." && pwd)
program=${1:-$("$top/bin/program")}
rows=${2:-$("$top/bin/compile" --fast rows)}
exec python3 "$top/checks/hints.py" "$program" "$rows" "$top"
