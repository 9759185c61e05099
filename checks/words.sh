#!/bin/sh
# Compares what `rows input_rows` reads of 100,000 random lists of words with what the rules say of them, written anew in Python. ROWS is the program rows of tests/, as bin/compile
# --fast makes it where it is left out.
# usage: checks/words.sh [ROWS [SEED]]
set -eu
top=$(cd "$(dirname "$0")/.." && pwd)
rows=${1:-$("$top/bin/compile" --fast rows)}
exec python3 "$top/checks/words.py" "$rows" "${2:-1}"
