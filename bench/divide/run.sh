#!/bin/sh
# Random pairs through the division routine on the machine (`rows thumb_rows` of tests/, as bin/compile --fast makes it),
# beside Python's division: quotient, remainder and instructions.
# usage: bench/divide/run.sh [SEED] [COUNT]
set -eu
here=$(cd "$(dirname "$0")" && pwd)
program=$("$here/../../bin/compile" --fast rows)
folder=$(mktemp -d)
trap 'rm -rf "$folder"' EXIT
python3 "$here/pairs.py" write "${1:-1}" "${2:-1000000}" > "$folder/pairs"
sed "s/^/divide /" "$folder/pairs" > "$folder/rows"
"$program" thumb_rows < "$folder/rows" > "$folder/answers"
python3 "$here/pairs.py" test "$folder/pairs" < "$folder/answers"
