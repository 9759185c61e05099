#!/bin/sh
# Compares the font's table in the documents with the lines that the rows `drawn` of tests/part_rows must write of board_drivers. (That the program writes them, checks/rows.sh shows.)
# Ends with 0 where they agree.
set -eu
cd "$(dirname "$0")/.."
written=$(sed -n 's/^glyph \([0-9]*\) \(.*\)$/\1 \2/p' tests/part_rows/stdout)
asked=$(sed -n 's/^drawn //p' tests/part_rows/stdin)
listed=$(sed -n 's/^| \([0-9]*\) | [^|]* | `\([.#/]*\)` | [0-9]* |$/\1 \2/p' docs/MACHINE.md)
[ "$(printf '%s\n' "$listed" | wc -l)" -eq 41 ] || { echo "the table hasn't 41 glyphs"; exit 1; }
[ "$written" = "$listed" ] || { echo "the table isn't the font"; exit 1; }
[ "$asked" = "$(printf '%s\n' "$listed" | sed 's/ .*//')" ] || { echo "the rows don't ask for the table's bytes"; exit 1; }
echo "the table is the font"
