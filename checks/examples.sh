#!/bin/sh
# Each program of examples/ has a transcript NAME.txt, and most a script NAME.json: the transcript was worked out from the rules, and is what the rules give
# as bench/programs/reading.py reads them, with no code of this repository. The program accepts each example's text, and writes that transcript by `run`, and by
# `build` and then `run-hex`; and the image that ran, as `run` writes it behind its transcript with --stats --image, is the one that `build` writes, and
# ends in as many instructions as `run` tells, and not in one less.
# usage: checks/examples.sh [PROGRAM]
set -eu
top=$(cd "$(dirname "$0")/.." && pwd)
program=${1:-$("$top/bin/program")}
folder=$(mktemp -d)
trap 'rm -rf "$folder"' EXIT
wrong=0
count=0
for text in "$top"/examples/*.ts; do
    name=$(basename "$text" .ts)
    [ "$name" != board.d ] || continue
    count=$((count + 1))
    script=$top/examples/$name.json
    [ -f "$script" ] || script=
    python3 "$top/bench/programs/reading.py" "$text" $script | cmp - "$top/examples/$name.txt" || wrong=$((wrong + 1))
    said=$("$program" check "$text")
    [ "$said" = accepted ] || { echo "examples: check says of $name: $said"; wrong=$((wrong + 1)); }
    "$program" run "$text" $script 2> /dev/null | cmp - "$top/examples/$name.txt" || wrong=$((wrong + 1))
    "$program" build "$text" > "$folder/image.hex" || wrong=$((wrong + 1))
    status=0
    "$program" run "$text" $script --stats --image > "$folder/all" 2> /dev/null || status=$?
    sed -n '/^instructions /,$p' "$folder/all" | sed 1d | cmp - "$folder/image.hex" || wrong=$((wrong + 1))
    executed=$(sed -n 's/^instructions //p' "$folder/all")
    ended=0
    "$program" run-hex "$folder/image.hex" $script --budget "$executed" > "$folder/enough" 2> /dev/null || ended=$?
    cmp "$folder/enough" "$top/examples/$name.txt" && [ "$ended" -eq "$status" ] || { echo "examples: $name: $executed instructions aren't enough"; wrong=$((wrong + 1)); }
    if [ "$executed" -gt 1 ]; then
        ended=0
        "$program" run-hex "$folder/image.hex" $script --budget $((executed - 1)) > "$folder/cut" 2> /dev/null || ended=$?
        [ "$ended" -eq 4 ] || { echo "examples: $name: one instruction less than $executed is enough"; wrong=$((wrong + 1)); }
    fi
    "$program" run-hex "$folder/image.hex" $script 2> /dev/null | cmp - "$top/examples/$name.txt" || wrong=$((wrong + 1))
done
# Those of examples/arrivals/ have arrivals too: `run-at` writes the transcript, which the reading gives with some steps at which they may come.
for text in "$top"/examples/arrivals/*.ts; do
    name=${text%.ts}
    count=$((count + 1))
    "$program" run-at "$text" "$name.json" "$name.arrivals.json" 2> /dev/null | cmp - "$name.txt" || wrong=$((wrong + 1))
    python3 "$top/bench/programs/arriving.py" --fits "$text" "$name.json" "$name.arrivals.json" "$name.txt" > "$folder/said" || { cat "$folder/said"; wrong=$((wrong + 1)); }
done
# Those of examples/class/ are classes, which name their files from the top: `class` writes the transcript, which was worked out by hand, and so does the reading.
classes=0
program=$(realpath "$program")
cd "$top"
for class in examples/class/*.class.json; do
    name=${class%.class.json}
    classes=$((classes + 1))
    python3 bench/programs/reading.py --class "$class" | cmp - "$name.txt" || wrong=$((wrong + 1))
    "$program" class "$class" 2> "$folder/said" | cmp - "$name.txt" || wrong=$((wrong + 1))
    [ ! -s "$folder/said" ] || { echo "examples: $class: standard error isn't silent"; wrong=$((wrong + 1)); }
done
echo "examples: $count programs and $classes classes, $wrong wrong"
[ "$wrong" -eq 0 ] && [ "$count" -ge 10 ] && [ "$classes" -ge 3 ]
