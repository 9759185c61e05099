#!/bin/sh
# 65,536 bytes of pieces are laid whose branches all are long: the least and the middle of RUNS differences (9 if not given) between
# a process that lays them 11 times and one that lays them once, for one time of these ten, in microseconds.
# usage: bench/layout/run.sh [RUNS]
set -eu
here=$(cd "$(dirname "$0")" && pwd)
runs=${1:-9}
folder=$(mktemp -d)
trap 'rm -rf "$folder"' EXIT
program=$("$here/../program.sh" "$folder" "$here/main.txt" "sts_base thumb_code thumb_layout anyhow" sts_base thumb_code thumb_layout)
[ "$("$program" 1)" = "Some(65536)" ] || {
    echo "bench/layout: other bytes than expected: $("$program" 1)"
    exit 1
}

# took TURNS: how long the program takes for so many turns
took() {
    from=$(date +%s%N)
    "$program" "$1" > "$folder/length"
    upto=$(date +%s%N)
    echo $(((upto - from) / 1000))
}

for _ in $(seq "$runs"); do
    one=$(took 1)
    eleven=$(took 11)
    echo $(((eleven - one) / 10)) >> "$folder/times"
done
sort -n "$folder/times" > "$folder/sorted"
least=$(head -n 1 "$folder/sorted")
middle=$(sed -n "$(((runs + 1) / 2))p" "$folder/sorted")
printf 'lay 65,536 bytes: least %6d us   middle %6d us\n' "$least" "$middle"
