#!/bin/sh
# The time in which the tokens of the longest texts are read, 65,536 bytes each: `a ` over and over, and distinct names. The mean of
# TURNS readings (100 if not given) in one process, in microseconds.
# usage: bench/tokens/run.sh [TURNS]
set -eu
here=$(cd "$(dirname "$0")" && pwd)
turns=${1:-100}
folder=$(mktemp -d)
trap 'rm -rf "$folder"' EXIT
program=$("$here/../program.sh" "$folder" "$here/main.txt" "sts_base sts_lexer anyhow" sts_base sts_lexer)
for text in one many; do
    from=$(date +%s%N)
    if [ "$text" = many ]; then "$program" "$turns" many; else "$program" "$turns"; fi
    upto=$(date +%s%N)
    echo "$text: $(((upto - from) / 1000 / turns)) microseconds a reading"
done
