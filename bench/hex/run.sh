#!/bin/sh
# A full image of 262,144 bytes is written as HEX and read back, by hex_image and by srec_cat in the same run: whole
# processes, from file to file, the least and the middle of RUNS runs each (21 if not given), in microseconds.
# usage: bench/hex/run.sh [RUNS]
set -eu
here=$(cd "$(dirname "$0")" && pwd)
runs=${1:-21}
command -v srec_cat > /dev/null || {
    echo "bench/hex: skipped, srec_cat is missing (package srecord)"
    exit 0
}
folder=$(mktemp -d)
trap 'rm -rf "$folder"' EXIT
program=$("$here/../program.sh" "$folder/program" "$here/main.txt" "hex_image anyhow" sts_base hex_image)
head -c 262144 /dev/urandom > "$folder/full.bin"

# timed NAME COMMAND..: runs a command, and adds the time that it took to the times of NAME
timed() {
    name=$1
    shift
    from=$(date +%s%N)
    "$@"
    upto=$(date +%s%N)
    echo $(((upto - from) / 1000)) >> "$folder/$name.times"
}

for _ in $(seq "$runs"); do
    timed write-ours "$program" write "$folder/full.bin" "$folder/ours.hex"
    timed write-srec_cat srec_cat "$folder/full.bin" -binary -o "$folder/theirs.hex" -intel -line-length=44
    timed read-ours "$program" read "$folder/ours.hex" "$folder/ours.bin"
    timed read-srec_cat srec_cat "$folder/ours.hex" -intel -o "$folder/theirs.bin" -binary
done
cmp "$folder/ours.hex" "$folder/theirs.hex"
cmp "$folder/full.bin" "$folder/ours.bin"
cmp "$folder/full.bin" "$folder/theirs.bin"
for name in write-ours write-srec_cat read-ours read-srec_cat; do
    sort -n "$folder/$name.times" > "$folder/sorted"
    least=$(head -n 1 "$folder/sorted")
    middle=$(sed -n "$(((runs + 1) / 2))p" "$folder/sorted")
    printf '%-16s least %6d us   middle %6d us\n' "$name" "$least" "$middle"
done
