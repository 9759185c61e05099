#!/bin/sh
# The time that the built program takes to start, do nothing and end, beside /bin/true: the least and the middle of RUNS runs each
# (101 if not given), in microseconds.
# usage: bench/startup.sh [RUNS]
set -eu
top=$(cd "$(dirname "$0")/.." && pwd)
runs=${1:-101}
program=$("$top/bin/program")
folder=$(mktemp -d)
trap 'rm -rf "$folder"' EXIT

# timed NAME COMMAND..: adds the time that a command took to the times of NAME
timed() {
    name=$1
    shift
    from=$(date +%s%N)
    "$@" > /dev/null || true
    upto=$(date +%s%N)
    echo $(((upto - from) / 1000)) >> "$folder/$name"
}

for _ in $(seq "$runs"); do
    timed sts "$program" fly
    timed true /bin/true
done
for name in sts true; do
    sort -n "$folder/$name" | awk -v name="$name" '{ t[NR] = $1 } END { printf "%s: least %d, middle %d microseconds\n", name, t[1], t[int((NR + 1) / 2)] }'
done
