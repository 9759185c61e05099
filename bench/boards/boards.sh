#!/bin/bash
# Runs random images on random scripts by the built command `run-hex` and by the emulation of several fibers in this folder, which was written
# from the documents alone, and compares each status, transcript and the raw bytes at the serial port. Each image runs with a budget of 20,000
# instructions and 20 seconds, and once more with a budget cut at random below what it took. A run that loads a free word of the stack may
# differ behind that, since any word may stand there: such a run is compared up to there and counted apart. The images are built out of idioms
# (make.c), some out of random halfwords. How often each service, each end, each kind of fault, and what the world does came up in the runs that
# were compared whole is printed, and none of it may be 0. An image that differs is kept in this folder's caller, as board-*.hex and
# board-*.json. No test of the gate.
# usage: bench/boards/boards.sh [COUNT [PROGRAM [SALT]]]; COUNT is 30000, and PROGRAM is what bin/program names. JOBS says how many run side by
# side, else as many as there are processors
set -eu
here=$(cd "$(dirname "$0")" && pwd)
top=$(cd "$here/../.." && pwd)
count=${1:-30000}
salt=${3:-1}
if [ $# -ge 2 ]; then
    program=$2
else
    program=$("$top/bin/program")
fi
[ -x "$program" ] || {
    echo "boards: $program is not built"
    exit 2
}
work=$(mktemp -d)
trap 'rm -rf "$work"' EXIT
"${CC:-cc}" -O2 -o "$work/boards" "$here"/{boards,make,assemble,script,world,core,font}.c
jobs=${JOBS:-$(nproc)}
each=$(((count + jobs - 1) / jobs))
from=0 pids=() result=0
while [ "$from" -lt "$count" ]; do
    some=$((count - from < each ? count - from : each))
    "$work/boards" "$program" "$from" "$some" "$salt" >"$work/said.$from" &
    pids+=($!)
    from=$((from + some))
done
for pid in "${pids[@]}"; do wait "$pid" || result=1; done
cat "$work"/said.* | awk -F '\t' '
    NF < 2 { print; next }
    !($1 in sums) { order[++n] = $1 }
    { sums[$1] += $2 }
    END {
        for (k = 1; k <= n; k++) {
            name = order[k]
            printf "%s: %d\n", name, sums[name]
            if (sums[name] == 0 && name !~ /^(left out|runs that differ)/) { missing = missing "\n" name; bad = 1 }
            if (sums[name] > 0 && name ~ /^runs that differ/) bad = 1
        }
        if (missing) print "never came up:" missing
        exit bad
    }' || result=1
exit $result
