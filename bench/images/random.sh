#!/bin/bash
# Runs random images by the built command `run-hex` and by the emulator of this folder, which was written from the manual's table alone, and
# compares each status and transcript. Most images begin with a base and main's code address, and 64 random halfwords follow; a tenth as many
# have halfwords there that mostly go on, and a hundredth as many are random bytes. Each run has a budget of 1,000 instructions and 20 seconds. No other status than 0, 3, 4 and 13 may come, and the
# transcript is to be the emulator's. Where a run reads stack words that nothing has written, any word may stand there, so such a run may
# differ; how many do is printed. An image that differs is kept in this folder's caller, as random-*.hex. No test of the gate.
# usage: bench/images/random.sh [COUNT [PROGRAM [SALT]]]; COUNT is 100000, and PROGRAM is what bin/program names
set -eu
here=$(cd "$(dirname "$0")" && pwd)
top=$(cd "$here/../.." && pwd)
count=${1:-100000}
salt=${3:-1}
if [ $# -ge 2 ]; then
    program=$2
else
    program=$("$top/bin/program")
fi
[ -x "$program" ] || {
    echo "random: $program is not built"
    exit 2
}
work=$(mktemp -d)
trap 'rm -rf "$work"' EXIT
"${CC:-cc}" -O2 -o "$work/random" "$here/random.c" "$here/emulator.c"
jobs=$(nproc)

# compare SORT COUNT NAME: the images of one sort, by as many processes as there are processors
compare() {
    local each=$((($2 + jobs - 1) / jobs)) from=0 left=$2 job=0 pids=() bad=0
    while [ "$left" -gt 0 ]; do
        local some=$((left < each ? left : each))
        "$work/random" "$program" "$from" "$some" "$1" "$salt" > "$work/said.$1.$job" &
        pids+=($!)
        from=$((from + some))
        left=$((left - some))
        job=$((job + 1))
    done
    for pid in "${pids[@]}"; do wait "$pid" || bad=1; done
    for said in "$work/said.$1".*; do sed '$d' "$said"; done
    for said in "$work/said.$1".*; do tail -n 1 "$said"; done | awk -v what="$3" '
        { quiet += $1; panic += $2; budget += $3; fault += $4; apart += $5; wrong += $6 }
        END { printf "%s: %d quiet, %d panic, %d budget, %d fault; %d differ by words that nothing has written; %d wrong\n", what, quiet, panic, budget, fault, apart, wrong }'
    return $bad
}

result=0
compare 1 "$count" "random halfwords" || result=1
compare 2 $(((count + 9) / 10)) "likely instructions" || result=1
compare 0 $(((count + 99) / 100)) "random bytes" || result=1
exit $result
