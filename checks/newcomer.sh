#!/bin/sh
# What somebody meets who has just cloned the repository: the first command of README.md, in a clone of the last commit, writes what README says, and says how many seconds it took, and
# that nothing was proved, once that day; called again it takes the program that it made, another executable under that name is not taken, and two first calls side by side both answer.
# A call ended by a signal leaves nothing behind. And folders as an interrupted bin/prove or bin/compile leaves them have `rt ci` refuse nothing: it takes the tree, cut down to one
# small crate, so that its look at all files is tried without proving the rest; where a source lies among what is built it would refuse it.
# usage: checks/newcomer.sh
set -eu
top=$(cd "$(dirname "$0")/.." && pwd)
for it in rt git; do
    command -v "$it" >/dev/null || {
        echo "newcomer: $it is missing"
        exit 77
    }
done
folder=$(mktemp -d)
trap 'rm -rf "$folder"' EXIT
export XDG_CACHE_HOME="$folder/cache" TMPDIR="$folder"
git clone -q "$top" "$folder/clone"
cd "$folder/clone"
wrong=0
judge() {
    [ "$2" = "$3" ] || {
        wrong=$((wrong + 1))
        echo "newcomer: $1: '$2' in place of '$3'"
    }
}

command=$(sed -n 's/^    \(bin\/sts run .*\)$/\1/p' README.md | head -1)
due=$(awk '/^    bin\/sts run /{first = 1; next} first && /^    /{sub(/^    /, ""); print; found = 1; next} found{exit}' README.md)
judge 'the first command of README.md' "$command" 'bin/sts run examples/hello.ts'
answers() {
    status=0
    said=$($command 2>"$folder/errors") || status=$?
    judge "$1, status" "$status" 0
    judge "$1" "$said" "$due"
}
says() { grep -c "$1" "$2" || true; }
not_proved='their proofs have not been checked on this machine'
began=$(date +%s)
$command >"$folder/beside" 2>"$folder/beside.errors" &
answers 'the first answer'
echo "newcomer: the first answer came after $(($(date +%s) - began)) s on $(nproc) processors"
wait || wrong=$((wrong + 1))
judge 'the answer to a call beside it' "$(cat "$folder/beside")" "$due"
cat "$folder/errors" "$folder/beside.errors" >"$folder/both"
judge 'that nothing is proved, in two first answers' "$(says "$not_proved" "$folder/both")" 1
judge 'the programs that were linked' "$(says 'linking sts' "$folder/both")" 1
began=$(date +%s%N)
answers 'a later answer'
echo "newcomer: a later answer came after $((($(date +%s%N) - began) / 1000000)) ms"
judge 'that nothing is proved, in a later answer' "$(says "$not_proved" "$folder/errors")" 0
echo 2000-01-01 >out/compiled/told.sts
STS_QUIET=1 answers 'an answer on another day, quiet'
judge 'that nothing is proved, where it is to be quiet' "$(says "$not_proved" "$folder/errors")" 0
answers 'an answer on another day'
judge 'that nothing is proved, on another day' "$(says "$not_proved" "$folder/errors")" 1
judge 'executables kept' "$(find out/compiled -name 'sts.*' | wc -l)" 1
kept=$(find out/compiled -name 'sts.*')
cp /bin/true "$kept"
# ended WORDS..: a call that is ended while it works, as soon as its temporary folder is there. (What it started has that name among its words.)
ended() {
    "$@" >/dev/null 2>"$folder/errors" &
    child=$! at='' tries=0
    while [ -z "$at" ] && [ "$tries" -lt 1000 ]; do
        sleep 0.02
        at=$(find "$folder" -maxdepth 1 -name 'sts-compile.*')
        tries=$((tries + 1))
    done
    sleep 0.3
    kill "$child" && wait "$child" 2>/dev/null && status=0 || status=$?
    judge "the status of $*, ended" "$status" 143
    judge "what $*, ended, leaves" "$(find "$folder" -maxdepth 1 -name 'sts-compile.*' | wc -l)" 0
    judge "what $* had started" "$(pgrep -f "${at:-sts-compile}" | wc -l)" 0
}
ended $command
judge 'another executable under its name' "$(says 'linking sts' "$folder/errors")" 1
STS_ANEW=1 ended $command
judge 'a program compiled anew' "$(says 'compiling sts' "$folder/errors")" 1

# bin/prove, interrupted in its first crate and as if behind it.
bin/prove >/dev/null 2>&1 &
child=$!
sleep 4
provers=$(pgrep -f "$folder/clone/.git/proved" | wc -l)
[ "$provers" -gt 0 ] || { wrong=$((wrong + 1)); echo 'newcomer: bin/prove proves nothing'; }
kill "$child" 2>/dev/null || true
wait "$child" 2>/dev/null || true
sleep 1
judge 'provers that outlive bin/prove' "$(pgrep -f "$folder/clone/.git/proved" | wc -l)" 0
mkdir -p .git/proved/sts_base.rlib/lang/src crates/sts/out
cp crates/sts_base/src/lib.rt .git/proved/sts_base.rlib/lang/src/lib.rt
rm -rf crates
mkdir -p crates/tiny/src
printf 'tiny:\n' >crates.txt
printf '//! A number.\n#![tactic(auto)]\n\n/// Gives one.\npub fn one() -> u32 {\n    1\n}\n' >crates/tiny/src/lib.rt
gate() { rt ci 2>&1 | tail -1; }
judge 'rt ci over what was left' "$(gate)" '1 passed, 0 failed'
mkdir -p out/sts_base.rlib
cp .git/proved/sts_base.rlib/lang/src/lib.rt out/sts_base.rlib/
judge 'rt ci over a source in out/' "$(gate)" '0 passed, 1 failed'
echo "newcomer: $wrong wrong"
[ "$wrong" -eq 0 ]
