#!/bin/sh
# bin/judge over the examples, over copies of them each with one thing wrong, over programs that crash, hang or write much, with words that aren't taken, with runs that are killed from
# outside while it works over 200 programs, interrupted, and on a terminal: what it says, its status, and its JUnit XML, JSON and page. Over an ssh server that it begins on 127.0.0.1,
# where Debian's openssh-server is, also by --hosts, with a machine that is gone, in at most twice the time. And what README.md and
# docs/ show of bin/judge is what it writes. PROGRAM is sts, as bin/program names it where it is left out.
# usage: checks/judge.sh [PROGRAM]
set -eu
top=$(cd "$(dirname "$0")/.." && pwd)
program=${1:-$("$top/bin/program")}
folder=$(mktemp -d)
trap 'rm -rf "$folder"' EXIT
# (what bin/view says of refusals is asked; where it has to be compiled, that is done first)
"$top/bin/program" view >/dev/null
python3 "$top/checks/judge.py" "$program" "$folder"
