#!/bin/sh
# Runs bin/show on programs, HEX files, class files and arrivals, with scripts, with presses that are typed, from standard input, again when a file changes, and where its output can't be
# written: what it writes, by hand, and its status.
# usage: checks/show.sh
set -eu
top=$(dirname "$(dirname "$(readlink -f "$0")")")
for it in sts view; do "$top/bin/program" "$it" >/dev/null; done
exec python3 "$top/checks/show.py"
