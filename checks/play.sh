#!/bin/sh
# Sends requests to the program play over its standard input, as bin/play hands connections to it: rows of what is asked and what is answered, requests cut short at each byte, and random ones; then bin/play itself, over sockets.
# PROGRAM is play, as bin/program names it where it is left out; COUNT is how many random requests are sent, 300 where it is left out.
# usage: checks/play.sh [PROGRAM [COUNT]]
set -eu
top=$(cd "$(dirname "$0")/.." && pwd)
program=${1:-$("$top/bin/program" play)}
exec python3 "$top/checks/play.py" "$top" "$program" "${2:-300}"
