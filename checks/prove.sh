#!/bin/sh
# What bin/prove keeps: nothing of a crate whose source is edited while crates are proved, nor of a run that was killed,
# nor what others could have written (checks/prove.py). It proves a crate of some lines; without rt a stub alone is the
# prover.
# usage: checks/prove.sh
exec python3 -B "$(dirname "$0")/prove.py"
