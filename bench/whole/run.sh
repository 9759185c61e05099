#!/bin/sh
# Whole commands beside other programs, as whole.py says. Wants Debian's nodejs, node-typescript, esbuild, tcc, mujs and duktape.
# usage: bench/whole/run.sh [RUNS]
set -eu
here=$(cd "$(dirname "$0")" && pwd)
exec python3 "$here/whole.py" "$("$here/../../bin/program")" "${1:-7}"
