#!/bin/sh
# Compares `sts check` with TypeScript's own parser on random programs, as peers.js says. Wants node and Debian's node-typescript.
# usage: bench/parse/peers.sh [HOW_MANY [SEED]]
set -eu
here=$(cd "$(dirname "$0")" && pwd)
exec node "$here/peers.js" "$("$here/../../bin/program")" "${1:-2000}" "${2:-1}"
