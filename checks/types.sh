#!/bin/sh
# The programs of checks/types.txt, whose verdicts on names, types and limits were set by hand, go through the built program's `check` and TypeScript's
# checker (checks/type_verdicts.py). PROGRAM is sts, as bin/program names it where it is left out. Without TypeScript the check is skipped (status 77), as far as it wants that.
# usage: checks/types.sh [PROGRAM]
set -eu
top=$(cd "$(dirname "$0")/.." && pwd)
program=${1:-$("$top/bin/program")}
folder=$(mktemp -d)
trap 'rm -rf "$folder"' EXIT
cp "$program" "$folder/sts"
cd "$top"
if NODE_PATH=/usr/share/nodejs node -e 'require("typescript")' 2>/dev/null; then
    NODE_PATH=/usr/share/nodejs python3 checks/type_verdicts.py "$folder/sts" "$folder" node
else
    python3 checks/type_verdicts.py "$folder/sts" "$folder"
    echo 'types: there is no node with TypeScript (Debian: node-typescript)'
    exit 77
fi
