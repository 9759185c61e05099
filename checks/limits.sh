#!/bin/sh
# Each limit of docs/LANGUAGE.md, FORMATS.md and WORLD.md at its greatest allowed value and one past it: texts, trees, names, weights, scripts, images, files, and what a run may use. PROGRAM is
# sts, as bin/program names it where it is left out.
# usage: checks/limits.sh [PROGRAM]
set -eu
top=$(cd "$(dirname "$0")/.." && pwd)
program=${1:-$("$top/bin/program")}
folder=$(mktemp -d)
trap 'rm -rf "$folder"' EXIT
cp "$program" "$folder/sts"
python3 "$top/checks/limits.py" "$folder"
