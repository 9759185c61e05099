#!/bin/sh
# The tasks of examples/.vscode/ do what they say, in a copy of bin/ and examples/ whose path has a space: each is run on a program with a script and on one without, and the problem matcher finds the file,
# the line and the column of a refused one, and nothing in the answer to one that runs. Each JSON file of examples/ has the schema of its kind by settings.json, and no other, and where
# python3's jsonschema is there it is valid by it. PROGRAM is sts and VIEW view, as bin/program names them where they are left out.
# usage: checks/editor.sh [PROGRAM [VIEW]]
set -eu
top=$(cd "$(dirname "$0")/.." && pwd)
program=${1:-$("$top/bin/program")}
view=${2:-$("$top/bin/program" view)}
exec python3 "$top/checks/editor.py" "$program" "$view"
