#!/bin/sh
# Gives 2,000 made and mutated files of each kind to its schema in examples/schemas/, as python3's jsonschema reads it, and to the toolchain: scripts to `sts run` of an empty program, arrivals to `sts run-at` of it, class
# files to `rows input_rows`, which reads them with the library that `sts` has. Each file that is taken there the schema takes. What the schema takes and the toolchain refuses is one of these, which a schema can't say,
# and each must come often enough:
#   order   an entry or an arrival is earlier than the one before, or an entry is behind the end
#   number  a whole number is written with a point or an exponent, or is -0
#   depth   the text is nested deeper than 127, in a member that a later one of its name replaces
# How many entries there are is said by the schemas too, and so are all other forms. Text that is no JSON comes to no schema. PROGRAM is sts, as bin/program names it where it is left out; ROWS is the program rows of tests/,
# as bin/compile makes it.
# usage: checks/schemas.sh [PROGRAM [ROWS]]
set -eu
top=$(cd "$(dirname "$0")/.." && pwd)
python3 -c 'import jsonschema' 2>/dev/null || {
    echo "schemas: python3 has no jsonschema (Debian: python3-jsonschema)"
    exit 77
}
program=${1:-$("$top/bin/program")}
rows=${2:-$("$top/bin/compile" --fast rows)}
folder=$(mktemp -d)
trap 'rm -rf "$folder"' EXIT
cp "$program" "$folder/sts"
python3 "$top/checks/schemas.py" "$top/examples/schemas" "$folder" "$rows"
