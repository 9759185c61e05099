#!/bin/sh
# Builds a small program over crates of this repository in a folder outside it, and prints the program's path.
# usage: bench/program.sh FOLDER MAIN LIST CRATE.., where MAIN is the program's source, LIST are the libraries that it names, as in
# crates.txt, and the CRATEs are all that it stands on, the lowest first. The program's own specs/ and proofs/ may stand beside MAIN, their files
# with .txt behind their names, since rt takes no .antt outside a crate.
set -eu
top=$(cd "$(dirname "$0")/.." && pwd)
folder=$1
main=$2
list=$3
shift 3
mkdir -p "$folder/crates/timed/src"
cp "$main" "$folder/crates/timed/src/main.rt"
for part in specs proofs; do
    if [ -d "$(dirname "$main")/$part" ]; then cp -r "$(dirname "$main")/$part" "$folder/crates/timed/"; fi
done
find "$folder/crates/timed" -name '*.antt.txt' -exec sh -c 'mv "$1" "${1%.txt}"' _ {} \;
: > "$folder/crates.txt"
for crate in "$@"; do
    mkdir -p "$folder/crates/$crate"
    for part in src specs proofs; do
        if [ -d "$top/crates/$crate/$part" ]; then cp -r "$top/crates/$crate/$part" "$folder/crates/$crate/"; fi
    done
    grep "^$crate:" "$top/crates.txt" >> "$folder/crates.txt"
done
echo "timed: $list" >> "$folder/crates.txt"
(cd "$folder/crates/timed" && rt run -- 1) > "$folder/build.log" 2>&1 || true
program=$folder/crates/timed/out/timed
[ -x "$program" ] || {
    echo "the program was not built, see $folder/build.log" >&2
    exit 1
}
echo "$program"
