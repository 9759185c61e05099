#!/bin/sh
# Lists of pieces are laid, and the bytes are compared: those that were worked by hand, and 10,000 by chance with a layout that
# checks/layout_peers.py makes from the rules alone; some of each with the bytes of GNU as for ARM, to which their branches and pools
# are written out. Without the assembler the whole check is skipped (status 77), before anything is built.
# ROWS is the program rows of tests/, as bin/compile --fast makes it where it is left out: its rows `lay` are these lists.
# usage: checks/layout_peers.sh [ROWS]
set -eu
top=$(cd "$(dirname "$0")/.." && pwd)
command -v arm-none-eabi-as > /dev/null || {
    echo "layout_peers: arm-none-eabi-as is missing (package binutils-arm-none-eabi)"
    exit 77
}
folder=$(mktemp -d)
trap 'rm -rf "$folder"' EXIT
rows=${1:-$("$top/bin/compile" --fast rows)}
python3 "$top/checks/layout_peers.py" "$folder" "$rows"
