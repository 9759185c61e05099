#!/bin/sh
# The routine of the switch is run by another program's processor, QEMU, for 0 to 1,024 words: it copies them, changes no other word, and takes as many instructions
# as tests/thumb_rows, which executes the same bytes by the instruction table. Without the assembler or QEMU it is skipped (status 77).
# ROWS is the program rows of tests/, as bin/compile --fast makes it where it is left out.
# usage: checks/switch_runs.sh [ROWS]
set -eu
for tool in arm-none-eabi-as qemu-arm; do
    command -v "$tool" > /dev/null || {
        echo "switch_runs: $tool is missing (packages binutils-arm-none-eabi and qemu-user)"
        exit 77
    }
done
folder=$(mktemp -d)
trap 'rm -rf "$folder"' EXIT
top=$(cd "$(dirname "$0")/.." && pwd)
rows=${1:-$("$top/bin/compile" --fast rows)}
python3 "$top/checks/switch_runs.py" "$folder" "$rows"
