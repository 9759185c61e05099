#!/bin/sh
# Emitted code is run by another program's processor, QEMU, and gives what the ops of flat code mean as checks/emitted_runs.py has them: operators on
# numbers at the ends of their range and by chance, loops, calls, fields, items, globals, panics with their codes, and the depth at its limit, each with temporaries in registers,
# slots and incoming words. Behind each call r4 to r7 and SP are as they were. Without the assembler or QEMU it is skipped (status 77).
# ROWS is the program rows of tests/, as bin/compile --fast makes it where it is left out.
# usage: checks/emitted_runs.sh [ROWS]
set -eu
for tool in arm-none-eabi-as qemu-arm; do
    command -v "$tool" > /dev/null || {
        echo "emitted_runs: $tool is missing (packages binutils-arm-none-eabi and qemu-user)"
        exit 77
    }
done
folder=$(mktemp -d)
trap 'rm -rf "$folder"' EXIT
top=$(cd "$(dirname "$0")/.." && pwd)
rows=${1:-$("$top/bin/compile" --fast rows)}
python3 "$top/checks/emitted_runs.py" "$folder" "$rows"
