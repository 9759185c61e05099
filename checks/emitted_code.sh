#!/bin/sh
# The rows `emit` of tests/thumb_rows are those of checks/emitted_code.txt, and the bytes that its program must write are what GNU as for ARM gives for the
# code that stands there, written by hand. (That the program writes them, checks/rows.sh shows.) Without the assembler it is skipped (status 77).
# usage: checks/emitted_code.sh [--write]
set -eu
command -v arm-none-eabi-as > /dev/null || {
    echo "emitted_code: arm-none-eabi-as is missing (package binutils-arm-none-eabi)"
    exit 77
}
exec python3 "$(dirname "$0")/emitted_code.py" "$@"
