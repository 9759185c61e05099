#!/bin/sh
# The table of docs/GATE.md, and the lines above it, are what docs/gate.txt gives, which bin/gate writes where the gate passes.
# usage: checks/gate.sh [--write]
exec python3 -B "$(dirname "$0")/gate_table.py" "$@"
