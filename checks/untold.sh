#!/bin/sh
# No code of crates/ asks a device for its log (`logged`), but a box that hands the question on: by the answer it could tell a device that tells nothing, as those of the operating system, from one whose words
# a clause speaks of, and write something else to it. What a sink, a folder or a device tells else is ghost, so no code can ask for that.
set -eu
cd "$(dirname "$0")/.."
asks=$(grep -rnE '(\.|::)logged\b' crates --include='*.rt' | grep -v '^crates/board_ports/src/device.rt:[0-9]*: *(\*\*self).logged(at)$' || true)
[ -z "$asks" ] || printf '%s\n' "$asks"
echo "untold: $(printf '%s' "$asks" | grep -c . || true) wrong"
[ -z "$asks" ]
