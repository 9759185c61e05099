#!/bin/sh
# How long the page of bin/play takes from a press to the picture, over the proved program PLAY (as bin/program names it where it is left out): the server's part, from a request to the end of its answer in one connection, with the
# processor's time and the memory of the process; and, where there is a chromium, the page's own part by its own clock. The program is examples/game.ts, the script grows by a press each time.
# usage: bench/play/run.sh [PRESSES [PLAY]], 200 presses where the number is left out
set -eu
top=$(cd "$(dirname "$0")/../.." && pwd)
exec python3 "$top/bench/play/clicks.py" "${1:-200}" "${2:-$("$top/bin/program" play)}"
