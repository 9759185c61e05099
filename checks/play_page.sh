#!/bin/sh
# Opens bin/play's page in headless Chromium and uses it as a reader does: a program is typed, refused and mended, buttons are pressed by pointer and by keys, the script is recorded, rewound and saved, and `bin/sts run` writes of the
# saved files what was shown. The lesson of docs/TEACHERS.md is typed, pressed and seen; a page of another origin and another name of this machine get nothing. Where there is no chromium it says so.
# usage: checks/play_page.sh
set -eu
top=$(cd "$(dirname "$0")/.." && pwd)
command -v chromium >/dev/null || command -v chromium-browser >/dev/null || { echo "play_page: there is no chromium here, so the page isn't looked at"; exit 77; }
exec python3 "$top/checks/play_page.py"
