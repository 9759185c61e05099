#!/bin/sh
# Makes docs/page.png, a picture of docs/TEACHERS.md: the page of examples/counter.ts on its script at 1200 ms, as headless Chromium shows it (Debian's `chromium`).
# usage: checks/picture.sh        by hand, where the page changed
set -eu
top=$(dirname "$(dirname "$(readlink -f "$0")")")
command -v chromium >/dev/null || { echo 'there is no chromium'; exit 77; }
work=$(mktemp -d)
trap 'rm -rf "$work"' EXIT
cd "$top"
bin/show examples/counter.ts examples/counter.json --html "$work/page.html"
chromium --headless --no-sandbox --disable-gpu --hide-scrollbars --user-data-dir="$work/home" --window-size=860,470 --virtual-time-budget=2000 --screenshot="$top/docs/page.png" "file://$work/page.html#t=1200" 2>/dev/null
