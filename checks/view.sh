#!/bin/sh
# Runs the program view: on the rows of checks/view.txt; on pages in headless Chromium, whose lights are those of the transcript at ten moments, where no script of the transcript runs and
# nothing is fetched; and compares the sentences that it says with docs/TEACHERS.md, docs/LANGUAGE.md and docs/FORMATS.md. Without Debian's `chromium` the pages are left out, with status 77
# where all else is right.
# usage: checks/view.sh [VIEW [--rows]]        VIEW is view, as bin/program names it where it is left out; with --rows no page is opened.
set -eu
top=$(dirname "$(dirname "$(readlink -f "$0")")")
program=${1:-$("$top/bin/program" view)}
exec python3 "$top/checks/view.py" "$program" ${2:+"$2"}
