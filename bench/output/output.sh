#!/bin/sh
# Bytes of transcripts in a second: programs that do nothing but show something, each once to a file and once to /dev/null, until the budget ends. For each it prints the lines, their bytes, the
# processor's seconds, millions of bytes a second, the microseconds of a line, and, where there is strace, the writes of a line and its words. The best of RUNS (3 if not given) counts.
# usage: bench/output/output.sh [RUNS [PROGRAM]], where PROGRAM is sts, as bin/program names it where it is left out
set -eu
top=$(cd "$(dirname "$0")/../.." && pwd)
runs=${1:-3}
program=${2:-$("$top/bin/program")}
folder=$(mktemp -d)
trap 'rm -rf "$folder"' EXIT
python3 - "$folder" "$runs" "$program" <<'PYTHON'
import os
import shutil
import subprocess
import sys

folder, runs, program = sys.argv[1], int(sys.argv[2]), sys.argv[3]
ROWS = [
    ("a text of 16,300 bytes", 'let s = "' + "x" * 16300 + '"\nwhile (true) {\n    serial.writeString(s)\n}\n', 40000),
    ("a text of 16,300 line ends", 'let s = "' + "\\n" * 16300 + '"\nwhile (true) {\n    serial.writeString(s)\n}\n', 40000),
    ("a text of 1,000 bytes", 'let s = "' + "x" * 1000 + '"\nwhile (true) {\n    serial.writeString(s)\n}\n', 400000),
    ("a text of 2 bytes", 'while (true) {\n    serial.writeString("hi")\n}\n', 4000000),
    ("a number", "while (true) {\n    serial.writeNumber(12345)\n}\n", 4000000),
    ("a frame", "while (true) {\n    led.toggle(0, 0)\n}\n", 4000000),
]


def seconds(command, out):
    """The processor's seconds of a run, whose outputs go to these files."""
    with open(out, "wb") as lines, open(out if out == os.devnull else out + ".err", "wb") as words:
        before = os.times()
        subprocess.run(command, stdout=lines, stderr=words, check=False)
        after = os.times()
    return after.children_user + after.children_system - before.children_user - before.children_system


def writes(command, count):
    """The writes of a run, for each of so many lines."""
    if not shutil.which("strace"):
        return ""
    told = subprocess.run(["strace", "-f", "-c", "-e", "trace=write", "-o", f"{folder}/strace", *command], stdout=subprocess.DEVNULL, stderr=subprocess.DEVNULL, check=False)
    with open(f"{folder}/strace", encoding="ascii") as file:
        calls = [int(line.split()[3]) for line in file if line.split()[-1:] == ["write"]]
    return f", {sum(calls) / count:.2f} writes a line" if told.returncode < 126 else ""


for name, text, budget in ROWS:
    path = f"{folder}/program.ts"
    with open(path, "w", encoding="ascii") as file:
        file.write(text)
    command = [program, "run", path, "--budget", str(budget)]
    for out in (f"{folder}/lines", os.devnull):
        best = min(seconds(command, out) for _ in range(runs))
        if out != os.devnull:
            size = os.path.getsize(out)
            with open(out, "rb") as file:
                count = sum(1 for _ in file)
        where = "/dev/null" if out == os.devnull else "a file"
        print(f"{name}, to {where}: {count} lines, {size} bytes, {best:.2f} s, {size / best / 1e6:.0f} MB/s, {best / count * 1e6:.1f} us a line" + (writes([*command[:-1], str(budget // 40)], max(1, count // 40)) if out == os.devnull else ""))
PYTHON
