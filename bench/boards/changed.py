#!/usr/bin/env python3
"""Changes one rule of the emulation at a time and says whether the comparison notices: a measure of what the random images reach.

usage: bench/boards/changed.py PROGRAM [COUNT [WORD..]]

For each change of changed.txt (those with one of the words in their name, where words are given) the images of 200 numbers run, then those of
2,000, then those of COUNT (30000), until a run differs. Prints for each change how many runs differed; the status is 1 where one was not noticed.
"""
import concurrent.futures
import os
import pathlib
import re
import subprocess
import sys
import tempfile

HERE = pathlib.Path(__file__).resolve().parent
FILES = ["boards.c", "make.c", "assemble.c", "script.c", "world.c", "core.c", "font.c"]


def changes():
    """Gives each change of changed.txt: its name, its file, and what is put in place of what."""
    for part in re.split(r"\n\s*\n", (HERE / "changed.txt").read_text(encoding="utf-8").strip()):
        name, file, old, new = (line.split(": ", 1)[1].replace("\\n", "\n") for line in part.split("\n"))
        yield name, file, old, new


def differing(program, folder, first, count):
    """Gives how many runs differ; a process that ended otherwise counts as one."""
    ran = subprocess.run([f"{folder}/boards", program, str(first), str(count), "7"], cwd=folder, stdout=subprocess.PIPE, text=True, errors="replace", check=False)
    found = re.search(r"^runs that differ\t(\d+)$", ran.stdout, re.M)
    return int(found[1]) if found else 1


def tried(program, most, change):
    name, file, old, new = change
    with tempfile.TemporaryDirectory() as folder:
        for it in HERE.glob("*.[ch]"):
            text = it.read_text(encoding="utf-8")
            if it.name == file:
                if text.count(old) != 1:
                    return name, None
                text = text.replace(old, new)
            pathlib.Path(folder, it.name).write_text(text, encoding="utf-8")
        subprocess.run([os.environ.get("CC", "cc"), "-O1", "-w", "-o", f"{folder}/boards", *(f"{folder}/{it}" for it in FILES)], check=True)
        for first, count in ((0, 200), (200, 1800), (2000, most - 2000)):
            found = differing(program, folder, first, count)
            if found:
                return name, f"{found} runs of {2 * count} differ"
    return name, ""


def main():
    program, most, words = os.path.abspath(sys.argv[1]), int(sys.argv[2]) if len(sys.argv) > 2 else 30000, sys.argv[3:]
    chosen = [it for it in changes() if not words or any(word in it[0] for word in words)]
    missed = 0
    with concurrent.futures.ThreadPoolExecutor(int(os.environ.get("JOBS", os.cpu_count()))) as pool:
        for name, said in pool.map(lambda it: tried(program, most, it), chosen):
            missed += not said
            print(f"{name}: {'cannot be put in' if said is None else said or 'NOT NOTICED'}", flush=True)
    print(f"{len(chosen)} changes, {missed} not noticed")
    return missed != 0


if __name__ == "__main__":
    sys.exit(main())
