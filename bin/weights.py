"""What bin/prove and bin/gate know of the crates: who uses whom, how long each takes, and how many are proved at once."""
import collections
import os
import re
import shutil
import sys

TOP = os.path.dirname(os.path.dirname(os.path.abspath(__file__)))
PARTS = ("src", "specs", "proofs")
MEASURED = f"{TOP}/docs/gate.txt"
HEAD = """\
# What the gate took, by crate: the seconds of one processor, the GB that one of its processes held at most, and the lines of code, definitions and proofs
# and the edits that the crate had then. bin/gate --note writes it where the gate passes; its clock and the table in docs/GATE.md are made of it (checks/gate.sh).
"""
Measured = collections.namedtuple("Measured", "seconds gb code definitions proofs edits")
MEMORY_OF_A_CHECK = 3_000_000  # kilobytes


def kit():
    """The folder of the Rattle kit, whose command rt is on the PATH."""
    rt = shutil.which("rt")
    if rt is None:
        sys.exit("sts: the command rt of the Rattle kit, which proves the crates, is not on the PATH")
    return os.path.dirname(os.path.dirname(os.path.realpath(rt)))


def crates():
    """Gives for each crate of crates.txt those of this repository that it uses, and those of the kit."""
    listed = {}
    with open(f"{TOP}/crates.txt", encoding="utf-8") as file:
        for line in file:
            head, _, names = line.partition("#")[0].partition(":")
            if head.strip():
                listed[head.split()[0]] = names.split()
    own = {name: [it for it in names if it in listed] for name, names in listed.items()}
    of_kit = {name: [it for it in names if it not in listed] for name, names in listed.items()}
    return own, of_kit


def files_of(name, parts=PARTS):
    for part in parts:
        for at, folders, files in os.walk(f"{TOP}/crates/{name}/{part}"):
            folders.sort()
            yield from (f"{at}/{file}" for file in sorted(files))


def measured():
    """Gives what docs/gate.txt says of the whole gate, by name, and of each crate."""
    whole, known = {}, {}
    try:
        with open(MEASURED, encoding="utf-8") as it:
            for words in map(str.split, it):
                if words and words[0] == "whole":
                    whole = dict(word.split("=") for word in words[1:])
                elif words and words[0] != "#":
                    known[words[0]] = Measured(int(words[1]), float(words[2]), *map(int, words[3:]))
    except OSError:
        return {}, {}
    return whole, known


def note_measured(whole, known, to=MEASURED):
    """Writes such a file anew, its crates in the order of crates.txt."""
    with open(f"{to}.new", "w", encoding="utf-8") as it:
        it.write(HEAD)
        it.write(f"whole {' '.join(f'{name}={value}' for name, value in whole.items())}\n")
        for name in filter(known.get, crates()[0]):
            it.write(f"{name} {known[name].seconds} {known[name].gb:.1f} {' '.join(map(str, known[name][2:]))}\n")
    os.replace(f"{to}.new", to)


def seconds_known():
    """Gives the seconds of a processor that docs/gate.txt has for crates."""
    return {name: max(1.0, it.seconds) for name, it in measured()[1].items()}


def lines_of(name):
    """Gives how many lines of code, of definitions and of proofs a crate has, and how many edits."""
    counts = []
    for part in PARTS:
        count = 0
        for file in files_of(name, [part]):
            with open(file, "rb") as it:
                count += it.read().count(b"\n")
        counts.append(count)
    edits = 0
    if os.path.exists(f"{TOP}/crates/{name}/edits.txt"):
        with open(f"{TOP}/crates/{name}/edits.txt", encoding="utf-8") as it:
            edits = sum(line.startswith("[") for line in it)
    return *counts, edits


def weight(name, known):
    """Gives about how many seconds of a processor a crate takes: as they are known, else by its lines, of which code weighs most."""
    lines = {".rt": 0, ".antt": 0}
    for file in files_of(name):
        end = os.path.splitext(file)[1]
        if end in lines:
            with open(file, "rb") as it:
                lines[end] += it.read().count(b"\n")
    return known.get(name, 8 + lines[".rt"] / 8 + lines[".antt"] / 60)


def processors():
    return len(os.sched_getaffinity(0))


def at_once():
    """Gives how many crates are proved at once: one for each processor, as many as have memory."""
    with open("/proc/meminfo", encoding="ascii") as it:
        free = int(re.search(r"MemAvailable:\s+(\d+)", it.read())[1])
    return max(1, min(processors(), free // MEMORY_OF_A_CHECK))
