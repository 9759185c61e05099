#!/usr/bin/env python3
"""Gives generated programs with scripts (generate.py) to a built program, and compares with the independent reading of the rules (reading.py).

Of each program: `check` accepts it; `run` with statistics writes what the reading gives; `build` and then `run-hex` write what `run` writes; and `run` within a budget drawn by
chance writes a prefix of that, closed by `budget T`, or the whole. A program that the reading doesn't finish within some time is compared by its images alone.

usage: compare.py PROGRAM SEED COUNT [PROCESSES]
"""
import collections
import json
import multiprocessing
import os
import random
import re
import shutil
import signal
import subprocess
import sys
import tempfile
import time

sys.path.insert(0, os.path.dirname(os.path.abspath(__file__)))
import generate
import reading

KEPT = os.path.join(tempfile.gettempdir(), "sts-programs")
NAMED = {0: rb"end \d+ (?:quiet|script)\n", 3: rb"panic \d+ \d+\n", 4: rb"budget \d+\n"}


class Late(Exception):
    pass


def late(*_):
    raise Late()


def read(text, script):
    signal.signal(signal.SIGALRM, late)
    signal.alarm(20)
    try:
        return "\n".join(reading.transcript(text, script, True)).encode() + b"\n"
    except (Late, RecursionError):
        return None
    finally:
        signal.alarm(0)


def faults(program, seed, folder, seen):
    text, script = generate.made(seed)
    for name, content in ("p.ts", text), ("s.json", json.dumps(script)):
        with open(os.path.join(folder, name), "w", encoding="utf-8") as file:
            file.write(content)

    def call(*words):
        ran = subprocess.run([program, *words], cwd=folder, stdout=subprocess.PIPE, stderr=subprocess.DEVNULL, timeout=60)
        return ran.returncode, ran.stdout

    checked = call("check", "p.ts")
    if checked != (0, b"accepted\n"):
        seen["refused"] += 1
        return [f"check: {checked}"] if not checked[1].startswith(b"refused 15 ") else []
    found = []
    status, out = call("run", "p.ts", "s.json", "--stats")
    seen[status] += 1
    lines = out[: out.rfind(b"stats ")]
    if status not in NAMED or not re.search(NAMED[status] + rb"\Z", lines):
        found.append(f"run: {status}, {out[-60:]!r}")
    wanted = read(text, script) if status != 4 else None
    seen["read"] += wanted is not None
    if wanted is not None and wanted != out:
        found.append(f"run: {out[-120:]!r}, and the rules give {wanted[-120:]!r}")
    built = call("build", "p.ts")
    with open(os.path.join(folder, "h.hex"), "wb") as file:
        file.write(built[1])
    ran = call("run-hex", "h.hex", "s.json")
    if built[0] != 0 or ran != (status, lines):
        found.append(f"build, run-hex: {built[0]}, {ran[0]}, {ran[1][-60:]!r} and not {lines[-60:]!r}")
    budget = random.Random(seed).choice([1, 10, 100, 1000, 10000, 100000]) * random.Random(-seed - 1).randrange(1, 10)
    cut, part = call("run", "p.ts", "s.json", f"--budget={budget}")
    if cut == 4:
        shown = part[: part.rfind(b"budget ")]
        if not re.search(NAMED[4] + rb"\Z", part) or not lines.startswith(shown):
            found.append(f"run --budget {budget}: {part[-60:]!r} is no prefix")
        seen["cut"] += 1
    elif (cut, part) != (status, lines):
        found.append(f"run --budget {budget}: {cut}, {part[-60:]!r}")
    return found


def work(order):
    program, first, count = order
    folder = tempfile.mkdtemp()
    seen, wrong = collections.Counter(), []
    for seed in range(first, first + count):
        found = faults(program, seed, folder, seen)
        if found:
            kept = os.path.join(KEPT, str(seed))
            os.makedirs(kept, exist_ok=True)
            for name in "p.ts", "s.json":
                shutil.copy(os.path.join(folder, name), kept)
            wrong.append(f"program {seed} (in {kept}): " + "; ".join(found))
    shutil.rmtree(folder)
    return seen, wrong


def main():
    program, first, count = os.path.abspath(sys.argv[1]), int(sys.argv[2]), int(sys.argv[3])
    processes = int(sys.argv[4]) if len(sys.argv) > 4 else os.cpu_count()
    step = max(1, min(50, -(-count // processes)))
    orders = [(program, at, min(step, first + count - at)) for at in range(first, first + count, step)]
    begun = time.monotonic()
    with multiprocessing.Pool(processes) as pool:
        results = pool.map(work, orders, 1)
    seen, wrong = sum((it[0] for it in results), collections.Counter()), [line for it in results for line in it[1]]
    for line in wrong[:20]:
        print(line)
    told = ", ".join(f"{key}: {n}" for key, n in sorted(seen.items(), key=str))
    print(f"programs: {count} from {first} on in {time.monotonic() - begun:.0f} s; {told}; {len(wrong)} wrong")
    sys.exit(1 if wrong else 0)


if __name__ == "__main__":
    main()
