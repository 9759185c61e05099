#!/bin/sh
# The game of examples/ with 500 turns, and with 10,000 (a tenth of the default budget), by `run` and by `run-at` with 4,096 arrivals spread over the run, or behind its end: the least seconds of a
# processor of some runs each. What the first shows is mostly the reading of 250 kB of JSON. PROGRAM is sts, as bin/program names it where it is left out.
# usage: bench/arrivals.sh [PROGRAM [RUNS]]
set -eu
top=$(cd "$(dirname "$0")/.." && pwd)
program=${1:-$("$top/bin/program")}
exec python3 - "$program" "$top/examples" "${2:-5}" <<'PYTHON'
import json
import os
import resource
import subprocess
import sys
import tempfile

program, examples, runs = sys.argv[1], sys.argv[2], int(sys.argv[3])


def seconds(words):
    least = []
    for _ in range(runs):
        before = resource.getrusage(resource.RUSAGE_CHILDREN)
        ran = subprocess.run([program, *words], stdout=subprocess.PIPE, stderr=subprocess.DEVNULL, check=False)
        after = resource.getrusage(resource.RUSAGE_CHILDREN)
        least.append(after.ru_utime + after.ru_stime - before.ru_utime - before.ru_stime)
    return min(least), ran.stdout


def measure(folder, turns):
    # (the game of examples/ has one turn)
    with open(f"{examples}/game.ts", encoding="ascii") as file:
        text = file.read()
    longer = text.replace("turn < 1", f"turn < {turns}").replace("drops[turn]", "drops[turn % 5]")
    with open(f"{examples}/game.json", encoding="ascii") as file:
        script = json.load(file)
    script["end"] = 1200 * turns
    game = [os.path.join(folder, "game.ts"), os.path.join(folder, "game.json")]
    for name, content in zip(game, [longer, json.dumps(script)]):
        with open(name, "w", encoding="ascii") as file:
            file.write(content)
    told = subprocess.run([program, "run", *game, "--stats", "--image"], stdout=subprocess.PIPE, stderr=subprocess.DEVNULL, check=False).stdout
    executed = int(told[told.index(b"\ninstructions ") :].split()[1])

    def arrivals(name, after):
        path = os.path.join(folder, name)
        with open(path, "w", encoding="ascii") as file:
            json.dump({"arrivals": [{"after": after(at), "do": "raise", "source": 999, "value": 1} for at in range(4096)]}, file)
        return path

    run, plain = seconds(["run", *game])
    read, unread = seconds(["run-at", *game, arrivals("far.json", lambda at: 2147483648)])
    come, other = seconds(["run-at", *game, arrivals("near.json", lambda at: 1 + at * (executed - 1) // 4096)])
    same = plain == other == unread
    print(f"arrivals: {turns} turns, {executed} instructions; run {run:.4f} s, run-at with 4096 arrivals {come:.4f} s, {come / run:.2f} times; where none of them comes {read:.4f} s, so that their coming takes {come / read:.2f} times that; the same transcript: {same}")
    return same


with tempfile.TemporaryDirectory() as folder:
    sys.exit(0 if all([measure(folder, turns) for turns in (500, 10_000)]) else 1)
PYTHON
