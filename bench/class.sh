#!/bin/sh
# Classes of 1 to 8 boards over 1,000,000 ms, beside `run` of one board: the game of examples/, which goes on to the end, and a ping, in which the boards send in turn, a number each 100 ms, and each
# writes what it hears, so that the work of a board is the same however many there are. Then eight boards of ping with 4,096 losses that change nothing: of what nobody sends, and from boards to themselves as they send.
# Told are the least seconds of a processor of some runs each. A board is to take at most 1.3 times the time of `run`, and losses at most half as much again: else the status is 1.
# PROGRAM is sts, as bin/program names it where it is left out.
# usage: bench/class.sh [PROGRAM [RUNS]]
set -eu
top=$(cd "$(dirname "$0")/.." && pwd)
program=${1:-$("$top/bin/program")}
exec python3 - "$program" "$top/examples" "${2:-5}" <<'PYTHON'
import json
import os
import resource
import subprocess
import sys
import tempfile

program, examples, runs = os.path.abspath(sys.argv[1]), sys.argv[2], int(sys.argv[3])
END, MOST, LOSSES = 1_000_000, 8, 4096
BUDGET = "--budget=2147483648"
wrong = 0


def write(name, content):
    with open(os.path.join(folder, name), "w", encoding="ascii") as file:
        file.write(content)


def seconds(*words):
    least = []
    for _ in range(runs):
        before = resource.getrusage(resource.RUSAGE_CHILDREN)
        ran = subprocess.run([program, *words, BUDGET], cwd=folder, stdout=subprocess.PIPE, stderr=subprocess.DEVNULL, check=True)
        after = resource.getrusage(resource.RUSAGE_CHILDREN)
        least.append(after.ru_utime + after.ru_stime - before.ru_utime - before.ru_stime)
    return min(least), ran.stdout


def class_of(programs, lose=()):
    write("class.json", json.dumps({"end": END, "boards": [{"program": it, "script": "end.json"} for it in programs], "lose": list(lose)}))
    return seconds("class", "class.json")


def ping(number, boards):
    name = f"ping{number}of{boards}.ts"
    write(name, f"control.onEvent(200, 0, function () {{ serial.writeNumber(control.eventValue()) }})\nbasic.pause({100 * number})\nwhile (true) {{ radio.sendNumber({number}); basic.pause({100 * boards}) }}\n")
    return name


def judge(what, came, beside, most):
    global wrong
    wrong += came > most * beside
    print(f"class: {what}: {came:.4f} s, {came / beside:.2f} times")


with tempfile.TemporaryDirectory() as folder:
    with open(f"{examples}/game.ts", encoding="ascii") as file:
        write("game.ts", file.read().replace("turn < 1", "turn < 1000000").replace("drops[turn]", "drops[turn % 5]"))
    write("end.json", json.dumps({"end": END, "events": []}))
    for name, programs in (("game", lambda boards: ["game.ts"] * boards), ("ping", lambda boards: [ping(at, boards) for at in range(boards)])):
        alone, out = seconds("run", programs(1)[0], "end.json")
        lines = out.count(b"\n")
        print(f"class: {name} by run: {alone:.4f} s, {lines} lines")
        for boards in range(1, MOST + 1):
            took, out = class_of(programs(boards))
            lines = out.count(b"\n") // boards
            judge(f"{boards} of {name}, each, with {lines} lines", took / boards, alone, 1.3)
    pings = [ping(at, MOST) for at in range(MOST)]
    none, plain = class_of(pings)
    for what, losses in (("of what nobody sends", [{"at": 100 * at + 50, "from": at % MOST, "to": (at + 1) % MOST} for at in range(LOSSES)]),
                         ("from boards to themselves", [{"at": 100 * at + (at % MOST == 0), "from": at % MOST, "to": at % MOST} for at in range(LOSSES)]),
                         ("at one moment", [{"at": 50, "from": at % MOST, "to": at // MOST % MOST} for at in range(LOSSES)])):
        took, out = class_of(pings, losses)
        judge(f"8 of ping with {LOSSES} losses {what}", took, none, 1.5)
        wrong += out != plain
print(f"class: {wrong} wrong")
sys.exit(1 if wrong else 0)
PYTHON
