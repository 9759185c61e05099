"""What arrives between instructions, through the program sts, as bin/program names it where PROGRAM is left out: no
arrivals give what `run` gives, for each example and for each budget from 1 to 2000 of a function that calls itself
until its depth is passed; and an event that arrives behind each instruction from 1 to 400 of a program that hears it
is heard exactly where that program's run isn't over by then.

    checks/arrivals.sh [PROGRAM]
"""
import glob
import os
import subprocess
import sys

from repository import TOP, folder_with_sts

folder = folder_with_sts(*sys.argv[1:])
EMPTY = '{"end":1000,"events":[]}'
FILES = {
    "none.json": '{"arrivals":[]}',
    "empty.json": EMPTY,
    "deep.ts": "function f(n: number): void {\n    serial.writeNumber(n)\n    f(n + 1)\n}\nf(1)\n",
    "hears.ts": "control.onEvent(50, 0, function () { serial.writeNumber(control.eventValue()) })",
}
for name, text in FILES.items():
    with open(f"{folder}/{name}", "w", encoding="ascii") as file:
        file.write(text)
wrong = 0


def call(*words):
    ran = subprocess.run(["./sts", *words], cwd=folder, stdout=subprocess.PIPE, stderr=subprocess.PIPE, timeout=60)
    return ran.returncode, ran.stdout, ran.stderr


def same(name, first, second):
    global wrong
    if first != second:
        wrong += 1
        print(f"arrivals: {name}: {second[0]}, {second[1][-80:]!r} and not {first[0]}, {first[1][-80:]!r}")


examples = sorted(it for it in glob.glob(f"{TOP}/examples/*.ts") if not it.endswith(".d.ts"))
for it in examples:
    script = it[:-3] + ".json"
    script = script if os.path.exists(script) else "empty.json"
    same(os.path.basename(it), call("run", it, script), call("run-at", it, script, "none.json"))
ended = 0
for budget in range(1, 2001):
    run = call("run", "deep.ts", "empty.json", f"--budget={budget}")
    ended += run[0] == 3
    same(f"a budget of {budget}", run, call("run-at", "deep.ts", "empty.json", "none.json", f"--budget={budget}"))
heard = 0
for number in range(1, 401):
    with open(f"{folder}/one.json", "w", encoding="ascii") as file:
        file.write(f'{{"arrivals":[{{"after":{number},"do":"raise","source":50,"value":7}}]}}')
    over = call("run", "hears.ts", "empty.json", f"--budget={number}")[0] == 0
    heard += not over
    due = (0, b"end 0 quiet\n", b"") if over else (0, b"0 serial 37\nend 0 quiet\n", b"7")
    same(f"behind instruction {number}", due, call("run-at", "hears.ts", "empty.json", "one.json"))
print(f"arrivals: {len(examples)} examples and 2000 budgets, {ended} of them enough, without arrivals; an event behind each of 400 instructions, {heard} times heard; {wrong} wrong")
sys.exit(1 if wrong or not 0 < heard < 400 or len(examples) < 10 else 0)
