"""A function that calls itself until its depth is passed, within each budget from 1 to 2000 instructions: `run`, and
`build` and then `run-hex`, write the same bytes with the same status, and what a smaller budget wrote before its
closing line begins what a greater one writes. And a class of two boards, of which one hears what the other sends,
within each budget from 1 to 300: what is written is whole, or a prefix for some board and moment, which a greater
budget never takes back. PROGRAM is sts, as bin/program names it where it is left out.

    checks/budgets.sh [PROGRAM]
"""
import subprocess
import sys

from repository import folder_with_sts

folder = folder_with_sts(*sys.argv[1:])
with open(f"{folder}/p.ts", "w", encoding="ascii") as file:
    file.write("function f(n: number): void {\n    serial.writeNumber(n)\n    f(n + 1)\n}\nf(1)\n")


def call(*words):
    ran = subprocess.run(["./sts", *words], cwd=folder, stdout=subprocess.PIPE, stderr=subprocess.DEVNULL, timeout=20)
    return ran.returncode, ran.stdout


status, text = call("build", "p.ts")
with open(f"{folder}/p.hex", "wb") as file:
    file.write(text)
before, ended, wrong = b"", 0, int(status != 0)
for budget in range(1, 2001):
    run, hexed = call("run", "p.ts", f"--budget={budget}"), call("run-hex", "p.hex", f"--budget={budget}")
    lines = run[1][: run[1].rfind(b"\n", 0, -1) + 1]
    if run != hexed or run[0] not in (3, 4) or not lines.startswith(before) or not run[1].endswith(b"panic 0 102\n" if run[0] == 3 else b"budget 0\n"):
        wrong += 1
        print(f"budgets: {budget}: {run}, {hexed}")
    before, ended = lines, ended + (run[0] == 3)
print(f"budgets: 2000 budgets, {ended} of them enough, {wrong} wrong")

# The lines of the class, each with its moment and its board, and those that close it.
LINES = [(0, 0, b"0 0 radio 5\n"), (1, 1, b"1 1 serial 35\n")]
CLOSING = b"0 end 1 quiet\n1 end 1 quiet\n"
for name, content in (("p0.ts", "radio.sendNumber(5)"), ("p1.ts", "control.onEvent(200, 0, function () { serial.writeNumber(control.eventValue()) })"), ("s.json", '{"end":1000,"events":[]}'),
                      ("c.json", '{"end":1000,"boards":[{"program":"p0.ts","script":"s.json"},{"program":"p1.ts","script":"s.json"}],"lose":[]}')):
    with open(f"{folder}/{name}", "w", encoding="ascii") as file:
        file.write(content)
# What a budget may leave: where it is cut, how many lines of that board at that moment stand, and what is written.
allowed = {}
for moment, board in ((0, 0), (0, 1), (1, 1)):
    before = [text for at, number, text in LINES if (at, number) < (moment, board)]
    own = [text for at, number, text in LINES if (at, number) == (moment, board)]
    for count in range(len(own) + 1):
        allowed[b"".join([*before, *own[:count], b"%d budget %d\n" % (board, moment)])] = (moment, board, count)
whole = b"".join(text for *_, text in LINES) + CLOSING
place, kinds = (0, 0, 0), set()
for budget in range(1, 301):
    status, out = call("class", "c.json", f"--budget={budget}")
    now = (2, 0, 0) if (status, out) == (0, whole) else allowed.get(out) if status == 4 else None
    if now is None or now < place:
        wrong += 1
        print(f"budgets: a class's of {budget}: {status}, {out}")
    else:
        place = now
    kinds.add(out)
print(f"budgets: 300 budgets of a class, {len(kinds)} transcripts, {wrong} wrong")
sys.exit(1 if wrong or place != (2, 0, 0) or len(kinds) < 4 else 0)
