"""The example game's text, a script of three entries, and the HEX text that `build` writes of a small program, each cut
behind each of its bytes. A text that is accepted is run, and its transcript is that of an independent reading of the
rules (bench/programs/reading.py); else it is refused. Nothing but the whole script is a script, and nothing but the
whole HEX text, with or without its last line's end, is an image. PROGRAM is sts, as bin/program names it where it is
left out.

    checks/cuts.sh [PROGRAM]
"""
import re
import shutil
import subprocess
import sys

from repository import TOP, folder_with_sts

folder, reading = folder_with_sts(*sys.argv[1:]), f"{TOP}/bench/programs/reading.py"
for it in ("game.ts", "game.json"):
    shutil.copy(f"{TOP}/examples/{it}", folder)
SUM, SUMMED = b"serial.writeNumber(2147483647 + 1)", b"0 serial 2d32313437343833363438\nend %d quiet\n"
SCRIPT = b'{"end":1000,"events":[{"at":100,"do":"down","button":"A"},{"at":300,"do":"up","button":"A"},{"at":300,"do":"raise","source":50,"value":7}]}'
CLOSED = {0: b"end ", 3: b"panic ", 4: b"budget "}
wrong = 0


def run(*words):
    ran = subprocess.run(words, cwd=folder, stdout=subprocess.PIPE, stderr=subprocess.DEVNULL, timeout=60)
    return ran.returncode, ran.stdout


def write(name, content):
    with open(f"{folder}/{name}", "wb") as file:
        file.write(content)


def judge(right, what, came):
    global wrong
    if not right:
        wrong += 1
        print(f"cuts: {what}: {came}")


def cuts_of(whole, name):
    for length in range(len(whole) + 1):
        write(name, whole[:length])
        yield length


with open(f"{folder}/game.ts", "rb") as file:
    game = file.read()
accepted = 0
for length in cuts_of(game, "cut.ts"):
    status, out = run("./sts", "run", "cut.ts", "game.json")
    if status == 10:
        judge(re.fullmatch(rb"refused ([1-9]|1[0-5]) [1-9]\d* [1-9]\d*\n", out), f"text, {length} bytes", (status, out))
    else:
        accepted += 1
        read = run(sys.executable, reading, "cut.ts", "game.json")
        judge(status in CLOSED and out.splitlines()[-1].startswith(CLOSED[status]) and out == read[1], f"text, {length} bytes", (status, out, read))
write("sum.ts", SUM)
for length in cuts_of(SCRIPT, "cut.json"):
    came = run("./sts", "run", "sum.ts", "cut.json")
    judge(came == ((0, SUMMED % 300) if length == len(SCRIPT) else (11, b"script refused 1\n")), f"script, {length} bytes", came)
hexed = run("./sts", "build", "sum.ts")[1]
for length in cuts_of(hexed, "cut.hex"):
    status, out = run("./sts", "run-hex", "cut.hex")
    whole = length >= len(hexed) - 1
    judge((status, out) == (0, SUMMED % 0) if whole else status == 12 and re.fullmatch(rb"image refused [1-7]\n", out), f"HEX, {length} bytes", (status, out))
judge(accepted > 10 and len(hexed) > 100, "accepted", accepted)
print(f"cuts: {len(game) + 1} texts, {accepted} accepted, {len(SCRIPT) + 1} scripts, {len(hexed) + 1} HEX texts, {wrong} wrong")
sys.exit(1 if wrong else 0)
