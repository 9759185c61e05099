#!/usr/bin/env python3
"""Gives the programs of checks/types.txt to the built program's `check` and to TypeScript's checker.

usage: checks/type_verdicts.py PROGRAM FOLDER [NODE]

`check` must say of each what its verdict says. TypeScript's checker, where node with it is given, must take exactly the accepted programs, but for those that
say why not.
"""
import json
import re
import subprocess
import sys

program, folder = sys.argv[1:3]
node = sys.argv[3] if len(sys.argv) > 3 else None


def grown(line):
    line = re.sub(r"\{(\d+)\*(.)\}", lambda it: it[2] * int(it[1]), line)
    many = re.match(r"%(\d+) (.*)", line)
    return [many[2].replace("#", str(i)) for i in range(1, int(many[1]) + 1)] if many else [line]


cases, reason = [], {}
for line in open("checks/types.txt", encoding="utf-8").read().split("\n"):
    if line.startswith("-- "):
        verdict, _, why = line[3:].partition(" ~ ")
        cases.append((verdict, why, []))
    elif cases and not line.startswith("# ") and line:
        cases[-1][2].extend(grown(line))

texts = ["\n".join(lines).replace("@", "") for _, _, lines in cases]
peer = [None] * len(texts)
if node:
    ran = subprocess.run([node, "checks/types.js", "examples/board.d.ts"], input=json.dumps(texts), stdout=subprocess.PIPE, text=True, check=True)
    peer = json.loads(ran.stdout)

wrong, codes = 0, {}


def tell(number, what):
    global wrong
    wrong += 1
    print(f"types: program {number}: {what}:\n{texts[number][:300]}")


for number, (verdict, why, lines) in enumerate(cases):
    marked = "\n".join(lines)
    before = marked[: marked.find("@")].split("\n")
    wanted = verdict if verdict == "accepted" else f"{verdict} {len(before)} {len(before[-1]) + 1}"
    if marked.count("@") != (verdict != "accepted"):
        tell(number, "it has no one place")
    codes[verdict] = codes.get(verdict, 0) + 1
    with open(f"{folder}/p.ts", "w", encoding="utf-8") as file:
        file.write(texts[number])
    ran = subprocess.run([program, "check", "p.ts"], cwd=folder, stdout=subprocess.PIPE, text=True)
    if ran.stdout != f"{wanted}\n" or ran.returncode != (0 if verdict == "accepted" else 10):
        tell(number, f"{wanted}, and not {ran.stdout.strip()} with status {ran.returncode}")
    if peer[number] is not None and (not peer[number]) != ((verdict == "accepted") != bool(why)):
        tell(number, f"{wanted}{', other than by TypeScript: ' + why if why else ''}, and TypeScript says {peer[number][:2]}")
print(f"types: {len(cases)} programs ({', '.join(f'{n} {it}' for it, n in sorted(codes.items()))}), {wrong} wrong{'' if node else '; TypeScript was not asked'}")
sys.exit(1 if wrong or len(cases) < 100 or len(codes) < 9 else 0)
