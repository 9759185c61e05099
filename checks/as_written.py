"""What the documents show is run as it is written there: each line of README.md and docs/*.md that begins with `bin/sts`,
`bin/view` or `bin/show`, alone or behind `$`, writes the lines below it, or else the next block; each `sts ..` of the
tables of words in README.md and docs/COMMANDS.md is taken, with a file in place of P, S, A, C and H and a number in
place of N; each example of a refusal in docs/LANGUAGE.md is refused by its code at its place; and each of those that
TypeScript refuses there (TS and a number) is accepted. A line behind `$ ` may also begin with `cat`, to show a file of
examples/, or with `echo`, to give text to the program; a block behind a line that ends with the name of a file of
examples/ and a colon is that file. PROGRAM is sts and VIEW view, as bin/program names them where
they are left out.

    checks/as_written.sh [PROGRAM [VIEW]]
"""
import glob
import os
import re
import shutil
import subprocess
import sys

from repository import TOP, own_folder, program

given, folder = dict(enumerate(sys.argv[1:])), own_folder()
os.mkdir(f"{folder}/bin")
for at, name in enumerate(("sts", "view")):
    shutil.copy(program(given.get(at), name), f"{folder}/bin/{name}")
for name in ("show", "printable.py"):
    shutil.copy(f"{TOP}/bin/{name}", f"{folder}/bin/{name}")
shutil.copytree(f"{TOP}/examples", f"{folder}/examples")
wrong, counts = [], {"commands": 0, "files": 0, "forms": 0, "refusals": 0, "accepted": 0}


def call(line):
    ran = subprocess.run(["sh", "-c", line], cwd=folder, stdout=subprocess.PIPE, stderr=subprocess.DEVNULL, timeout=60, check=False)
    return ran.returncode, ran.stdout.decode()


def expect(what, had, wanted):
    counts[what[0]] += 1
    if had != wanted:
        wrong.append(f"{what[1]}: {had!r} in place of {wanted!r}")


def blocks_of(text):
    """The blocks of a document that are moved in by four places, each as its lines. Empty lines within a block belong to it."""
    blocks, empty = [[]], 0
    for line in text.split("\n"):
        if line.startswith("    "):
            blocks[-1] += [""] * (empty if blocks[-1] else 0) + [line[4:]]
            empty = 0
        elif not line:
            empty += 1
        elif blocks[-1]:
            blocks.append([])
            empty = 0
        else:
            empty = 0
    return blocks


for document in [f"{TOP}/README.md", *sorted(glob.glob(f"{TOP}/docs/*.md"))]:
    with open(document, encoding="utf-8") as file:
        text = file.read()
    for name, block in re.findall(r"`(examples/[^`]*)`(?: in its place)?:\n\n((?:(?:    .*)?\n)+)", text):
        with open(f"{TOP}/{name}", encoding="utf-8") as file:
            expect(("files", f"{document}, {name}"), re.sub(r"(?m)^    ", "", block).strip("\n"), file.read().strip("\n"))
    blocks = blocks_of(text)
    for number, block in enumerate(blocks):
        begins = [at for at, line in enumerate(block) if re.match(r"(\$ )?bin/(sts|view|show)\b|\$ (cat|echo) ", line)]
        for at, end in zip(begins, [*begins[1:], len(block)]):
            line, due = block[at].removeprefix("$ "), block[at + 1 : end]
            while line.endswith("\\") and due:  # a command goes on in the next line, as in a shell
                line = line[:-1] + due.pop(0).strip()
            if not due and not block[at].startswith("$ ") and number + 1 < len(blocks):
                due = blocks[number + 1]
            # (a document can't show the CR of a line's end)
            expect(("commands", line), call(line)[1].replace("\r\n", "\n"), "".join(f"{it}\n" for it in due))

tables = ""
for document in (f"{TOP}/README.md", f"{TOP}/docs/COMMANDS.md"):
    with open(document, encoding="utf-8") as file:
        tables += file.read()
given = {"P": "examples/counter.ts", "S": "examples/counter.json", "H": "counter.hex", "A": "examples/arrivals/polling.arrivals.json", "C": "examples/class/ping_pong.class.json", "N": "5"}
call("bin/sts build examples/counter.ts > counter.hex")
for row in re.findall(r"(?m)^\| (`sts .*?) \|", tables):
    for form in re.findall(r"`(sts [^`]*)`", row):
        line = "bin/" + " ".join(given.get(word, word) for word in form.split(" "))
        expect(("forms", line), call(line)[0], 0)

with open(f"{TOP}/docs/LANGUAGE.md", encoding="utf-8") as file:
    language = file.read()
for code, example, line, column in re.findall(r"(?m)^\| (\d+) \|.*?\| ((?:`[^`]*` ?)+): line (\d+), column (\d+) \|", language):
    with open(f"{folder}/example.ts", "w", encoding="utf-8") as file:
        file.write("\n".join(re.findall(r"`([^`]*)`", example)))
    expect(("refusals", example), call("bin/sts check example.ts"), (10, f"refused {code} {line} {column}\n"))
for example in re.findall(r"(?m)^\| ((?:`[^`]*` ?)+) \| TS\d+ \|", language):
    with open(f"{folder}/example.ts", "w", encoding="utf-8") as file:
        file.write("\n".join(re.findall(r"`([^`]*)`", example)))
    expect(("accepted", example), call("bin/sts check example.ts"), (0, "accepted\n"))

for it in wrong:
    print(f"as_written: {it}")
print(f"as_written: {', '.join(f'{count} {what}' for what, count in counts.items())}, {len(wrong)} wrong")
sys.exit(1 if wrong or not all(counts.values()) else 0)
