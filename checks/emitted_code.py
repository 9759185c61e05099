"""Functions of flat code with their code, written by hand in the words of an assembler (checks/emitted_code.txt), and the bytes that GNU as for ARM
gives: tests/thumb_rows is run on the functions, and must write these bytes. They are the last rows of its two files, behind the title that both have. With --write these are made
anew of them."""

import os
import subprocess
import sys
import tempfile

top = os.path.dirname(os.path.dirname(os.path.abspath(__file__)))
crate = os.path.join(top, "tests", "thumb_rows")
TITLE = "-- emitted functions\n"


def blocks(path):
    row, code = None, []
    for line in open(path, encoding="utf-8"):
        if line.startswith("#"):
            continue
        if line.startswith("row "):
            if row is not None:
                yield row, "".join(code)
            row, code = line[4:].rstrip("\n"), []
        else:
            code.append(line)
    yield row, "".join(code)


def assembled(code, folder):
    source, object_file, binary = (os.path.join(folder, name) for name in ("code.s", "code.o", "code.bin"))
    with open(source, "w", encoding="utf-8") as out:
        out.write("        .syntax unified\n        .cpu cortex-m0\n        .thumb\n" + code + "        .pool\n")
    subprocess.run(["arm-none-eabi-as", "-o", object_file, source], check=True)
    subprocess.run(["arm-none-eabi-objcopy", "-O", "binary", object_file, binary], check=True)
    return open(binary, "rb").read().hex()


with tempfile.TemporaryDirectory() as folder:
    rows = [(row, assembled(code, folder)) for row, code in blocks(os.path.join(top, "checks", "emitted_code.txt"))]

# 11 pieces at the entry, a label and two pieces a copy, and a label and three for the return
rows.append(("copies 20000", f"{11 + 3 * 20000 + 4} pieces"))
wanted = {"stdin": "".join(f"emit {row}\n" for row, code in rows), "stdout": "".join(code + "\n" for row, code in rows)}
wrong = 0
for name, text in wanted.items():
    path = os.path.join(crate, name)
    before, title, there = open(path, encoding="utf-8").read().partition(TITLE)
    if sys.argv[1:] == ["--write"]:
        open(path, "w", encoding="utf-8").write(before + TITLE + text)
    elif not title or there != text or name == "stdin" and "\nemit " in before:
        print(f"emitted_code: the end of {path} isn't what the assembler gives")
        wrong += 1
print(f"emitted_code: {len(rows)} rows, {wrong} wrong")
sys.exit(1 if wrong else 0)
