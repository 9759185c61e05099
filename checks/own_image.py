"""The recipe of docs/MACHINE.md for an image of one's own, as it is written there: the code of its block `asm` goes into
own.s, and each line of its block `console` that begins with `$` is run and writes the lines below it; so are those of
examples/image/README.md, for C. The numbers of examples/image/sts.h are those of the document's table, and
checks/services.c, which calls each of them, writes checks/services.txt, with three degrees of the compiler's care.
Without GNU's tools for ARM it is skipped (status 77). PROGRAM is sts, as bin/program names it where it is left out.

    checks/own_image.sh [PROGRAM]
"""
import os
import re
import shutil
import subprocess
import sys

from repository import TOP, needs, own_folder, program, read

needs("own_image", "binutils-arm-none-eabi, gcc-arm-none-eabi", *(f"arm-none-eabi-{it}" for it in ("as", "ld", "objcopy", "objdump", "gcc")))
folder = own_folder()
os.mkdir(f"{folder}/bin")
shutil.copy(program(*sys.argv[1:] or [None]), f"{folder}/bin/sts")
shutil.copytree(f"{TOP}/examples", f"{folder}/examples")
COMPILER = "arm-none-eabi-gcc -mcpu=cortex-m0 -mthumb -Wall -Wextra -Werror -ffreestanding -nostdlib -Iexamples/image -T examples/image/board.ld -o services.elf examples/image/start.S"
count = wrong = 0


def expect(what, had, wanted):
    global count, wrong
    count += 1
    if had != wanted:
        wrong += 1
        print(f"own_image: {what}: {had!r} in place of {wanted!r}")


def call(line):
    """A line's status, where it isn't that of a run, and what it writes; what a compiler says is an error."""
    ran = subprocess.run(["sh", "-c", line], cwd=folder, stdout=subprocess.PIPE, stderr=subprocess.PIPE, timeout=60, check=False)
    return ran.returncode if line.startswith("arm-") or ran.returncode != 3 else 0, ran.stdout.decode(), ran.stderr.decode() if line.startswith("arm-") else ""


def shown(text):
    """The lines of a block `console`, each with what stands below it. A line that ends with a backslash goes on."""
    (lines,) = re.findall(r"(?ms)^```console\n(.*?)^```$", text)
    return re.findall(r"(?m)^\$ ((?:.*\\\n)*.*)\n((?:[^$\n].*\n)*)", lines)


document = read("docs/MACHINE.md")
section = re.search(r"(?ms)^### An image of one's own$(.*?)^##", document)[1]
with open(f"{folder}/own.s", "w", encoding="ascii") as file:
    (code,) = re.findall(r"(?ms)^```asm\n(.*?)^```$", section)
    file.write(code)
for line, due in [*shown(section), *shown(read("examples/image/README.md"))]:
    expect(line, call(line), (0, due, ""))

table = re.search(r"(?ms)^## Services$(.*?)^## ", document)[1]
numbers = [int(it) for row in re.findall(r"(?m)^\| ([\d, ]+) \|", table) for it in row.split(", ")]
header = [int(it) for it in re.findall(r"(?m)^#define STS_\w+ (\d+)$", read("examples/image/sts.h").partition("/* Sources")[0])]
expect("the numbers of sts.h", header, numbers)
for care in ("-O0", "-Os", "-O2"):
    expect(f"services, {care}", call(f"{COMPILER} {care} '{TOP}/checks/services.c'"), (0, "", ""))
    code = subprocess.run(["arm-none-eabi-objdump", "-d", "services.elf"], cwd=folder, stdout=subprocess.PIPE, check=True).stdout.decode()
    expect(f"services that are called, {care}", sorted({int(it) for it in re.findall(r"\tsvc\t(\d+)", code)}), numbers)
    expect(f"services as HEX, {care}", call("arm-none-eabi-objcopy -O ihex services.elf services.hex"), (0, "", ""))
    expect(f"services, what they write, {care}", call("bin/sts run-hex services.hex"), (0, read("checks/services.txt"), ""))
# (variables that don't fit are the linker's to refuse)
for words, status in ((256, 0), (257, 1)):
    with open(f"{folder}/many.c", "w", encoding="ascii") as file:
        file.write(f"int many[{words}];\nint main(void) {{ return many[{words - 1}]; }}\n")
    expect(f"variables of {words} words", call(f"{COMPILER} many.c")[0], status)
print(f"own_image: {count} commands and tables, {wrong} wrong")
sys.exit(1 if wrong or len(numbers) != 24 or count < 20 else 0)
