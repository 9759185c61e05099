"""Runs the routine of the switch on QEMU's processor for each number of words, and compares words and instructions with those of tests/thumb_rows.

    checks/switch_runs.py FOLDER

The program has the number of words at a place of its own, where this script writes it. QEMU executes one instruction at a time and tells which; those of the
routine are counted. The last line is 'N numbers of words, I instructions, K wrong'.
"""

import random
import struct
import subprocess
import sys

FOLDER = sys.argv[1]
MOST = 1024
MARK = 0x5EED5EED
ROUTINE = 0x18000

PROGRAM = """
        .syntax unified
        .cpu cortex-m0
        .thumb
        .section .text
        .global _start
        .thumb_func
_start: ldr     r0, =source
        ldr     r1, =target
        ldr     r2, ={mark}
        ldr     r3, =routine + 1
        blx     r3
        movs    r7, #4
        movs    r0, #1
        ldr     r1, =source
        ldr     r2, ={size}
        svc     #0
        movs    r7, #1
        movs    r0, #0
        svc     #0
        .pool
        .section .routine, "ax", %progbits
routine:
        .byte   {code}
        .section .data, "aw", %progbits
source: .word   {source}
target: .word   {target}
"""


def rows(lines):
    given = subprocess.run([sys.argv[2], "thumb_rows"], input="".join(f"switch {it}\n" for it in lines), capture_output=True, text=True)
    found = given.stdout.split("\n")[:-1]
    assert len(found) == len(lines), given.stderr[-500:]
    return found


def assembled(code, source, target):
    """The program's bytes, with MARK for the number of words."""
    text, object_file, program = (f"{FOLDER}/{name}" for name in ("run.s", "run.o", "run"))
    with open(text, "w", encoding="utf-8") as out:
        out.write(PROGRAM.format(mark=MARK, size=4 * (len(source) + len(target)), code=",".join(map(str, code)), source=",".join(map(str, source)),
                                 target=",".join(map(str, target))))
    subprocess.run(["arm-none-eabi-as", "-o", object_file, text], check=True)
    subprocess.run(["arm-none-eabi-ld", "-Ttext=0x10000", f"--section-start=.routine={ROUTINE:#x}", "-Tdata=0x20003000", "-o", program, object_file],
                   check=True, stderr=subprocess.DEVNULL)
    with open(program, "rb") as file:
        return file.read()


def run(image, count, size):
    """The words behind the run, and how many of the routine's instructions were executed."""
    program, log = f"{FOLDER}/run", f"{FOLDER}/log"
    with open(program, "wb") as file:
        file.write(image.replace(struct.pack("<I", MARK), struct.pack("<I", count)))
    ran = subprocess.run(["qemu-arm", "-singlestep", "-d", "exec,nochain", "-dfilter", f"{ROUTINE:#x}+{size}", "-D", log, program], capture_output=True,
                         timeout=60)
    with open(log, encoding="utf-8") as lines:
        steps = sum(line.startswith("Trace") for line in lines)
    return list(struct.unpack(f"<{len(ran.stdout) // 4}I", ran.stdout)), steps


random.seed(1)
source = [random.getrandbits(32) for _ in range(MOST + 8)]
target = [random.getrandbits(32) for _ in range(MOST + 8)]
counts = range(MOST + 1)
head, *lines = rows(["bytes", *(f"{count} routine" for count in counts)])
code = bytes.fromhex(head)
image = assembled(code, source, target)
assert image.count(struct.pack("<I", MARK)) == 1
total = wrong = 0
for count, line in zip(counts, lines):
    words, steps = run(image, count, len(code))
    total += steps
    wanted = [int(part.split()[0]) for part in line.split("|")[1:3]]
    if words != source + source[:count] + target[count:] or [steps, steps] != wanted:
        wrong += 1
        print(f"switch_runs: {count} words: {steps} instructions and {wanted}, words {'right' if words == source + source[:count] + target[count:] else 'wrong'}")
print(f"switch_runs: {len(counts)} numbers of words, {total} instructions, {wrong} wrong")
sys.exit(1 if wrong else 0)
