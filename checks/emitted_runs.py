"""Runs the code of functions of flat code, as tests/thumb_rows writes it, on QEMU's processor, and compares what they give with what their ops mean.

    checks/emitted_runs.py FOLDER

Each function stands in a program of its own: with arguments in the words at SP, RAM where the board has it, and r4 to r7 set. SVC 1 becomes a call of the
program's own panic, and a call of function 0 one of the function itself. The last line is 'N functions, M calls, K wrong'.
"""

import random
import struct
import subprocess
import sys

FOLDER = sys.argv[1]
WORD = 1 << 32
STACK_END = 0x20003F80
PANIC, NULL, INDEX, DEPTH = 2, 105, 104, 102

HARNESS = """
        .syntax unified
        .cpu cortex-m0
        .thumb
        .section .text
        .global _start
        .thumb_func
_start: ldr     r0, =panic + 1
        mov     r8, r0
next:   ldr     r0, =state
        ldr     r1, [r0]
        ldr     r2, [r0, #8]
        cmp     r2, #0
        bne     1f
        b       done
1:      subs    r2, #1
        str     r2, [r0, #8]
        ldr     r3, [r1, #8]
        mov     sp, r3
        ldr     r2, [r1]
        str     r2, [sp]
        ldr     r2, [r1, #4]
        str     r2, [sp, #4]
        adds    r1, #12
        str     r1, [r0]
        str     r3, [r0, #12]
        ldr     r4, =0x44444444
        ldr     r5, =0x55555555
        ldr     r6, =0x66666666
        ldr     r7, =0x77777777
        bl      function
        movs    r1, #0
        .macro  kept register, value
        ldr     r2, =\\value
        eors    r2, \\register
        orrs    r1, r2
        .endm
        kept    r4, 0x44444444
        kept    r5, 0x55555555
        kept    r6, 0x66666666
        kept    r7, 0x77777777
        ldr     r2, =state
        ldr     r3, [r2, #12]
        mov     r2, sp
        eors    r2, r3
        orrs    r1, r2
        beq     store
        movs    r1, #1
        b       store
        .thumb_func
panic:  movs    r1, #2
store:  ldr     r2, =state
        ldr     r3, [r2, #4]
        str     r0, [r3]
        str     r1, [r3, #4]
        adds    r3, #8
        str     r3, [r2, #4]
        b       next
done:   movs    r7, #4
        movs    r0, #1
        ldr     r1, =given
        ldr     r2, =8 * {count}
        svc     #0
        movs    r7, #1
        movs    r0, #0
        svc     #0
        .pool
        .balign 4
function:
        .byte   {code}
        .section .ram, "aw", %progbits
        .word   {ram}
        .section .data, "aw", %progbits
state:  .word   calls, given, {count}, 0
calls:  .word   {calls}
given:  .space  8 * {count}
"""


def signed(word):
    word %= WORD
    return word - WORD if word >= WORD // 2 else word


def binary(op, left, right):
    a, b = signed(left), signed(right)
    return [a | b, a ^ b, a & b, a == b, a != b, a < b, a > b, a <= b, a >= b, a << (b & 31), a >> (b & 31), (a % WORD) >> (b & 31),
            a + b, a - b, a * b][op - 1] % WORD


def unary(op, word):
    a = signed(word)
    return [-a, a, a == 0, ~a, a + 1, a - 1][op - 1] % WORD


def panics(code):
    return code, PANIC


class Function:
    """A row `emit` of thumb_rows, calls with two arguments and SP each, and what they give: a word and 0, or the code of a panic and PANIC."""

    def __init__(self, line, calls, wanted, ram=None):
        self.line, self.ram = line, ram or {}
        self.calls = [it if len(it) == 3 else (*it, STACK_END - 16) for it in calls]
        self.wanted = [it if isinstance(it, tuple) else (it % WORD, 0) for it in wanted]


def operators():
    ends = [0, 1, 2, 31, 32, 33, 63, 64, 255, 256, 0xFFFF, 0x10000, 2**31 - 1, 2**31, 2**31 + 1, WORD - 2, WORD - 1]
    pairs = [(a, b) for a in ends for b in ends]
    pairs += [(random.getrandbits(32), random.getrandbits(bits)) for bits in [32] * 300 + [6] * 100]
    for places in ["r4 r5 r6 r7", "i0 r7 s0 r5", "s1 i1 r5 s0", "i0 i1 s1 s0", "r7 s0 s1 r6", "s0 s1 r4 r5"]:
        for op in range(1, 16):
            yield Function(f"2 1 1 0 : {places} : binary 2 {op} 0 1 ; return 2", pairs, [binary(op, *it) for it in pairs])
    for places in ["r4 r5 s1", "i0 s0 r4", "s1 r6 s0"]:
        for op in range(1, 7):
            yield Function(f"1 1 1 0 : {places} : unary 1 {op} 0 ; return 1", pairs, [unary(op, it[0]) for it in pairs])
    # a comparison that is joined with the branch after it; one whose result is read again; and one to whose branch a jump goes
    for places in ["r4 r5 r6 r7", "i0 s0 s1 r5", "r6 i1 r4 s1"]:
        for op in range(4, 10):
            decided = [binary(op, *it) for it in pairs]
            yield Function(f"2 1 1 0 : {places} : binary 2 {op} 0 1 ; branch 2 4 ; const 3 7 ; return 3 ; const 3 9 ; return 3", pairs, [9 if it else 7 for it in decided])
            yield Function(f"2 1 1 0 : {places} : binary 2 {op} 0 1 ; branch 2 4 ; unary 2 1 2 ; return 2 ; unary 2 5 2 ; return 2", pairs, [2 * it for it in decided])
            yield Function(f"2 1 1 0 : {places} : copy 2 0 ; jump 3 ; binary 2 {op} 0 1 ; branch 2 6 ; const 3 7 ; return 3 ; const 0 0 ; const 3 9 ; const 1 0 ; binary 2 {op} 0 1 ; "
                           "branch 2 12 ; return 3 ; unary 3 4 3 ; return 3", pairs, [(~9 if binary(op, 0, 0) else 9) if it[0] else 7 for it in pairs])
        yield Function(f"2 1 1 0 : {places} : unary 2 3 0 ; branch 2 4 ; const 3 7 ; return 3 ; const 3 9 ; return 3", pairs, [7 if it[0] else 9 for it in pairs])
    for number in [0, 1, 255, 256, -1, -256, 2**31 - 1, -(2**31), 65536, 12345678]:
        yield Function(f"2 0 1 0 : i0 i1 r4 : const 2 {number} ; return 2", pairs[:3], [number] * 3)


def flow():
    sums = [(n, 0) for n in (1, 2, 3, 10, 100, 1000)]
    wanted = [n * (n + 1) // 2 for n, _ in sums]
    yield Function("1 0 1 0 : r4 r5 : const 1 0 ; binary 1 13 1 0 ; unary 0 6 0 ; branch 0 1 ; return 1", sums, wanted)
    yield Function("1 1 1 0 : s0 s1 r4 : const 1 0 ; branch 0 3 ; return 1 ; binary 1 13 1 0 ; unary 0 6 0 ; jump 1", sums, wanted)
    products = [1]
    for n in range(1, 13):
        products.append(products[-1] * n)
    for places in ["r4 r5 s0", "s1 s0 r4", "i0 r7 r6", "i0 s1 s0"]:
        yield Function(f"1 1 1 1 : {places} : branch 0 3 ; const 1 1 ; return 1 ; unary 1 6 0 ; call 1 0 1 ; binary 1 15 0 1 ; return 1",
                       [(n, 0) for n in range(13)], products)
    yield Function("1 1 1 1 : r4 r5 r6 : call 1 0 0 ; return 1", [(1, 0)], [panics(DEPTH)])
    for own, line in [(1, "2 0 1 0 : i0 i1 r4 : const 2 5 ; return 2"), (5, "2 1 2 2 : i0 i1 r4 r5 r6 : const 2 5 ; return 2")]:
        limit = 0x20003080 + 4 * (own + 5)
        yield Function(line, [(0, 0, limit + more) for more in (0, -4, -8, 4)], [5, panics(DEPTH), panics(DEPTH), 5])


def heap():
    array, items = 0x20000400, 0x20000420
    ram = {array + 4: 3, array + 8: 4, array + 12: items, items: 10, items + 4: 20, items + 8: 30, items + 12: 40}
    places_of_items = [(array, i) for i in (0, 1, 2, 3, 4, WORD - 1, 2**31, 2**30)] + [(0, 0), (0, 5)]
    wrong = [panics(INDEX)] * 5 + [panics(NULL)] * 2
    for places in ["r4 r5 r6 r7", "i0 i1 s0 s1", "s0 s1 r7 r4"]:
        begin = f"2 1 1 0 : {places} :"
        yield Function(f"{begin} getitem 2 0 1 ; return 2", places_of_items, [10, 20, 30, *wrong], ram)
        yield Function(f"{begin} setitem 0 1 1 ; getitem 2 0 1 ; return 2", places_of_items, [0, 1, 2, *wrong], ram)
        yield Function(f"{begin} length 2 0 ; return 2", [(array, 0), (0, 0)], [3, panics(NULL)], ram)
        yield Function(f"{begin} pop 2 0 ; return 2", [(array, 0)] * 2 + [(0, 0)] + [(array, 0)] * 3,
                       [30, 20, panics(NULL), 10, panics(INDEX), panics(INDEX)], ram)
        for field in (0, 1, 7, 30, 31, 32, 62, 63):
            yield Function(f"{begin} setfield 0 {field} 1 ; getfield 2 0 {field} ; return 2", [(array, 77), (0, 1), (array, 5)], [77, panics(NULL), 5])
            yield Function(f"{begin} getfield 2 0 {field} ; return 2", [(array, 0), (0, 1)], [field + 500, panics(NULL)], {array + 4 + 4 * field: field + 500})
        for slot in (0, 1, 31, 32, 100, 255):
            yield Function(f"{begin} getglobal 2 {slot} ; setglobal {slot} 1 ; return 2", [(0, 5), (0, 6), (0, 7)], [slot + 900, 5, 6],
                           {0x20000000 + 4 * slot: slot + 900})


def linked(code):
    """The code with calls of itself, and of the program's panic (BLX r8) for SVC 1. Its last POP with PC stands before the pool."""
    halves = list(struct.unpack(f"<{len(code) // 2}H", code))
    at, last = 0, max(i for i, half in enumerate(halves) if half & 0xFF0F == 0xBD00)
    while at <= last:
        if halves[at] >> 11 == 0b11110 and halves[at + 1] >> 14 == 0b11:
            by = -(2 * at + 4)
            halves[at : at + 2] = [0xF400 | (by >> 12) & 0x3FF, 0xF800 | (by >> 1) & 0x7FF]
            at += 1
        elif halves[at] == 0xDF01:
            halves[at] = 0x47C0
        at += 1
    return struct.pack(f"<{len(halves)}H", *halves)


def run(function, code):
    """What each call gives, as Function.wanted has it."""
    ram = [0] * 0x1000
    for address, word in function.ram.items():
        ram[(address - 0x20000000) // 4] = word
    source, object_file, program = (f"{FOLDER}/{name}" for name in ("run.s", "run.o", "run"))
    with open(source, "w", encoding="utf-8") as out:
        out.write(HARNESS.format(code=",".join(map(str, linked(code))), ram=",".join(map(str, ram)), count=len(function.calls),
                                 calls=",".join(str(word) for call in function.calls for word in call)))
    subprocess.run(["arm-none-eabi-as", "-o", object_file, source], check=True)
    subprocess.run(["arm-none-eabi-ld", "-Ttext=0x10000", "--section-start=.ram=0x20000000", "-Tdata=0x30000000", "-o", program, object_file],
                   check=True, stderr=subprocess.DEVNULL)
    ran = subprocess.run(["qemu-arm", program], capture_output=True, timeout=60)
    return list(struct.iter_unpack("<II", ran.stdout[: 8 * len(function.calls)]))


random.seed(1)
functions = [*operators(), *flow(), *heap()]
rows = subprocess.run([sys.argv[2], "thumb_rows"], input="".join(f"emit {it.line}\n" for it in functions), capture_output=True, text=True)
codes = rows.stdout.split("\n")[:-1]
assert len(codes) == len(functions), rows.stderr[-500:]
calls = wrong = 0
for function, code in zip(functions, codes):
    given = run(function, bytes.fromhex(code))
    calls += len(function.calls)
    for at, wanted in enumerate(function.wanted):
        if at >= len(given) or given[at] != wanted:
            wrong += 1
            print(f"emitted_runs: {function.line}: {function.calls[at]} gives {given[at] if at < len(given) else 'nothing'}, not {wanted}")
print(f"emitted_runs: {len(functions)} functions, {calls} calls, {wrong} wrong")
sys.exit(1 if wrong else 0)
