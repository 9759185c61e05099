"""Compares what thumb_layout lays with three others: rows that were worked by hand, a layout written here from the rules of docs/MACHINE.md alone,
and the bytes of GNU as, which is given each list with its branches and pools written out.

    layout_peers.py FOLDER ROWS

gives `ROWS thumb_rows` lists of pieces as its rows `lay`, and compares each line that it writes.
"""
import random
import subprocess
import sys

CONDITIONS = "eq ne cs cc mi pl vs vc hi ls ge lt gt le".split()
# Instructions that do the same anywhere: halfword, text, and whether the next piece is gone on at.
PLAIN = [
    (0x2001, "movs r0, #1", True), (0x3102, "adds r1, #2", True), (0x429A, "cmp r2, r3", True), (0x9001, "str r0, [sp, #4]", True),
    (0x46C0, "mov r8, r8", True), (0xB510, "push {r4, lr}", True), (0xBC10, "pop {r4}", True), (0xDF03, "svc 3", True), (0x4798, "blx r3", True),
    (0x4770, "bx lr", False), (0xBD10, "pop {r4, pc}", False), (0x469F, "mov pc, r3", False),
]
BY_HALF = {half: (text, on) for half, text, on in PLAIN}
LONGEST = 65536


def up(n):
    return -(-n // 4) * 4


def word_of(piece):
    """The entry that a piece loads from a pool: a number, or the thing whose address is open; None where it loads nothing."""
    if piece[0] == "n":
        return piece[2] if piece[2] > 255 else None
    return piece[0] + str(piece[2]) if piece[0] in "ftk" else None


def goes_on(piece):
    if piece[0] == "x":
        return BY_HALF[piece[1]][1]
    return not (piece[0] == "g" and piece[1] == 14)


def length(piece, form):
    return {"l": 0, "c": 4, "g": 2 + 2 * form}.get(piece[0], 2)


def stood(pieces, forms):
    """Where each piece is entered and stands, and the pools: (place of the branch over it or None, first entry, loads with their entries)."""
    entered, at_, pools, waiting, place = [], [], [], [], 0

    def pool(branch):
        nonlocal place, waiting
        if waiting:
            begin = up(place + 2 if branch else place)
            pools.append((place if branch else None, begin, waiting))
            place, waiting = begin + 4 * len(waiting), []

    for piece, form in zip(pieces, forms):
        entered.append(place)
        entry = word_of(piece)
        size = length(piece, form)
        tried = waiting + ([(place, piece, entry)] if entry is not None else [])
        begin = up(place + size + 2) if goes_on(piece) else up(place + size)
        if any(begin + 4 * k - (load + 4) // 4 * 4 > 1020 for k, (load, _, _) in enumerate(tried)):
            pool(True)
        at_.append(place)
        if entry is not None:
            waiting.append((place, piece, entry))
        place += size
        if not goes_on(piece):
            pool(False)
    pool(False)
    return entered, at_, pools, place


def laid(pieces):
    """Forms, places and pools when every branch fits."""
    forms = [0] * len(pieces)
    labels = {piece[1]: k for k, piece in enumerate(pieces) if piece[0] == "l"}
    while True:
        entered, at_, pools, end = stood(pieces, forms)
        grown = False
        for k, piece in enumerate(pieces):
            if piece[0] != "g":
                continue
            far = entered[labels[piece[2]]] - (at_[k] + 4)
            if piece[1] == 14:
                fits = forms[k] == 1 or -2048 <= far <= 2046
            else:
                fits = [-256 <= far <= 254, -2048 <= far - 2 <= 2046, True][forms[k]]
            if not fits:
                forms[k] += 1
                grown = True
        if not grown:
            return forms, entered, at_, pools, end


def assembly(pieces, forms, entered, at_, pools, end):
    """The text of a layout for GNU as, with an .org before each thing, which fails where the place before it is passed already."""
    things = []
    labels = {piece[1]: k for k, piece in enumerate(pieces) if piece[0] == "l"}
    for over, begin, loads in pools:
        if over is not None:
            things.append((over, 0, f"b at{begin + 4 * len(loads)}"))
        for k, (load, piece, entry) in enumerate(loads):
            things.append((load, 1, f"ldr r{piece[1]}, at{begin + 4 * k}"))
            things.append((begin + 4 * k, 0, f".word {entry if isinstance(entry, int) else 0}"))
    for k, piece in enumerate(pieces):
        place, kind = at_[k], piece[0]
        if kind == "x":
            things.append((place, 1, BY_HALF[piece[1]][0]))
        elif kind == "c":
            things.append((place, 1, f"bl at{place + 4}"))
        elif kind == "n" and piece[2] < 256:
            things.append((place, 1, f"movs r{piece[1]}, #{piece[2]}"))
        elif kind == "g":
            to = f"at{entered[labels[piece[2]]]}"
            if piece[1] == 14:
                things.append((place, 1, ("b " if forms[k] == 0 else "bl ") + to))
            elif forms[k] == 0:
                things.append((place, 1, f"b{CONDITIONS[piece[1]]} {to}"))
            else:
                things.append((place, 1, f"b{CONDITIONS[piece[1] ^ 1]} at{place + 2 + 2 * forms[k]}"))
                things.append((place + 2, 1, ("b " if forms[k] == 1 else "bl ") + to))
    places = {place for place, _, _ in things} | {end} | set(entered)
    for place, _, text in things:
        for word in text.replace(",", " ").split():
            if word.startswith("at") and word[2:].isdigit():
                places.add(int(word[2:]))
    lines = [".syntax unified", ".cpu cortex-m0", ".thumb", ".balign 4"]
    by_place = {}
    for place, _, text in things:
        by_place.setdefault(place, []).append(text)
    for place in sorted(places):
        lines += [f".org {place}", f"at{place}:"] + by_place.get(place, [])
    return "\n".join(lines) + "\n"


def assembled(folder, text):
    with open(f"{folder}/list.s", "w", encoding="ascii") as file:
        file.write(text)
    subprocess.run(["arm-none-eabi-as", "-o", f"{folder}/list.o", f"{folder}/list.s"], check=True)
    moved = subprocess.run(["arm-none-eabi-objdump", "-r", f"{folder}/list.o"], check=True, capture_output=True, text=True).stdout
    assert "R_ARM" not in moved, moved
    subprocess.run(["arm-none-eabi-objcopy", "-O", "binary", "-j", ".text", f"{folder}/list.o", f"{folder}/list.bin"], check=True)
    with open(f"{folder}/list.bin", "rb") as file:
        return file.read()


def encoded(pieces, forms, entered, at_, pools, end):
    """The bytes and fixes of a layout, encoded here."""
    code = bytearray(end)
    fixes = []
    labels = {piece[1]: k for k, piece in enumerate(pieces) if piece[0] == "l"}

    def half(place, value):
        code[place:place + 2] = value.to_bytes(2, "little")

    def branch(place, to):
        half(place, 0xE000 | (to - place - 4) // 2 & 0x7FF)

    def conditional(place, condition, to):
        half(place, 0xD000 | condition << 8 | (to - place - 4) // 2 & 0xFF)

    def link(place, to):
        far = (to - place - 4) // 2 & 0xFFFFFF
        sign, first, second = far >> 23, far >> 22 & 1, far >> 21 & 1
        half(place, 0xF000 | sign << 10 | far >> 11 & 0x3FF)
        half(place + 2, 0xD000 | (first ^ sign ^ 1) << 13 | (second ^ sign ^ 1) << 11 | far & 0x7FF)

    for over, begin, loads in pools:
        if over is not None:
            branch(over, begin + 4 * len(loads))
        for k, (load, piece, entry) in enumerate(loads):
            half(load, 0x4800 | piece[1] << 8 | (begin + 4 * k - (load + 4) // 4 * 4) // 4)
            if isinstance(entry, int):
                code[begin + 4 * k:begin + 4 * k + 4] = entry.to_bytes(4, "little")
            else:
                fixes.append((begin + 4 * k, "word", entry))
    for k, piece in enumerate(pieces):
        place, kind = at_[k], piece[0]
        if kind == "x":
            half(place, piece[1])
        elif kind == "c":
            link(place, place + 4)
            fixes.append((place, "call", f"f{piece[1]}"))
        elif kind == "n" and piece[2] < 256:
            half(place, 0x2000 | piece[1] << 8 | piece[2])
        elif kind == "g":
            to = entered[labels[piece[2]]]
            if piece[1] == 14:
                (branch if forms[k] == 0 else link)(place, to)
            elif forms[k] == 0:
                conditional(place, piece[1], to)
            else:
                conditional(place, piece[1] ^ 1, place + 2 + 2 * forms[k])
                (branch if forms[k] == 1 else link)(place + 2, to)
    return code, sorted(fixes)


def words(pieces):
    out = []
    for piece in pieces:
        if piece[0] == "x":
            out.append(f"x{piece[1]:x}")
        else:
            out.append(piece[0] + ",".join(str(it) for it in piece[1:]))
    return " ".join(out)


def answer(pieces):
    layout = laid(pieces)
    if layout[4] > LONGEST:
        return "too long"
    code, fixes = encoded(pieces, *layout)
    return " ".join([code.hex()] + [f"{at}:{kind}:{what}" for at, kind, what in fixes])


NOP = ("x", 0x46C0)
BX = ("x", 0x4770)


def rows():
    """Lists with their answers, worked by hand from the rules and the manual's encodings."""
    nop, load = "c046", ("n", 0, 1000)
    yield [], ""
    yield [("n", 3, 255)], "ff23"
    # An entry exactly 1020 bytes behind where its load counts, at the end, and behind a piece that doesn't go on.
    yield [load] + [NOP] * 510, "ff48" + nop * 510 + "0000" + "e8030000"
    yield [load] + [NOP] * 510 + [BX], "ff48" + nop * 510 + "7047" + "e8030000"
    # One more piece: the pool stands before it, behind a branch over it.
    yield [load] + [NOP] * 511, "ff48" + nop * 510 + "01e0" + "e8030000" + nop
    yield [load] + [NOP] * 511 + [BX], "ff48" + nop * 510 + "01e0" + "e8030000" + nop + "7047"
    # The same for a load at an address that is no multiple of 4, which counts from 4 too.
    yield [NOP, load] + [NOP] * 509, nop + "ff48" + nop * 509 + "0000" + "e8030000"
    yield [NOP, load] + [NOP] * 510, nop + "ff48" + nop * 509 + "01e0" + "e8030000" + nop
    # A pool at each piece that doesn't go on; where nothing waits, none.
    yield [load, BX, NOP, BX], "0048" + "7047" + "e8030000" + nop + "7047"
    yield [load, ("x", 0xBD10), NOP], "0048" + "10bd" + "e8030000" + nop
    yield [load, ("x", 0xBC10), NOP], "0148" + "10bc" + nop + "0000" + "e8030000"
    yield [load, ("l", 7), ("g", 14, 7), NOP], "0048" + "fee7" + "e8030000" + nop
    # Two loads of one number have two entries; so have addresses, which are open.
    yield [load, ("n", 1, 1000), BX], "0148" + "0249" + "7047" + "0000" + "e8030000" * 2
    yield [("f", 2, 7), ("t", 0, 1), ("k", 0, 2), BX], "014a" + "0248" + "0248" + "7047" + "00000000" * 3 + " 8:word:f7 12:word:t1 16:word:k2"
    yield [("c", 9), ("f", 0, 9)], "00f000f8" + "0048" + "0000" + "00000000" + " 0:call:f9 8:word:f9"
    # Conditional branches at the end of each form's reach, and one more.
    far = lambda n, back=[]: back + [("g", 0, 1)] + [NOP] * n + [("l", 1)]
    yield far(128), "7fd0" + nop * 128
    yield far(129), "00d1" + "80e0" + nop * 129
    yield far(1024), "00d1" + "ffe3" + nop * 1024
    yield far(1025), "01d1" + "00f001fc" + nop * 1025
    yield [("l", 1)] + [NOP] * 126 + [("g", 5, 1)], nop * 126 + "80d5"
    yield [("l", 1)] + [NOP] * 127 + [("g", 5, 1)], nop * 127 + "00d4" + "7ee7"
    yield [("l", 1)] + [NOP] * 1021 + [("g", 5, 1)], nop * 1021 + "00d4" + "00e4"
    yield [("l", 1)] + [NOP] * 1022 + [("g", 5, 1)], nop * 1022 + "01d4" + "fff7fffb"
    # And of those that are always taken.
    yield [("g", 14, 1)] + [NOP] * 1024 + [("l", 1)], "ffe3" + nop * 1024
    yield [("g", 14, 1)] + [NOP] * 1025 + [("l", 1)], "00f001fc" + nop * 1025
    yield [("l", 1)] + [NOP] * 1022 + [("g", 14, 1)], nop * 1022 + "00e4"
    yield [("l", 1)] + [NOP] * 1023 + [("g", 14, 1)], nop * 1023 + "fff7fffb"
    # The longest code, and one piece more.
    yield [NOP] * 32768, nop * 32768
    yield [NOP] * 32769, "too long"
    yield [("c", 1)] * 16384 + [("l", 3)], "00f000f8" * 16384 + "".join(f" {4 * k}:call:f1" for k in range(16384))
    yield [("c", 1)] * 16384 + [BX], "too long"


def some_list(chance):
    """A list by chance: of any length up to some, with few labels or many, with few loads or many."""
    count = chance.randrange(chance.choices([12, 50, 150, 700, 2600], [45, 26, 15, 11, 3])[0])
    share = [chance.random() ** 2 for _ in range(7)]
    calm = chance.random() < 0.3
    pieces = []
    for _ in range(count):
        kind = chance.choices("xxlgcna", [3 * chance.random() ** 2 if count > 700 else share[0], 0.1, *share[2:]])[0]
        if kind == "x":
            pieces.append(("x", chance.choice(PLAIN[:9] if calm or chance.random() < 0.97 else PLAIN)[0]))
        elif kind == "g":
            pieces.append(("g", chance.choice([chance.randrange(14) if calm else 14, chance.randrange(14)]), None))
        elif kind == "c":
            pieces.append(("c", chance.randrange(1000)))
        elif kind == "n":
            pieces.append(("n", chance.randrange(8), chance.choice([chance.randrange(256), chance.randrange(2 ** 32), 256, 255])))
        elif kind == "a":
            pieces.append((chance.choice("ftk"), chance.randrange(8), chance.randrange(1000)))
        else:
            pieces.append(("l", None))
    places = [k for k, piece in enumerate(pieces) if piece[0] == "l"]
    numbers = chance.sample(range(2 ** 32), len(places))
    for k, number in zip(places, numbers):
        pieces[k] = ("l", number)
    for k, piece in enumerate(pieces):
        if piece[0] == "g":
            near = [n for p, n in zip(places, numbers) if abs(p - k) < 200]
            if not numbers:
                pieces[k] = ("n", 1, 7)
            else:
                pieces[k] = ("g", piece[1], chance.choice(near if near and chance.random() < 0.6 else numbers))
    return pieces


def main():
    folder, program = sys.argv[1:]
    chance = random.Random(20250521)
    hand = list(rows())
    lists = [row for row, _ in hand] + [some_list(chance) for _ in range(10000)]
    # (a file, since of a pipe the program reads a byte at a time)
    with open(f"{folder}/lists", "w+", encoding="ascii") as file:
        file.write("".join(f"lay {words(pieces)}\n" for pieces in lists))
        file.seek(0)
        ran = subprocess.run([program, "thumb_rows"], stdin=file, stdout=subprocess.PIPE, stderr=subprocess.PIPE, text=True, check=False)
    answers = ran.stdout.split("\n")
    wrong = 0
    forms_seen, pools_seen, over_seen, told = [0, 0, 0], 0, 0, 0
    for k, pieces in enumerate(lists):
        got = answers[k] if k < len(answers) else "nothing"
        want = answer(pieces)
        if k < len(hand):
            assert want == hand[k][1], f"the row worked by hand and the layout here differ at {words(pieces)[:200]}"
        if got != want:
            wrong += 1
            if wrong <= 3:
                print(f"layout_peers: differs at {words(pieces)[:300]}\n  {got[:300]}\n  {want[:300]}")
        layout = laid(pieces)
        for piece, form in zip(pieces, layout[0]):
            if piece[0] == "g":
                forms_seen[form] += 1
        pools_seen += len(layout[3])
        over_seen += sum(1 for pool in layout[3] if pool[0] is not None)
        if k < len(hand) - 4 or ((k % 50 == 0 or len(pieces) > 2000) and layout[4] <= LONGEST):
            # The assembler fills its section up to a multiple of 4.
            code = assembled(folder, assembly(pieces, *layout))[:layout[4]]
            told += 1
            if code.hex() != want.split(" ")[0]:
                wrong += 1
                print(f"layout_peers: GNU as writes other bytes for {words(pieces)[:300]}")
    print(f"layout_peers: {len(lists)} lists, {wrong} differ; branches by form {forms_seen}, {pools_seen} pools, {over_seen} of them behind a branch; {told} lists through GNU as")
    if ran.returncode:
        print(f"layout_peers: the program ended with {ran.returncode}: {ran.stderr[-500:]}")
    return 1 if wrong or ran.returncode else 0


sys.exit(main())
