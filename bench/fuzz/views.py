#!/usr/bin/env python3
"""Gives a built view random and mutated transcripts, and reads the lines back from what it writes, as a text and as a page, by a reading of its own after docs/FORMATS.md ("Views"): all lines
by --all, and without it those of a transcript that was made shorter, by a program of its own too. What isn't read back, or ends by another status than 0, is a surprise: it is printed, and its
file is kept. Half of the texts are asked for with a program, of random bytes too, whose refusal is explained.

usage: views.py VIEW SEED COUNT        COUNT inputs of some lines each; a thousand are given to the program at once, one behind the other
"""
import glob
import os
import random
import re
import subprocess
import sys
import tempfile
import time

TOP = os.path.dirname(os.path.dirname(os.path.dirname(os.path.abspath(__file__))))
KEPT = os.path.join(tempfile.gettempdir(), "view-fuzz")
SEEDS = [line for path in sorted(glob.glob(f"{TOP}/examples/*.txt")) for line in open(path, "rb").read().split(b"\n")]
SEEDS += [b"0 end 20 quiet", b"7 1073741824 display #####/...../#.#.#/...../#####", b"1 5 serial 22205c0a", b"refused 6 1 12", b"refused 8 2 3", b"1 refused 11 1 99", b"refused 4294967295 0 4294967295", b"script refused 3", b"image refused 7", b"usage", b"missing", b"panic 0 105",
          b"fault 0 1 0000000c", b"budget 7", b"0 pin 20 1", b"0 radio -7", b":00000001FF", b"</pre><script>alert(1)</script>", b"stats spawned 1 blocked 1 words 18 seats 1", b"12345678901 display #####/...../#.#.#/...../#####"]
SIGNS = [b" ", b"\t", b'"', b"\\", b"\\x20", b"<", b"&", b"\n", b"\r", b"\x00", b"\xff", "█".encode(), "·".encode(), b" ms", b"#", b".", b"/", b"0", b"9", b"f", b"display ", b" serial "]
PAGE = re.compile(rb'<pre id="transcript"[^>]*>\n([^<]*)</pre>')


def mutated(chance):
    lines = [chance.choice(SEEDS) for _ in range(chance.randrange(1, 8))]
    if chance.random() < 0.02:
        lines += [chance.choice((b"7 radio 1", b"7 serial 61", b"7 serial 0a", b"7 pin 0 1"))] * chance.randrange(30, 60)
    text = b"\n".join(lines) + (b"\n" if chance.random() < 0.8 else b"")
    for _ in range(chance.choice((0, 0, 1, 1, 2, 5))):
        at = chance.randrange(len(text) + 1)
        upto = at + chance.choice((0, 0, 1, 2, 10))
        text = text[:at] + (chance.choice(SIGNS) if chance.random() < 0.7 else chance.randbytes(chance.randrange(4))) + text[upto:]
    return text


def made(chance):
    return chance.randbytes(chance.randrange(40)) if chance.random() < 0.2 else mutated(chance)


def unshown(text):
    return re.sub(rb"\\x([0-9a-f]{2})", lambda it: bytes([int(it[1], 16)]), text)


def lines_in(text):
    lines = text.split(b"\n")
    return lines[:-1] if lines[-1] == b"" else lines


def pictures(rows):
    """The lines of pictures side by side, by their six rows."""
    heading, *rows = (row.decode() for row in rows)
    for k in range((len(rows[0]) + 12) // 13):
        lights = ["".join({"██": "#", "··": "."}[row[13 * k + 3 + 2 * i:13 * k + 5 + 2 * i]] for i in range(5)) for row in rows]
        yield f"{heading[13 * k:13 * k + 13].strip()} display {'/'.join(lights)}".encode()


def lines_of(view):
    rows, at = lines_in(view), 0
    while at < len(rows):
        if rows[at].startswith(b"  | "):
            at += 1
            continue
        if rows[at].startswith(b" "):
            yield from pictures(rows[at:at + 6])
            at += 6
            continue
        row = rows[at].partition(b"\t")[0]
        if b'"' in row:
            front, text, _ = row.split(b'"')
            row = front + unshown(text).hex().encode()
        yield unshown(row)
        at += 1


def lead_of(line):
    """The moment of a line, of a class's line with the board's number."""
    found = re.match(rb"([0-9] )?[0-9]{1,10}(?= )", line)
    return found[0] if found else re.match(rb"(?:[0-9]{1,10}(?= ))?", line)[0]


def serial_of(line):
    lead = lead_of(line)
    found = re.fullmatch(rb" serial ((?:[0-9a-f]{2})*)", line[len(lead):]) if lead else None
    return found[1] if found else None


def shorter(lines):
    """The lines of a short view: texts joined, the middle of long moments left out, and then the last line first."""
    joined = []
    for line in lines:
        last = joined[-1] if joined else b""
        if len(last) < 500 and joined and lead_of(last) and lead_of(last) == lead_of(line) and not last.endswith(b"0a") and serial_of(last) is not None and serial_of(line) is not None:
            joined[-1] += serial_of(line)
        else:
            joined.append(line)
    short, at = [], 0
    while at < len(joined):
        upto = at + 1
        while upto < len(joined) and lead_of(joined[at]) and lead_of(joined[upto]) == lead_of(joined[at]):
            upto += 1
        moment = joined[at:upto]
        short += moment if len(moment) <= 40 else [*moment[:10], b"%s left out %d" % (lead_of(moment[0]), len(moment) - 20), *moment[-10:]]
        at = upto
    return short if len(short) == len(joined) else [short[-1], *short]


def main():
    program, seed, count = sys.argv[1], int(sys.argv[2]), int(sys.argv[3])
    begun, surprises, read = time.time(), 0, 0
    for first in range(0, count, 1000):
        chance = random.Random(f"{seed} {first}")
        text = b"".join(made(chance) for _ in range(min(1000, count - first)))
        width = chance.choice((1, 13, 26, 80, 100000))
        with tempfile.NamedTemporaryFile(suffix=".ts") as refused:
            refused.write(made(chance))
            refused.flush()
            explained = chance.choice(([], ["--program", refused.name]))
            orders = (["--all", "--width", str(width), *explained], ["--html", "--all", *explained], ["--width", str(width), *explained])
            shown, page, short = (subprocess.run([program, *words], input=text, stdout=subprocess.PIPE, timeout=60, check=False) for words in orders)
        found = PAGE.search(page.stdout)
        is_short = short.returncode == 0 and list(lines_of(short.stdout)) == shorter(lines_in(text))
        if (shown.returncode, page.returncode) != (0, 0) or list(lines_of(shown.stdout)) != lines_in(text) or not found or unshown(found[1]) != text or not is_short:
            surprises += 1
            os.makedirs(KEPT, exist_ok=True)
            with open(f"{KEPT}/{seed}-{first}", "wb") as file:
                file.write(text)
            print(f"a surprise: {KEPT}/{seed}-{first}, width {width}")
        read += len(lines_in(text))
    print(f"{count} inputs of {read} lines with seed {seed} in {time.time() - begun:.0f} s: {surprises} surprises")
    sys.exit(1 if surprises else 0)


main()
