#!/usr/bin/env python3
"""Gives a built program input from strangers: mutated texts, scripts, HEX files and images. What is no named status, takes over two seconds of a processor or over 200 MB, or
has an output beside its status's form is a surprise: it is printed, and its files are kept. fuzz.c, which it compiles, makes the cases and judges them.

usage: fuzz.py PROGRAM KIND SEED COUNT [PROCESSES] [exec]      KIND is text, script, hex or image

A case hangs on the kind, the seed and its number alone. An interrupt tells the figures so far. By the word `exec` each case executes the program anew: the digest of all statuses and outputs is the same.
"""
import collections
import concurrent.futures
import glob
import os
import re
import subprocess
import sys
import tempfile
import time

HERE = os.path.dirname(os.path.abspath(__file__))
TOP = os.path.dirname(os.path.dirname(HERE))
KEPT = os.path.join(tempfile.gettempdir(), "sts-fuzz")
MEMORY = "/dev/shm" if os.path.isdir("/dev/shm") else None
AT_ONCE = 10000  # cases of one process
MOST = 200 * 1024  # kilobytes

ENTRIES = b"""{"end":20,"events":[{"at":5,"do":"raise","source":1,"value":2},{"at":7,"do":"down","button":"A"},{"at":9,"do":"unplug","port":1}]}
{"end":1000,"events":[]}
{"end":1000,"events":[{"at":0,"do":"down","button":"B"},{"at":0,"do":"up","button":"B"},{"at":3,"do":"raise","source":50,"value":1},{"at":3,"do":"unplug","port":0},{"at":1000,"do":"down","button":"A"}]}"""
SCRIPT_PARTS = [*b'"at" "end" "events" "do" "raise" "down" "up" "unplug" "button" "A" "B" "source" "value" "port" : , 0 1 2 3 4 7 50 1073741824 2147483647 -2147483648 -1 1.0 true {} []'.split(),
                *[b'{"at":%d,%b},' % (at, act) for at in (0, 3, 5, 9) for act in (b'"do":"raise","source":1,"value":2', b'"do":"down","button":"B"', b'"do":"up","button":"B"', b'"do":"unplug","port":1')]]
UNDEFINED = b":0E000000803F00200D0000000D00000000DE1B\n:00000001FF\n"
PAUSES = b":12000000803F00200D0000000D000000052002DF00DF10\n:00000001FF\n"
HEX_PARTS = [b":00000001FF\n", b":020000040001F9\n", b":020000021000EC\n", b":0400000500000009EE\n", b":", b"\r\n", b"\n", b":0400000001020304F2\n", b":0000000000\n", b"00", b"FF"]


def image_in(text):
    image = b""
    for line in text.split():
        row = bytes.fromhex(line[1:].decode())
        if row[3] == 0:
            image += row[4:-1]
    return image


def read(path):
    with open(path, "rb") as file:
        return file.read()


def texts():
    """Programs of the repository: the examples, and those of checks/types.txt that are short."""
    found = [read(file) for file in sorted(glob.glob(os.path.join(TOP, "examples", "*.ts"))) if not file.endswith(".d.ts")]
    types = read(os.path.join(TOP, "checks", "types.txt")).decode()
    return found + [part.replace("@", "").encode() for part in re.split(r"(?m)^-- .*\n", types)[1:] if len(part) < 4000 and "{" + "#" not in part]


def built(program, folder, text):
    """The HEX text that the program builds of a text, or None."""
    with open(os.path.join(folder, "text"), "wb") as file:
        file.write(text)
    ran = subprocess.run([program, "build", "text"], cwd=folder, stdout=subprocess.PIPE, stderr=subprocess.DEVNULL)
    return ran.stdout if ran.returncode == 0 else None


def lay_seeds(program, folder):
    """Writes each seed and each part into a file of the folder, where fuzz.c reads them."""
    all_texts = texts()
    images = {text: built(program, folder, text) for text in all_texts}
    accepted = [text for text in all_texts if images[text]]
    all_hexes = [UNDEFINED, PAUSES, *(images[text] for text in accepted)]
    scripts = [read(file) for file in sorted(glob.glob(os.path.join(TOP, "examples", "*.json")))]
    kinds = {
        "text": all_texts + 3 * accepted,
        "script": scripts + ENTRIES.split(b"\n"),
        "hex": all_hexes,
        "image": [image_in(text) for text in all_hexes],
        "text-part": sorted({it for text in all_texts for it in re.findall(rb"\w+|[^\w\s]+|\s+", text)}),
        "script-part": SCRIPT_PARTS,
        "hex-part": HEX_PARTS,
    }
    for kind, all_of_it in kinds.items():
        for number, content in enumerate(all_of_it):
            with open(os.path.join(folder, f"{kind}-{number}"), "wb") as file:
                file.write(content)


def work(program, library, seeds, order):
    """Runs some cases in a folder of their own, with links to the seeds."""
    with tempfile.TemporaryDirectory(dir=MEMORY) as folder:
        for name in os.listdir(seeds):
            os.link(os.path.join(seeds, name), os.path.join(folder, name))
        ran = subprocess.run([program, *["-"] * 8], cwd=folder, stdout=subprocess.PIPE, stdin=subprocess.DEVNULL, env={"LD_PRELOAD": library, "FUZZ": order})
    if ran.returncode:
        sys.exit(f"fuzz: {order}: status {ran.returncode}")
    return ran.stdout.decode().splitlines()


class Figures:
    def __init__(self):
        self.seen, self.codes = collections.Counter(), collections.defaultdict(collections.Counter)
        self.longest = self.most = self.surprises = self.digest = 0
        self.lines = []

    def add(self, lines):
        for line in lines:
            words = line.split()
            if words[0] == "seen":
                status, code, count = map(int, words[1:])
                self.seen[status] += count
                self.codes[status][code] += count
            elif words[0] == "figures":
                longest, most, surprises, digest = map(int, words[1:])
                self.longest, self.most = max(self.longest, longest), max(self.most, most)
                self.surprises += surprises
                self.digest ^= digest
            else:
                self.lines.append(line)

    def tell(self, kind, seed, seconds):
        for line in self.lines[:20]:
            print(line)
        for status, codes in sorted(self.codes.items()):
            told = ", ".join(f"{code}: {count}" for code, count in sorted(codes.items()) if code)
            print(f"status {status}: {self.seen[status]}" + (f", by code {told}" if told else ""))
        print(f"{kind}: {sum(self.seen.values())} cases from seed {seed} in {seconds:.0f} s; longest {self.longest / 1000:.1f} ms of a processor, most memory {self.most / 1024:.1f} MB; "
              f"{self.surprises} surprises; digest {self.digest:016x}")


def main():
    program, kind, seed, count = os.path.abspath(sys.argv[1]), sys.argv[2], sys.argv[3], int(sys.argv[4])
    processes = int(sys.argv[5]) if len(sys.argv) > 5 else os.cpu_count()
    way = sys.argv[6] if len(sys.argv) > 6 else "fork"
    begun, figures = time.monotonic(), Figures()
    os.makedirs(KEPT, exist_ok=True)
    with tempfile.TemporaryDirectory(dir=MEMORY) as seeds, tempfile.TemporaryDirectory() as folder:
        library = os.path.join(folder, "fuzz.so")
        subprocess.run(["cc", "-std=gnu11", "-O2", "-shared", "-fPIC", os.path.join(HERE, "fuzz.c"), "-o", library], check=True)
        lay_seeds(program, seeds)
        orders = [f"{kind} {seed} {first} {min(AT_ONCE, count - first)} {KEPT} {way}" for first in range(0, count, AT_ONCE)]
        with concurrent.futures.ThreadPoolExecutor(processes) as pool:
            try:
                for lines in pool.map(lambda order: work(program, library, seeds, order), orders):
                    figures.add(lines)
            except KeyboardInterrupt:
                pool.shutdown(cancel_futures=True)
    figures.tell(kind, seed, time.monotonic() - begun)
    sys.exit(1 if figures.surprises else 0)


if __name__ == "__main__":
    main()
