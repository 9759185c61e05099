"""Status 30, want of memory, comes only where an allocation was refused. The program runs under a library that notes each
allocation which the system refuses (checks/refused.c): a run that ends with 30 and has none fails, and so does a run
that asks for more than a gigabyte at once, which no input needs. The inputs:

- each row of checks/commands.txt; `big 1` to `big 200`;
- texts of each kilobyte up to their limit and past it, of one long comment, of statements, of tokens, of texts and
  names, and of nested parts, by `run`, and some by `check` and `build`; scripts of each kilobyte, HEX files and images
  of each kilobyte; numbers of arrivals, losses and items of a script, and budgets, by powers of two and their
  neighbours, and of arrivals and losses each hundred, of items each ten thousand;
- names of 1 to 4,096 bytes;
- classes of one to eight boards with a program of 1 to 64 KB at each board in turn, and at all;
- 10,000 programs as bench/programs/generate.py makes them, with their images.

First it is tried itself: a program that ends with 30 must fail, the program within little memory must not, and a
program that asks for more than there is must fail. It wants a C compiler, and takes less than eight minutes on two
processors. With --long every length of a name is tried, every kilobyte in place of powers of two in classes, and
100,000 programs.

    checks/refused.sh [--long] [PROGRAM]
"""
import concurrent.futures
import itertools
import json
import os
import resource
import subprocess
import sys

from commands import Rows, hex_text
from repository import TOP, needs, own_folder, program

sys.path.append(f"{TOP}/bench/programs")
import generate  # noqa: E402 (it is in bench/)

WANT, MOST = 30, 1 << 30
KB = 1024
AT_ONCE = 64
ENDED = '{"end":1000,"events":[]}'
ENDS = ":0E000000803F00200D0000000D00000000DF1A\n"


class Refused:
    """Runs of a program in a folder, some at once, and what was wrong with them."""

    def __init__(self, library, sts, folder):
        self.library, self.sts, self.folder = library, sts, folder
        self.numbers, self.runs, self.wrong, self.by_status = itertools.count(), 0, 0, {}

    def write(self, name, content):
        with open(f"{self.folder}/{name}", "wb") as file:
            file.write(content.encode("latin-1") if isinstance(content, str) else content)
        return name

    def run(self, words, sts=None, memory=None):
        """Gives a run's status and the sizes that were refused."""
        note = f"{self.folder}/refused.{next(self.numbers)}"
        limits = (lambda: resource.setrlimit(resource.RLIMIT_AS, (memory, memory))) if memory else None
        ran = subprocess.run([sts or self.sts, *words], cwd=self.folder, env={"LD_PRELOAD": self.library, "REFUSED": note}, stdin=subprocess.DEVNULL, stdout=subprocess.DEVNULL,
                             stderr=subprocess.DEVNULL, preexec_fn=limits, timeout=120, check=False)
        sizes = []
        if os.path.exists(note):
            with open(note, encoding="ascii") as file:
                sizes = [int(line) for line in file]
            os.remove(note)
        return ran.returncode, sizes

    @staticmethod
    def fault_of(status, sizes):
        """Gives what is wrong with a run, or None."""
        if sizes and max(sizes) > MOST:
            return f"asks for {max(sizes)} bytes"
        if status == WANT and not sizes:
            return "wants memory, and no allocation was refused"
        if status < 0 or status in (125, 126, 127):
            return f"ended with {status}"
        return None

    def judge(self, words, came):
        status, sizes = came
        self.runs += 1
        self.by_status[status] = self.by_status.get(status, 0) + 1
        if fault := self.fault_of(status, sizes):
            self.wrong += 1
            if self.wrong <= 20:
                print(f"refused: {' '.join(words)[:200]}: {fault}", flush=True)

    def each(self, what, orders):
        """Runs each order of words, some at once."""
        before, waiting = self.runs, iter(orders)
        with concurrent.futures.ThreadPoolExecutor(len(os.sched_getaffinity(0))) as pool:
            # (not all at once, since files are written as orders are made)
            while batch := list(itertools.islice(waiting, AT_ONCE)):
                for words, came in zip(batch, pool.map(self.run, batch)):
                    self.judge(words, came)
        print(f"refused: {what}: {self.runs - before} runs, {self.wrong} wrong so far", flush=True)


class UnderLibrary(Rows):
    """The rows of commands.txt, of which only whether they want memory is looked at."""

    def __init__(self, refused):
        super().__init__(refused.sts, refused.folder)
        self.refused = refused

    def run(self, words, due, where):
        words = [it.encode("latin-1").decode("unicode_escape").encode("latin-1") if "\\" in it else it for it in words]
        if self.pieces:
            self.pieces.start()
            self.pieces = None
        self.refused.judge([where], self.refused.run(words))

    def run_in_little(self, words, due, where):
        self.run(words, due, where)


def near_powers(most):
    """The powers of two up to a number, those beside them, and those beside the number."""
    found = {0, most - 1, most, most + 1} | {n + d for k in range(most.bit_length()) for n in [1 << k] for d in (-1, 0, 1)}
    return sorted(it for it in found if 0 <= it <= most + 1)


def counts_to(most):
    """Those, and each hundred up to it."""
    return sorted({*near_powers(most), *range(0, most, 100)})


def filled(size, line):
    """A text of that many bytes, of lines that are numbered; the last is cut before its end, and a comment fills the rest."""
    text = ""
    for number in itertools.count():
        more = line.format(number)
        if len(text) + len(more) + 3 > size:
            return text + ("//" + "x" * (size - len(text) - 2) if size - len(text) >= 2 else " " * (size - len(text)))
        text += more


def accepted(size):
    """A program of that size, of functions with a hundred calls each, and from 32 KB on of comments as well, since it can have no more of them."""
    text, number = "", 0
    while len(text) + 3000 < min(size, 32 * KB):
        text += f"function f{number}(): void {{\n" + "".join(f"    serial.writeNumber({number * 100 + k})\n" for k in range(100)) + "}\n"
        number += 1
    return text + filled(size - len(text), "// a line of a comment, number {}\n")


def texts(size):
    """Texts of a size, of several kinds."""
    depth = min(250, size // 4)
    return {
        "comment": "//" + "x" * (size - 2),
        "calls": accepted(size),
        "tokens": filled(size, ";" * 60 + "\n"),
        "texts": filled(size, 'serial.writeString("text number {} of some length")\n'),
        "functions": filled(size, "function f{0}(a: number): number {{ let b = a * {0}; return b + 1 }}\n"),
        "nested": filled(size - 2 * depth, "led.plot(1, 2)\n") + "{" * depth + "}" * depth,
    }


def scripts_of(size):
    entry = '{"at":1,"do":"down","button":"A"}'
    count = max(0, min(4096, (size - 30) // (len(entry) + 1)))
    text = '{"end":1000,"events":[' + ",".join([entry] * count) + "]}"
    return text + " " * (size - len(text))


def a_class(boards, lose=()):
    return json.dumps({"end": 1000, "boards": [{"program": it, "script": "s.json"} for it in boards], "lose": list(lose)})


def inputs_of_one(tries):
    """What `check`, `build`, `run`, `run-at` and `run-hex` are given."""
    tries.write("s.json", ENDED)
    tries.write("small.ts", "serial.writeNumber(7)")
    tries.each("big", (["big", str(n), "--stats"] for n in range(1, 201)))

    def of_texts():
        for kilobytes in range(1, 66):
            for kind, text in texts(kilobytes * KB).items():
                name = tries.write(f"{kind}{kilobytes}.ts", text)
                # (of the dearest kind every fourth)
                if kind == "tokens" and kilobytes % 4 > 1:
                    continue
                yield ["run", name, "--budget=10000"]
                if kilobytes in (1, 8, 64, 65):
                    yield ["check", name]
                if kilobytes in (1, 8, 64, 65) or kind in ("calls", "functions"):
                    yield ["build", name]

    tries.each("texts", of_texts())
    tries.each("scripts", (["run", "small.ts", tries.write(f"{n}.json", scripts_of(n * KB))] for n in range(1, 1026)))
    tries.each("lists", (["run", "small.ts", tries.write(f"list{n}.json", '{"end":1000,"events":[' + ",".join("0" * n) + "]}")] for n in sorted({*near_powers(1 << 19), *range(0, 1 << 19, 10_000)})))
    tries.each("images", (["run-hex", tries.write(f"{n}.hex", hex_text(bytes.fromhex("803F00200D0000000D00000000DF") + bytes(n * KB - 14)))] for n in range(1, 258)))
    tries.each("HEX files", (["run-hex", tries.write(f"long{n}.hex", ENDS + ":0000000000\n" * (n * KB // 12) + ":00000001FF\n")] for n in range(1, 1026)))

    def of_arrivals():
        for n in counts_to(4096):
            arrivals = ",".join(f'{{"after":{k + 1},"do":"raise","source":50,"value":{k}}}' for k in range(n))
            yield ["run-at", "small.ts", "s.json", tries.write(f"arrivals{n}.json", f'{{"arrivals":[{arrivals}]}}'), "--budget=100000"]

    tries.each("arrivals", of_arrivals())
    tries.each("budgets", ([*words, f"--budget={n}"] for n in near_powers(1 << 31) if n for words in (["run", "small.ts"], ["run-hex", "1.hex"], ["run-at", "small.ts", "s.json", "arrivals1.json"])))


def names(tries, is_long):
    """Names of each length: as far as one name may be, and by folders behind it."""
    for length in range(1, 4097) if is_long else sorted({*near_powers(4096), *range(1, 4097, 16)}):
        name = "small.ts" if length == 8 else "n" * length if length < 8 else "./" * ((length - 8) // 2) + "small.ts" if length % 2 == 0 else "./" * ((length - 9) // 2) + "/small.ts"
        yield from (["check", name], ["run", "small.ts", name], ["class", name])


def classes(tries, is_long):
    """Classes with a long program at one board, the others being short; with long programs at all; and with many losses."""
    sizes = range(1, 65) if is_long else [1, 2, 4, 8, 16, 32, 63, 64]
    for n in sizes:
        tries.write(f"board{n}.ts", accepted(n * KB))
    for boards in range(1, 10):
        for n in sizes:
            for at in range(boards):
                yield ["class", tries.write(f"class{boards}.{at}.{n}.json", a_class([f"board{n}.ts" if it == at else "small.ts" for it in range(boards)])), "--budget=100000"]
            yield ["class", tries.write(f"class{boards}.all.{n}.json", a_class([f"board{n}.ts"] * boards)), "--budget=100000"]
    for n in counts_to(4096):
        yield ["class", tries.write(f"lose{n}.json", a_class(["small.ts"] * 8, [{"at": 0, "from": 0, "to": 7}] * n)), "--budget=100000"]


def generated(tries, count):
    """Programs by chance with their scripts."""
    for seed in range(count):
        text, script = generate.made(seed)
        name, with_ = tries.write(f"g{seed % (2 * AT_ONCE)}.ts", text), tries.write(f"g{seed % (2 * AT_ONCE)}.json", json.dumps(script))
        yield ["run", name, with_, "--stats", "--image", "--budget=1000000"]


def is_sound(tries):
    """Whether the check sees what it is to see."""
    ends = tries.write("ends30", "#!/bin/sh\nexit 30\n")
    asks = tries.write("asks", "#!/bin/sh\necho 99999999999 >>\"$REFUSED\"\nexit 30\n")
    for it in (ends, asks):
        os.chmod(f"{tries.folder}/{it}", 0o755)
    told = tries.fault_of(*tries.run([], f"{tries.folder}/{ends}")), tries.fault_of(*tries.run([], f"{tries.folder}/{asks}"))
    tries.write("little.ts", "serial.writeNumber(7)")
    little = [tries.run(["run", "little.ts"], memory=n << 16) for n in range(32, 480)]
    wants = [it for it in little if it[0] == WANT]
    right = all(told) and bool(wants) and not any(tries.fault_of(*it) for it in wants)
    if not right:
        print(f"refused: this check doesn't do what it says: {told}, {wants[:3]}")
    return right


def main(words):
    is_long = words[:1] == ["--long"]
    needs("refused", "gcc", "cc")
    folder = own_folder()
    library = f"{folder}/refused.so"
    subprocess.run(["cc", "-O2", "-fno-builtin", "-shared", "-fPIC", f"{TOP}/checks/refused.c", "-o", library], check=True)
    tries = Refused(library, program(next(iter(words[is_long:]), None)), folder)
    if not is_sound(tries):
        return 1
    rows = UnderLibrary(tries)
    rows.read(f"{TOP}/checks/commands.txt")
    print(f"refused: rows of commands.txt: {tries.runs} runs, {tries.wrong} wrong so far", flush=True)
    inputs_of_one(tries)
    tries.each("names", names(tries, is_long))
    tries.each("classes", classes(tries, is_long))
    tries.each("programs", generated(tries, 100_000 if is_long else 10_000))
    print(f"refused: {tries.runs} runs ({', '.join(f'{n} with {status}' for status, n in sorted(tries.by_status.items()))}), {tries.wrong} wrong")
    return 1 if tries.wrong or tries.runs < 10_000 else 0


if __name__ == "__main__":
    sys.exit(main(sys.argv[1:]))
