"""Whole commands beside other programs on the same text: a processor's milliseconds, the least of RUNS runs each.

    whole.py PROGRAM [RUNS]

`check` beside TypeScript's compiler (`tsc -p`, of the text with the board's declarations) and esbuild, which reads and
checks no types; of functions without comments also, and `build` of them, beside `tcc -c` of the same functions in C;
`run` of a program that counts primes and of one that writes a line beside node, mujs, duktape and `tcc -run`; a start
beside `true`; a game on its script; and `big 200`. The runs of one row take turns. A peer that isn't there is left out
and named; one whose status isn't 0, or that writes another answer than is wanted, ends the run with 1.
"""
import json
import os
import shutil
import subprocess
import sys
import tempfile

TOP = os.path.dirname(os.path.dirname(os.path.dirname(os.path.abspath(__file__))))
LIMIT = 65536

FUNCTION_NOTE = "// " + "what is said of this function takes a line or two, and is read by who comes to it; " * 2 + "\n"
FUNCTION = """function f{0}(a: number): number {{
    let b = a * 2 + {0}
    if (b > 3) {{ return b }} else {{ return b - 1 }}
}}
"""
FUNCTION_IN_C = """int f{0}(int a) {{
    int b = a * 2 + {0};
    if (b > 3) {{ return b; }} else {{ return b - 1; }}
}}
"""
CLASS = "class C{0} {{\n    x = {0}\n    get(a: number): number {{ return this.x + a }}\n}}\n"

PRIMES = """function primes(most: number): number {
    let count = 0
    for (let n = 2; n < most; n++) {
        let prime = 1
        for (let d = 2; d * d <= n; d++) {
            if (n % d == 0) { prime = 0; break }
        }
        count += prime
    }
    return count
}
WRITE
"""
PRIMES_IN_C = """#include <stdio.h>
static int primes(int most) {
    int count = 0;
    for (int n = 2; n < most; n++) {
        int prime = 1;
        for (int d = 2; d * d <= n; d++) {
            if (n % d == 0) { prime = 0; break; }
        }
        count += prime;
    }
    return count;
}
int main(void) { printf("%d\\n", primes(30000)); return 0; }
"""


# as in examples/tsconfig.json, with no types of other packages
OPTIONS = {
    "noEmit": True, "strict": True, "strictNullChecks": False, "noLib": True, "target": "es5", "types": [],
    "moduleDetection": "force",
}


def filled(make):
    """As many parts as fit into a text of 65,536 bytes."""
    text, count = "", 0
    while len(text) + len(make(count)) <= LIMIT:
        text += make(count)
        count += 1
    return text


def texts():
    """The longest texts: a text's functions weigh 3,600 at most, so comments take the rest, which are read too."""
    negated = "-~" * 20
    return {
        "functions": filled(lambda i: FUNCTION_NOTE * 5 + FUNCTION.format(i)),
        "classes": filled(lambda i: FUNCTION_NOTE * 7 + CLASS.format(i) if i < 64 else FUNCTION_NOTE),
        "deep": filled(lambda i: FUNCTION_NOTE * 4 + f"let d{i} = {negated}{i}\n" if i < 26 else FUNCTION_NOTE),
    }


def milliseconds(words, folder):
    """The processor's time of one call, and what it wrote."""
    with tempfile.TemporaryFile() as out:
        child = subprocess.Popen(words, cwd=folder, stdin=subprocess.DEVNULL, stdout=out, stderr=subprocess.PIPE)
        errors = child.stderr.read()
        _, status, usage = os.wait4(child.pid, 0)
        child.returncode = os.waitstatus_to_exitcode(status)
        child.stderr.close()
        out.seek(0)
        written = out.read()
    if child.returncode != 0:
        said = (errors or written).decode(errors="replace")[:500]
        sys.exit(f"whole: {' '.join(words)} ended with {child.returncode}: {said}")
    return 1000 * (usage.ru_utime + usage.ru_stime), written


class Bench:
    """The commands of one run: the product's and its peers', each the least of so many runs in turns."""

    def __init__(self, program, runs, folder):
        self.program, self.runs, self.folder, self.missing = program, runs, folder, set()

    def path(self, peer):
        found = shutil.which(peer)
        if found is None:
            self.missing.add(peer)
        return found

    def row(self, name, words, peers, wanted=b""):
        """Prints the product's time and, for each peer, its time and the product's divided by it. Each writes what is
        wanted, the product as a transcript has it, in hexadecimal digits."""
        calls = {"sts": [self.program, *words]}
        for peer, peer_words in peers.items():
            if self.path(peer_words[0]):
                calls[peer] = peer_words
        least = {}
        for _ in range(self.runs):
            for who, call in calls.items():
                took, written = milliseconds(call, self.folder)
                if wanted not in written and wanted.hex().encode() not in written:
                    sys.exit(f"whole: {' '.join(call)} wrote {written[:200]!r}, which hasn't {wanted!r}")
                least[who] = min(took, least.get(who, took))
        product = least.pop("sts")
        beside = "".join(f"; {who} {took:.2f}, ratio {product / took:.2f}" for who, took in least.items())
        print(f"{name}: sts {product:.2f} ms{beside}", flush=True)


def write(folder, name, text):
    with open(os.path.join(folder, name), "w", encoding="ascii") as file:
        file.write(text)


def checks(bench, folder):
    for name, text in texts().items():
        write(folder, f"{name}.ts", text)
        files = [os.path.join(TOP, "examples", "board.d.ts"), f"{name}.ts"]
        write(folder, f"{name}.json", json.dumps({"compilerOptions": OPTIONS, "files": files}))
        peers = {
            "tsc": ["tsc", "-p", f"{name}.json"],
            "esbuild": ["esbuild", f"{name}.ts", f"--outfile={name}.js", "--allow-overwrite", "--log-level=error"],
        }
        bench.row(f"check {name}.ts, {len(text)} bytes", ["check", f"{name}.ts"], peers)


def functions_beside_c(bench, folder):
    count = 140
    write(folder, "plain.ts", "".join(FUNCTION.format(i) for i in range(count)))
    write(folder, "plain.c", "".join(FUNCTION_IN_C.format(i) for i in range(count)))
    peers = {"tcc -c": ["tcc", "-c", "plain.c", "-o", "plain.o"]}
    bench.row(f"check plain.ts, {count} functions without comments", ["check", "plain.ts"], peers)
    bench.row("build plain.ts", ["build", "plain.ts"], peers)


def interpreters(name):
    """Who else runs the program of that name, written for each."""
    return {
        "node": ["node", f"{name}.js"],
        "mujs": ["mujs", f"{name}_print.js"],
        "duktape": ["duk", f"{name}_print.js"],
        "tcc -run": ["tcc", "-run", f"{name}.c"],
    }


def runs(bench, folder):
    write(folder, "hello.ts", 'serial.writeLine("hello")\n')
    write(folder, "hello.js", 'console.log("hello")\n')
    write(folder, "hello_print.js", 'print("hello")\n')
    write(folder, "hello.c", '#include <stdio.h>\nint main(void) { puts("hello"); return 0; }\n')
    bench.row("run hello.ts", ["run", "hello.ts"], interpreters("hello"), b"hello")
    write(folder, "primes.ts", PRIMES.replace("WRITE", "serial.writeNumber(primes(30000))"))
    script = PRIMES.replace(": number", "").replace("let ", "var ")
    write(folder, "primes.js", script.replace("WRITE", "console.log(primes(30000))"))
    write(folder, "primes_print.js", script.replace("WRITE", "print(primes(30000))"))
    write(folder, "primes.c", PRIMES_IN_C)
    bench.row("run primes.ts, the primes below 30,000", ["run", "primes.ts", "--budget", "2000000000"], interpreters("primes"), b"3245")
    for end in ("ts", "json"):
        shutil.copy(os.path.join(TOP, "examples", f"game.{end}"), folder)
    bench.row("run game.ts game.json", ["run", "game.ts", "game.json"], {})
    bench.row("big 200", ["big", "200"], {})
    bench.row("check hello.ts", ["check", "hello.ts"], {"true": ["true"]})


def main():
    program, count = os.path.abspath(sys.argv[1]), int(sys.argv[2]) if len(sys.argv) > 2 else 7
    with tempfile.TemporaryDirectory() as folder:
        bench = Bench(program, count, folder)
        checks(bench, folder)
        functions_beside_c(bench, folder)
        runs(bench, folder)
    if bench.missing:
        print(f"whole: not there, so left out: {', '.join(sorted(bench.missing))}")


main()
