"""Instructions that compiled programs execute, beside the same programs in C compiled by gcc for the same processor.

    code.py PROGRAM

Nine programs: those of programs/, each with a twin in C that has the language's tests of null and of indices, and that
of `big 50` with one activity. gcc compiles the twins for cortex-m0 at -O0, -O1, -O2 and -Os; the images run on the
product's machine by `run-hex`. A program executes as many instructions as the least budget that is enough for it. All
must write the same number. Prints for each program the instructions, the image's bytes, and the instructions divided by
gcc's. Wants Debian's gcc-arm-none-eabi.
"""
import os
import subprocess
import sys
import tempfile

HERE = os.path.join(os.path.dirname(os.path.abspath(__file__)), "programs")
LEVELS = ("-O0", "-O1", "-O2", "-Os")
GCC = ["arm-none-eabi-gcc", "-mcpu=cortex-m0", "-mthumb", "-fno-builtin", "-nostdlib"]
PLACES = ["-T", os.path.join(HERE, "board.ld"), "-I", HERE]
MOST = 50_000_000


def big(count, rounds, calls):
    """The program of `big`, its activities called one after the other, and its twin."""
    numbers = range(1, count + 1)
    called = "".join(f"        x = f{i}(x);\n" for i in numbers)
    text = (
        "let x = 1;\n"
        + "".join(f"function f{i}(n: number): number {{ return (n * {i} + 7) % 1000 }}\n" for i in numbers)
        + f"function worker(): void {{\n    for (let r = 0; r < {rounds}; r++) {{\n{called}    }}\n}}\n"
        + "worker();\n" * calls
        + "serial.writeNumber(x);\n"
    )
    twin = (
        '#include "checks.h"\nint x;\n'
        + "".join(f"int f{i}(int n) {{ return (n * {i} + 7) % 1000; }}\n" for i in numbers)
        + f"void worker(void) {{\n    for (int r = 0; r < {rounds}; r++) {{\n{called}    }}\n}}\n"
        + "void program(void) {\n    x = 1;\n"
        + "    worker();\n" * calls
        + "    write(x);\n}\n"
    )
    return text, twin


def written(words, wanted=0):
    done = subprocess.run(words, capture_output=True, check=False)
    if done.returncode != wanted:
        sys.exit(f"code: {' '.join(words)} ended with {done.returncode}: {(done.stderr or done.stdout).decode()[:500]}")
    return done.stdout


class Image:
    """An image as HEX in a file: what it writes, and how many instructions it executes."""

    def __init__(self, program, path):
        self.program, self.path = program, path

    def output(self):
        return written([self.program, "run-hex", self.path, "--budget", str(MOST)])

    def instructions(self):
        enough, least = MOST, 1
        while least < enough:
            budget = (least + enough) // 2
            words = [self.program, "run-hex", self.path, "--budget", str(budget)]
            if subprocess.run(words, capture_output=True, check=False).returncode == 0:
                enough = budget
            else:
                least = budget + 1
        return least

    def length(self):
        """The bytes that its data records have."""
        with open(self.path, encoding="ascii") as lines:
            return sum(int(line[1:3], 16) for line in lines if line[7:9] == "00")


def product_image(program, folder, name):
    path = os.path.join(folder, f"{name}.hex")
    with open(path, "wb") as file:
        file.write(written([program, "build", os.path.join(folder, f"{name}.ts")]))
    return Image(program, path)


def twin_image(program, folder, name, level):
    elf, path = os.path.join(folder, f"{name}{level}.elf"), os.path.join(folder, f"{name}{level}.hex")
    written([*GCC, *PLACES, level, os.path.join(folder, f"{name}.c"), "-o", elf, "-lgcc"])
    written(["arm-none-eabi-objcopy", "-O", "ihex", elf, path])
    return Image(program, path)


def compare(program, folder, name):
    """One row, and whether all wrote the same."""
    image = product_image(program, folder, name)
    executed, output = image.instructions(), image.output()
    row = f"{name:8} {executed:7} instructions, {image.length():5} bytes"
    same = True
    for level in LEVELS:
        twin = twin_image(program, folder, name, level)
        if twin.output() != output:
            same = False
            row += f"; gcc {level} wrote another number"
            continue
        count = twin.instructions()
        row += f"; gcc {level} {count}, {executed / count:.2f}"
    print(row, flush=True)
    return same


def main():
    program = os.path.abspath(sys.argv[1])
    names = sorted(file[:-3] for file in os.listdir(HERE) if file.endswith(".ts"))
    with tempfile.TemporaryDirectory() as folder:
        for file in os.listdir(HERE):
            with open(os.path.join(HERE, file), "rb") as one, open(os.path.join(folder, file), "wb") as other:
                other.write(one.read())
        for end, text in zip((".ts", ".c"), big(50, 10, 5)):
            with open(os.path.join(folder, f"big50{end}"), "w", encoding="ascii") as file:
                file.write(text)
        same = [compare(program, folder, name) for name in [*names, "big50"]]
    sys.exit(0 if all(same) else 1)


main()
