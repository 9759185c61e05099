"""examples/board.d.ts declares the calls and constants of the board's table (crates/sts_syntax/specs/BoardTable.antt), with as
many parameters of the same types and the same result, and no others, and so does docs/CALLS.md, with the constants'
numbers; TypeScript's checker takes each program of examples/ with it, by itself and all by examples/tsconfig.json, by
which it doesn't take another; and what docs/LANGUAGE.md says that it refuses it refuses so (TS and a number).

    checks/board_types.sh
"""
import re
import shutil
import subprocess
import sys

from repository import TOP, below_top, needs, own_folder, read

TYPES = {"number": "number", "text": "string", "Handler": "() => void", "Drawing": "string"}
RESULTS = {"Nothing": "void", "Number": "number", "Boolean": "boolean"}
WORDS = ["--noEmit", "--strict", "--strictNullChecks", "false", "--noLib", "--target", "es5", f"{TOP}/examples/board.d.ts"]
LEAST_CALLS = 20


def of_table():
    """The calls of the table with the types of what they take and give, its constants, and these constants' numbers."""
    table = read("crates/sts_syntax/specs/BoardTable.antt")
    rows = re.findall(r'^row_of \w+ = row \(codes "(\w+)"\) \(codes "(\w+)"\) (\[\]|\([^)]*\)) t\.(\w+) ', table, re.M)
    calls = {f"{space}.{name}": ([TYPES[it] for it in takes.strip("()").split(" ∷ ") if it != "[]"], RESULTS[gives]) for space, name, takes, gives in rows}
    constants = {f"{space}.{name}": "number" for space, name in re.findall(r'constant \(codes "(\w+)"\) \(codes "(\w+)"\) \(', table)}
    numbers = {f"{space}.{name}": int(n) for space, name, n in re.findall(r'constant \(codes "(\w+)"\) \(codes "(\w+)"\) \(pos (\d+)\)', table)}
    return calls | constants, numbers, len(calls)


def types_of(parameters):
    return [it.split(": ", 1)[1] for it in parameters.split(", ") if it]


def declared():
    """The same of examples/board.d.ts."""
    found, space = {}, None
    for line in read("examples/board.d.ts").split("\n"):
        if head := re.match(r"declare namespace (\w+) \{", line):
            space = head[1]
        elif call := re.match(r"    function (\w+)\((.*)\): (\w+)$", line):
            found[f"{space}.{call[1]}"] = types_of(call[2]), call[3]
        elif constant := re.match(r"    const (\w+): (\w+)$", line):
            found[f"{space}.{constant[1]}"] = constant[2]
    return found


def documented():
    """The same of docs/CALLS.md, and the constants' numbers."""
    found, numbers = {}, {}
    for line in read("docs/CALLS.md").split("\n"):
        if call := re.match(r"- `(\w+\.\w+)\((.*)\): (\w+)` ", line):
            found[call[1]] = types_of(call[2]), call[3]
        elif constant := re.match(r"\| `(\w+\.\w+)` \| (\d+) \|$", line):
            found[constant[1]], numbers[constant[1]] = "number", int(constant[2])
    return found, numbers


def tables_are_one():
    wanted, numbers, calls = of_table()
    here, (told, told_numbers) = declared(), documented()
    wrong = 0
    for document, what, has in (("examples/board.d.ts", wanted, here), ("docs/CALLS.md", wanted, told), ("docs/CALLS.md", numbers, told_numbers)):
        for it in sorted(it for it in {*what, *has} if what.get(it) != has.get(it)):
            wrong += 1
            print(f"board types: {it} is {what.get(it)} in the table and {has.get(it)} in {document}")
    print(f"board types: {len(here)} names, {wrong} wrong")
    return not wrong and calls >= LEAST_CALLS


def tsc(*words):
    """Gives what TypeScript's checker says."""
    return subprocess.run(["tsc", *words], cwd=TOP, stdout=subprocess.PIPE, text=True, check=False).stdout


def takes_examples(folder):
    """Whether TypeScript takes the examples, one by one and by their tsconfig.json, and not another program beside them."""
    said = "".join(tsc(*WORDS, it) for it in below_top("examples/*.ts") if it != "examples/board.d.ts") + tsc("-p", "examples")
    print(said or "board types: TypeScript takes each program of examples/")
    shutil.copytree(f"{TOP}/examples", f"{folder}/examples")
    with open(f"{folder}/examples/other.ts", "w", encoding="ascii") as file:
        file.write('basic.pause("a")\n')
    refuses = "other.ts(1,13): error TS2345:" in tsc("-p", f"{folder}/examples")
    if not refuses:
        print("board types: examples/tsconfig.json has tsc take a text for a number")
    return not said and refuses


def refuses_rows(folder):
    """Whether TypeScript refuses what docs/LANGUAGE.md says that it does, as it says."""
    rows = re.findall(r"(?m)^\| ((?:`[^`]*` ?)+) \| (TS\d+) \|", read("docs/LANGUAGE.md"))
    wrong = 0
    for example, due in rows:
        with open(f"{folder}/p.ts", "w", encoding="utf-8") as file:
            file.write("\n".join(re.findall(r"`([^`]*)`", example)))
        said = set(re.findall(r"error (TS\d+):", tsc(*WORDS, f"{folder}/p.ts")))
        if said != {due}:
            wrong += 1
            print(f"board types: TypeScript says {said} of {example}, and docs/LANGUAGE.md {due}")
    print(f"board types: {len(rows)} programs that TypeScript refuses, {wrong} wrong")
    return bool(rows) and not wrong


def main():
    if not tables_are_one():
        return 1
    needs("board types", "node-typescript", "tsc")
    folder = own_folder()
    return 0 if takes_examples(folder) and refuses_rows(folder) else 1


if __name__ == "__main__":
    sys.exit(main())
