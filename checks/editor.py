"""The tasks and settings of examples/.vscode/, as VS Code reads them.

    editor.py PROGRAM VIEW
"""
import glob
import json
import os
import re
import shutil
import subprocess
import sys
import tempfile

try:
    import jsonschema
except ImportError:
    jsonschema = None

TOP = os.path.dirname(os.path.dirname(os.path.abspath(__file__)))
wrong, tried = [], {"tasks": 0, "schemas": 0}


def expect(kind, what, had, wanted):
    tried[kind] += 1
    if had != wanted:
        wrong.append(f"{kind}: {what}: {had!r} in place of {wanted!r}")


def read(path):
    with open(path, encoding="utf-8") as file:
        return json.load(file)


def run(task, folder, file):
    """A task as VS Code runs it while a file is open and the folder `examples` is."""
    place, name = os.path.split(file)
    values = {"workspaceFolder": f"{folder}/examples", "file": file, "fileDirname": place, "fileBasenameNoExtension": name.removesuffix(".ts")}
    words = [re.sub(r"\$\{(\w+)\}", lambda found: values[found[1]], it) for it in [task["command"], *task["args"]]]
    ran = subprocess.run(words, cwd=f"{folder}/examples", stdin=subprocess.DEVNULL, stdout=subprocess.PIPE, stderr=subprocess.STDOUT, timeout=120, check=False)
    return ran.returncode, ran.stdout.decode()


def marks(task, text):
    """What a task's problem matcher finds: file, line and column, where there is a message."""
    pattern = task["problemMatcher"]["pattern"]
    found = [re.match(pattern["regexp"], it) for it in text.split("\n")]
    return [(it[pattern["file"]], int(it[pattern["line"]]), int(it[pattern["column"]])) for it in found if it and it[pattern["message"]]]


def look_at_tasks(folder):
    shutil.copytree(f"{TOP}/bin", f"{folder}/bin", ignore=shutil.ignore_patterns("__pycache__"))
    shutil.copytree(f"{TOP}/examples", f"{folder}/examples")
    for name, program in zip(("sts", "view"), sys.argv[1:]):
        shutil.copy(program, f"{folder}/bin/{name}")
    with open(f"{folder}/bin/program", "w", encoding="utf-8") as file:
        file.write(f"#!/bin/sh\necho '{folder}/bin/sts'\n")
    show, page, judge = read(f"{TOP}/examples/.vscode/tasks.json")["tasks"]
    with open(f"{folder}/examples/counter.txt", encoding="utf-8") as file:
        moments = file.read().count(" display ")
    status, text = run(show, folder, f"{folder}/examples/counter.ts")
    expect("tasks", "show", (status, len(re.findall(r"(?m)^ +\d+ ms", text)), "button A after" in text, marks(show, text)), (0, moments, True, []))
    status, text = run(show, folder, f"{folder}/examples/hello.ts")
    expect("tasks", "show, without a script", (status, "-2147483648" in text, marks(show, text)), (0, True, []))
    refused = f"{folder}/examples/a pupil's.ts"
    with open(refused, "w", encoding="utf-8") as file:
        file.write("let a = 1\nled.plot(1 2)\n")
    status, text = run(show, folder, refused)
    expect("tasks", "show, refused", (status, marks(show, text)), (10, [(refused, 2, 12)]))
    for name, has in (("counter", "button A"), ("hello", "")):
        status, text = run(page, folder, f"{folder}/examples/{name}.ts")
        with open(f"{folder}/examples/{name}.html", encoding="utf-8") as file:
            expect("tasks", f"page of {name}", (status, text, file.read(15).lower()), (0, "", "<!doctype html>"))
    status, text = run(judge, folder, f"{folder}/examples/homework/anna.ts")
    expect("tasks", "judge", (status, len(re.findall(r"(?m)^\w[\w ]+ .*/homework/\w+\.ts: ", text))), (1, 5))


def is_matched(patterns, name):
    """Whether a file has a schema by patterns: the last that fits counts, and one with `!` takes it out."""
    has = False
    for it in patterns:
        form = re.escape(it.removeprefix("!")).replace(r"\*", "[^/]*")
        if re.search(rf"(?:^|/){form}$", name):
            has = not it.startswith("!")
    return has


def look_at_schemas():
    rules = read(f"{TOP}/examples/.vscode/settings.json")["json.schemas"]
    for path in sorted(glob.glob(f"{TOP}/examples/**/*.json", recursive=True) + glob.glob(f"{TOP}/examples/.vscode/*.json")):
        name = os.path.relpath(path, f"{TOP}/examples")
        none = name == "tsconfig.json" or name.startswith(("schemas/", ".vscode/"))
        kind = "class" if name.endswith(".class.json") else "arrivals" if name.endswith(".arrivals.json") else "script"
        found = [it["url"] for it in rules if is_matched(it["fileMatch"], name)]
        expect("schemas", name, found, [] if none else [f"./schemas/{kind}.json"])
        if found and jsonschema:
            told = list(jsonschema.Draft202012Validator(read(f"{TOP}/examples/{found[0]}")).iter_errors(read(path)))
            expect("schemas", f"{name} by {found[0]}", [it.message for it in told], [])


with tempfile.TemporaryDirectory(prefix="an editor ") as home:
    look_at_tasks(home)
look_at_schemas()
for it in wrong:
    print(f"editor: {it}")
print(f"editor: {', '.join(f'{count} {kind}' for kind, count in tried.items())}, {len(wrong)} wrong")
sys.exit(1 if wrong or tried["schemas"] < 30 else 0)
