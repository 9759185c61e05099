"""Runs the programs of rows of tests/, as many side by side as there are processors.

    rows.py ROWS [NAME..]

Each folder of tests/ with a file stdin is one, and there must be a source of its name beside tests/rows/src/main.rs.
"""
import concurrent.futures
import difflib
import glob
import os
import shutil
import subprocess
import sys
import tempfile

TOP = os.path.dirname(os.path.dirname(os.path.abspath(__file__)))
SOURCES = f"{TOP}/tests/rows/src"


def all_names():
    return sorted(os.path.basename(os.path.dirname(it)) for it in glob.glob(f"{TOP}/tests/*/stdin"))


def read(path):
    with open(path, "rb") as file:
        return file.read()


def wrong_of(rows, name):
    """Gives what is wrong with a program's run, in lines, and how many lines it wrote."""
    due = read(f"{TOP}/tests/{name}/stdout")
    with tempfile.TemporaryDirectory() as folder, open(f"{TOP}/tests/{name}/stdin", "rb") as given:
        ran = subprocess.run([rows, name], cwd=folder, stdin=given, stdout=subprocess.PIPE, stderr=subprocess.PIPE, timeout=300, check=False)
    wrong = []
    if ran.returncode:
        wrong.append(f"ends with {ran.returncode}")
    if ran.stderr:
        wrong.append(f"says on standard error: {ran.stderr[:300].decode(errors='replace')}")
    if ran.stdout != due:
        lines = [it.decode(errors="replace").split("\n") for it in (due, ran.stdout)]
        wrong += ["writes other lines than those that are wanted:", *list(difflib.unified_diff(*lines, lineterm="", n=0))[2:9]]
    if not due:
        wrong.append("has no line in its stdout")
    return wrong, ran.stdout.count(b"\n")


def not_laid_out():
    """Gives the sources that aren't as rt fmt lays them out."""
    with tempfile.TemporaryDirectory() as folder:
        crate = f"{folder}/crates/rows"
        shutil.copytree(SOURCES, f"{crate}/src")
        files = [os.path.relpath(it, SOURCES) for it in glob.glob(f"{SOURCES}/**/*.rs", recursive=True)]
        for it in files:
            os.rename(f"{crate}/src/{it}", f"{crate}/src/{it[:-1]}t")
        with open(f"{folder}/crates.txt", "w", encoding="ascii") as file:
            file.write("rows:\n")
        subprocess.run(["rt", "fmt"], cwd=crate, stdout=subprocess.DEVNULL, check=True)
        return [it for it in files if read(f"{SOURCES}/{it}") != read(f"{crate}/src/{it[:-1]}t")]


def main(words):
    rows, names = os.path.abspath(words[0]), words[1:] or all_names()
    failed = 0
    with concurrent.futures.ThreadPoolExecutor(os.cpu_count()) as pool:
        for name, (wrong, lines) in zip(names, pool.map(lambda it: wrong_of(rows, it), names)):
            failed += bool(wrong)
            print(f"{name}: {lines} lines, {len(wrong)} wrong")
            for it in wrong:
                print(f"{name}: {it}")
    listed = sorted(os.path.basename(it)[: -len(".rs")] for it in glob.glob(f"{SOURCES}/*_rows.rs"))
    if listed != all_names():
        failed += 1
        print(f"rows: tests/ has rows for {' '.join(all_names())}, and programs for {' '.join(listed)}")
    if shutil.which("rt"):
        for it in not_laid_out():
            failed += 1
            print(f"tests/rows/src/{it} isn't laid out as rt fmt does it")
    print(f"rows: {len(names)} programs, {failed} wrong")
    return 1 if failed or not names else 0


if __name__ == "__main__":
    sys.exit(main(sys.argv[1:]))
