"""What shellcheck and pyflakes say of the repository's scripts: of shell all warnings, of Python all. No module beside the
checks has a name of Python's own library, which it would hide from them. Where one of the two tools is missing the
other is asked, and the check is skipped (status 77).

    checks/scripts.sh
"""
import os
import re
import shutil
import subprocess
import sys

from repository import TOP, below_top


def first_line(path):
    with open(f"{TOP}/{path}", "rb") as file:
        return file.readline()


def scripts():
    """Gives the scripts of shell and those of Python."""
    files = [it for it in below_top("bin/*") + below_top(".ci/*") + below_top("checks/*") + below_top("bench/**/*") if os.path.isfile(f"{TOP}/{it}")]
    heads = {it: first_line(it) for it in files}
    shell = [it for it, head in heads.items() if re.match(rb"#!/bin/(?:ba)?sh|# shellcheck shell=", head)]
    return shell, [it for it, head in heads.items() if it.endswith(".py") or b"python3" in head and head.startswith(b"#!")]


def said_by(words, files):
    """Gives the lines that a tool says of files."""
    ran = subprocess.run([*words, *files], cwd=TOP, stdout=subprocess.PIPE, stderr=subprocess.STDOUT, text=True, check=False)
    found = [it for it in ran.stdout.split("\n") if it]
    return found if found or not ran.returncode else [f"{words[0]} ended with {ran.returncode}"]


def main():
    shell, python = scripts()
    tools = {"shellcheck": ["shellcheck", "-x", "-S", "warning", "-f", "gcc"], "pyflakes3": ["pyflakes3"]}
    missing = [it for it in tools if shutil.which(it) is None]
    wrong = [line for it, files in zip(tools, (shell, python)) if it not in missing for line in said_by(tools[it], files)]
    hides = {os.path.basename(it)[:-3] for it in python if it.startswith("checks/")} & sys.stdlib_module_names
    wrong += [f"checks/{it}.py hides Python's own {it}" for it in sorted(hides)]
    for it in wrong:
        print(it)
    print(f"scripts: {len(shell)} of shell and {len(python)} of Python, {len(wrong)} wrong")
    if wrong or len(shell) < 40 or len(python) < 20:
        return 1
    if missing:
        print(f"scripts: {' and '.join(missing)} missing (Debian: shellcheck, pyflakes3)")
        return 77
    return 0


if __name__ == "__main__":
    sys.exit(main())
