"""What the checks share: the repository's folder, its crates, its sources, and a folder of a check's own with the program sts in it."""
import atexit
import glob
import os
import shutil
import subprocess
import sys
import tempfile

TOP = os.path.dirname(os.path.dirname(os.path.abspath(__file__)))
sys.path.append(f"{TOP}/bin")
import weights  # noqa: E402 (bin/prove and bin/gate read crates.txt by it too)

crates = weights.crates


def read(path):
    """Gives the text of a file of the repository."""
    with open(f"{TOP}/{path}", encoding="utf-8") as file:
        return file.read()


def below_top(pattern):
    """Gives the files of the repository with such names, as they are named from its top."""
    return sorted(glob.glob(pattern, root_dir=TOP, recursive=True))


def code():
    """Gives the text of each file of code of the crates, but for those that are rows of definitions."""
    return {path: read(path) for path in below_top("crates/*/src/**/*.rt") if "_rows/" not in path}


def program(given, name="sts"):
    """Gives the path of a program: the one that is given, or that which bin/program names."""
    if given:
        return os.path.abspath(given)
    ran = subprocess.run([f"{TOP}/bin/program", name], stdout=subprocess.PIPE, text=True, check=False)
    if ran.returncode:
        sys.exit(ran.returncode)
    return ran.stdout.strip()


def own_folder():
    """Gives a temporary folder, which goes where the check ends."""
    folder = tempfile.mkdtemp()
    atexit.register(shutil.rmtree, folder, ignore_errors=True)
    return folder


def folder_with_sts(given=None):
    """Gives such a folder with the program sts in it."""
    folder = own_folder()
    shutil.copy(program(given), f"{folder}/sts")
    return folder


def needs(check, package, *tools):
    """Ends the check as skipped where a tool is missing."""
    for it in tools:
        if shutil.which(it) is None:
            print(f"{check}: {it} is missing (Debian: {package})")
            sys.exit(77)
