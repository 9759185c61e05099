"""Whether `bin/test --quick` changes nothing outside its clone. It runs in a clone of the last commit, as an ordinary
user; lists of files with their kinds are compared before and after it: of /dev, of the temporary folders, and of the
user's home. Called by root, it runs as a user whom nobody else is, so that in the temporary folders each file of that
user counts, wherever else others write; called by an ordinary user, these are folders of its own, and of the others the
user's own files count that aren't there for another process.

Before that it looks whether a compiler, an assembler, a linker or objcopy is given a device as its output: as root they
put a file in its place.
"""
import os
import pwd
import re
import shutil
import stat
import subprocess
import sys
import tempfile

TOP = os.path.dirname(os.path.dirname(os.path.abspath(__file__)))
DEVICE = re.compile(r"""-o\W{1,4}(?:/dev/|os\.devnull)|objcopy\b.*(?:/dev/(?!null['"]? *2?>)|devnull)|--output\W(?:/dev/|os\.devnull)""")
PLANTED = ['cc -c x.c -o /dev/null', '["cc", "x.c", "-o", "/dev/null"]', '["ld.lld", "-o", os.devnull]', "arm-none-eabi-objcopy -O binary x /dev/null", "as --output=/dev/null x.s"]
RIGHT = ["command -v objcopy >/dev/null", "cc -o x x.c 2>/dev/null", "subprocess.run(x, stdout=subprocess.DEVNULL)"]


def given_devices():
    """The lines of scripts that give a device as an output."""
    for line in PLANTED + RIGHT:
        if bool(finds(line)) != (line in PLANTED):
            sys.exit(f"outside: this check doesn't do what it says: {line}")
    listed = subprocess.run(["git", "ls-files", "-z", "--", "bench", "bin", "checks", "examples", "tests", ".ci"], cwd=TOP, stdout=subprocess.PIPE, check=True).stdout.decode()
    for name in filter(None, listed.split("\0")):
        if name == "checks/outside.py" or not os.path.isfile(f"{TOP}/{name}"):
            continue
        with open(f"{TOP}/{name}", encoding="utf-8", errors="replace") as file:
            for number, line in enumerate(file, 1):
                if finds(line):
                    yield f"{name}:{number}: {line.strip()[:120]}"


def finds(line):
    return DEVICE.search(re.sub(r"[0-9&]*>+ ?/dev/null", "", line))


def kinds(folder, owner=None):
    """The files below a folder with their kinds, owners and, of devices, numbers; of one owner alone where it is named. Terminals, and memory that processes share, come and go."""
    found = {}
    for at, folders, files in os.walk(folder):
        if owner is None and at == "/dev":
            folders[:] = [it for it in folders if it not in ("pts", "shm", "mqueue", "fd")]
        for name in (*folders, *files):
            path = os.path.join(at, name)
            try:
                has = os.lstat(path)
            except OSError:
                continue
            if owner is None or has.st_uid == owner:
                found[path] = oct(has.st_mode), has.st_uid, has.st_rdev
    return found


def free_user():
    """A number that no user has, and of whom no file is in the temporary folders."""
    for number in range(61_000, 62_000):
        try:
            pwd.getpwuid(number)
        except KeyError:
            if not any(kinds(it, number) for it in ("/tmp", "/var/tmp", "/dev")):
                return number
    return sys.exit("outside: no number is left for a user")


def runs(folder):
    """Runs the tests there; gives the status, and what changed outside."""
    clone, home, temporary = (os.path.join(folder, it) for it in ("clone", "home", "temporary"))
    os.chmod(folder, 0o755)
    # (a clone with links would share files with this tree, whose owner changes below)
    subprocess.run(["git", "clone", "-q", "--no-hardlinks", TOP, clone], check=True)
    os.mkdir(home)
    os.mkdir(temporary)
    user, order = os.getuid(), [f"{clone}/bin/test", "--quick"]
    if user == 0:
        user = free_user()
        subprocess.run(["chown", "-R", f"{user}:{user}", folder], check=True)
        # (ssh and others want to know the user: a list with one more name is in the system's place, for this call alone)
        users = os.path.join(folder, "passwd")
        shutil.copy("/etc/passwd", users)
        with open(users, "a", encoding="utf-8") as it:
            it.write(f"outside:x:{user}:{user}::{home}:/bin/sh\n")
        known = ["unshare", "--mount", "--", "sh", "-c", 'mount --bind "$0" /etc/passwd && exec "$@"', users]
        order = [*known, "setpriv", f"--reuid={user}", f"--regid={user}", "--clear-groups", "--", *order]
    environment = {it: os.environ[it] for it in ("PATH", "LANG", "LC_ALL") if it in os.environ} | {"HOME": home, "TMPDIR": temporary}
    # (files of this user's other processes aren't this call's)
    places = {"/dev": None, home: None, temporary: None} | ({"/tmp": user, "/var/tmp": user, "/dev/shm": user} if os.getuid() == 0 else {})
    before = {place: kinds(place, owner) for place, owner in places.items()}
    log = os.path.join(TOP, "out/outside.log")
    os.makedirs(os.path.dirname(log), exist_ok=True)
    with open(log, "wb") as said:
        ran = subprocess.run(order, cwd=clone, env=environment, stdin=subprocess.DEVNULL, stdout=said, stderr=subprocess.STDOUT, check=False)
    changed = []
    for place, owner in places.items():
        after = kinds(place, owner)
        for path in sorted(before[place].keys() | after.keys()):
            if before[place].get(path) != after.get(path) and not (path.startswith(folder) and place == "/tmp"):
                changed.append(f"{path}: {before[place].get(path, 'nothing')} before, {after.get(path, 'nothing')} after")
    return ran.returncode, changed, log


def main():
    given = list(given_devices())
    for line in given:
        print(f"outside: a device as an output: {line}")
    if sys.argv[1:] == ["--words"]:
        print(f"outside: {len(given)} commands give a device as an output")
        sys.exit(1 if given else 0)
    for it in ("git", "rt", "setpriv", "unshare"):
        if not shutil.which(it):
            print(f"outside: {it} is missing")
            sys.exit(77)
    # (a kit that an ordinary user can't read can't be tried)
    with tempfile.TemporaryDirectory(prefix="sts-outside-", ignore_cleanup_errors=True) as folder:
        status, changed, log = runs(folder)
    for line in changed[:40]:
        print(f"outside: {line}")
    if status:
        print(f"outside: bin/test --quick ended with {status}, see {log}")
    print(f"outside: {len(given)} commands give a device as an output, {len(changed)} files outside changed")
    sys.exit(1 if given or changed or status else 0)


if __name__ == "__main__":
    assert stat.S_ISCHR(os.stat("/dev/null").st_mode), "/dev/null is no device"
    main()
