"""Makes a release and uses it where the kit can't be seen.

    release.py [ROOT]
"""
import glob
import gzip
import hashlib
import os
import re
import shutil
import subprocess
import sys
import tarfile
import tempfile

TOP = os.path.dirname(os.path.dirname(os.path.abspath(__file__)))
ROOT = os.path.abspath(sys.argv[1]) if sys.argv[1:] else None
KIT = os.path.dirname(os.path.dirname(os.path.realpath(shutil.which("rt")))) if shutil.which("rt") else None
NOBODY = "65534"
BARE = {"PATH": "/usr/bin:/bin", "HOME": "/nonexistent", "LANG": "C.UTF-8"}
FILES = {"P": "examples/counter.ts", "S": "examples/counter.json", "H": "counter.hex", "A": "examples/arrivals/polling.arrivals.json", "C": "examples/class/ping_pong.class.json",
         "F": "examples/counter.txt", "FOLDER": "examples", "M": "100000"}
wrong, tried = [], {}


def expect(kind, what, had, wanted):
    tried[kind] = tried.get(kind, 0) + 1
    if had != wanted:
        wrong.append(f"{kind}: {what}: {had!r} in place of {wanted!r}")


def run(*order, cwd=TOP, **other):
    return subprocess.run(order, cwd=cwd, stdin=subprocess.DEVNULL, stdout=subprocess.PIPE, stderr=subprocess.PIPE, timeout=900, check=False, **other)


def inner(path):
    """A path as the bare root has it."""
    return path.removeprefix(ROOT) if ROOT else path


def bare(line, cwd):
    """Runs a line of the shell as a user without rights, where neither the kit nor this tree is: in the bare root, or with empty folders mounted over them."""
    if ROOT:
        order = [shutil.which("chroot") or "/usr/sbin/chroot", f"--userspec={NOBODY}:{NOBODY}", ROOT, "sh", "-c", f"cd '{inner(cwd)}' && {line}"]
    else:
        hidden = [it for it in dict.fromkeys([KIT, TOP, "/usr/local", os.path.expanduser("~")]) if it and os.path.isdir(it) and it != "/"]
        mounts = "for it; do mount -t tmpfs -o size=64k none \"$it\"; done; cd \"$AT\"; exec setpriv --reuid=65534 --regid=65534 --clear-groups env -u AT sh -c \"$LINE\""
        order = ["unshare", "--mount", "--propagation", "private", "sh", "-ec", mounts, "sh", *hidden]
    ran = run(*order, cwd="/", env={**BARE, **({} if ROOT else {"LINE": line, "AT": cwd})})
    return ran.returncode, ran.stdout.decode().replace("\r\n", "\n"), ran.stderr.decode()


def look_at_words():
    """--help and --version are answered, in front of other words alone, and the tables of docs/COMMANDS.md have the options that there are."""
    with open(f"{TOP}/docs/COMMANDS.md", encoding="utf-8") as file:
        document = file.read()
    with open(f"{TOP}/VERSION", encoding="utf-8") as file:
        version = file.read().strip()
    parts = {it[0]: it[1] for it in re.findall(r"(?ms)^## (\w+): [^\n]*\n(.*?)(?=^## |\Z)", document)}
    for name in ("sts", "view"):
        said = run(f"bin/{name}", "--help")
        rows = [it for it in re.findall(r"(?m)^\| `([^|]*)` \|", parts[name]) if it.startswith((name, "--"))]
        for row in rows:
            expect("help", f"bin/{name} --help has {row}", row.replace("`", "") in said.stdout.decode().split("\n"), True)
        expect("help", f"bin/{name} --help, status", (said.returncode, len(rows) > 1), (0, True))
        expect("version", name, run(f"bin/{name}", "--version").stdout.decode().split("\n")[0].split()[-2:], ["sts", version])
    expect("help", "behind a command it is no word", (run("bin/sts", "check", "--help").returncode, run("bin/sts", "--helps").stdout), (2, b"usage\n"))
    for name in ("prove", "test"):
        said = run(f"bin/{name}", "--help")
        expect("help", name, (said.returncode, f"bin/{name}" in said.stdout.decode()), (0, True))
        expect("version", name, run(f"bin/{name}", "--version").stdout.decode().split("\n")[0], f"{name} of sts {version}")
    for name in ("show", "judge"):
        options = set(re.findall(r"(?m)^  (?:-\w, )?(--[a-z-]+)", run(f"bin/{name}", "--help").stdout.decode().partition("options:")[2])) - {"--help"}
        told = set(re.findall(r"--[a-z][a-z-]*", " ".join(re.findall(r"(?m)^\| ([^|]*) \|", parts[name]))))
        expect("help", f"options of {name} that docs/COMMANDS.md hasn't, or has too much", options ^ told, set())


def look_at_refusals(folder):
    """A clone has no programs whose proofs were checked, so there is nothing to release; nor is there where a file has changed, or where CHANGELOG.md doesn't have the version."""
    run("git", "clone", "-q", TOP, f"{folder}/clone")

    def refused(sentence):
        ran = run("bin/release", f"{folder}/none", cwd=f"{folder}/clone")
        expect("refusals", sentence, (ran.returncode, sentence in ran.stderr.decode(), os.path.exists(f"{folder}/none")), (1, True, False))

    refused("the proofs of sts haven't been checked here")
    with open(f"{folder}/clone/README.md", "a", encoding="utf-8") as file:
        file.write("\n")
    refused("files have changes that no commit has")
    with open(f"{folder}/clone/VERSION", "w", encoding="utf-8") as file:
        file.write("99.0.0\n")
    refused("CHANGELOG.md says nothing of version 99.0.0")
    shutil.rmtree(f"{folder}/clone")


def make(folder):
    """Makes a release twice, and gives its archive and its package."""
    proved = run("bin/program", "--proved").returncode == 0 and run("bin/program", "--proved", "view").returncode == 0 and not run("git", "status", "--porcelain").stdout
    kind = [] if proved else ["--unproved"]
    for name, change in (("one", {}), ("two", {"TZ": "Asia/Tokyo", "LANG": "C", "PYTHONHASHSEED": "7"})):
        ran = run("bin/release", f"{folder}/{name}", *kind, env={**os.environ, **change}, umask=0o077 if change else 0o022)
        if ran.returncode:
            sys.exit(f"release: bin/release failed: {ran.stderr.decode()}")
    print(f"release: of {'proved programs' if proved else 'programs that bin/compile made, since there are no proved ones of this tree without changes'}")
    names = sorted(os.listdir(f"{folder}/one"))
    expect("bytes", "names", (names, len(names)), (sorted(os.listdir(f"{folder}/two")), 3))
    for name in names:
        with open(f"{folder}/one/{name}", "rb") as one, open(f"{folder}/two/{name}", "rb") as two:
            expect("bytes", name, hashlib.sha256(one.read()).hexdigest(), hashlib.sha256(two.read()).hexdigest())
    expect("bytes", "checksums beside them", run("sha256sum", "--status", "-c", "SHA256SUMS", cwd=f"{folder}/one").returncode, 0)
    archive, package = (glob.glob(f"{folder}/one/*{it}")[0] for it in (".tar.gz", ".deb"))
    expect("bytes", "names that say unproved", ["unproved" in it for it in (archive, package)], [not proved] * 2)
    return archive, package, proved


def look_at_archive(archive, place):
    """The archive's members are sorted, root's, of one time; its checksums are right and name all; links in documents lead somewhere. Gives the folder where it is unpacked."""
    with tarfile.open(archive) as tar:
        members = tar.getmembers()
        tar.extractall(place)
    names = [it.name for it in members]
    expect("archive", "order", names, sorted(names))
    expect("archive", "owners, times and modes", {(it.uid, it.gid, it.uname, it.gname) for it in members} | {it.mode for it in members} | {len({it.mtime for it in members})},
           {(0, 0, "", ""), 0o755, 0o644, 1})
    at = f"{place}/{names[0]}"
    expect("archive", "checksums", run("sha256sum", "--status", "-c", "SHA256SUMS", cwd=at).returncode, 0)
    with open(f"{at}/SHA256SUMS", encoding="utf-8") as file:
        listed = {it.split("  ", 1)[1] for it in file.read().splitlines()}
    expect("archive", "files that the checksums leave out", {it.name.split("/", 1)[1] for it in members if it.isfile()} - listed, {"SHA256SUMS"})
    for document in glob.glob(f"{at}/**/*.md", recursive=True):
        with open(document, encoding="utf-8") as file:
            for target in re.findall(r"\]\(([^)#:\s]+)", file.read()):
                expect("links", f"{document}: {target}", os.path.exists(os.path.join(os.path.dirname(document), target)), True)
    with open(f"{at}/LICENSES/README.md", encoding="utf-8") as file:
        rows = dict(re.findall(r"(?m)^\| `(\w+)` \| (.*) \|$", file.read()))
    for name in ("clap", "serde_json", "slab", "itoa", "circular_buffer", "hex", "unicode_width"):
        expect("licences", name, "LICENSE" in rows.get(name, "") and all(os.path.getsize(f"{at}/LICENSES/{name}/{it}") > 500 for it in rows[name].split(", ")), True)
    return at


def commands_of(document):
    """The commands of a document, each with what it is to write, or with nothing where that isn't shown."""
    with open(document, encoding="utf-8") as file:
        text = file.read()
    for fence in re.findall(r"(?ms)^```sh\n(.*?)^```", text):
        yield from ((it, None) for it in fence.splitlines() if it.startswith("bin/"))
    blocks, empty = [[]], 0
    for line in text.split("\n"):
        if line.startswith("    "):
            blocks[-1] += [""] * (empty if blocks[-1] else 0) + [line[4:]]
        elif line and blocks[-1]:
            blocks.append([])
        empty = 0 if line else empty + 1
    for block, after in zip(blocks, [*blocks[1:], []]):
        begins = [at for at, it in enumerate(block) if re.match(r"(\$ )?bin/(sts|view|show|judge)\b|\$ (cat|echo) ", it)]
        for at, end in zip(begins, [*begins[1:], len(block)]):
            line, shown = block[at].removeprefix("$ "), block[at + 1 : end]
            while line.endswith("\\") and shown:
                line = line[:-1] + shown.pop(0).strip()
            yield line, shown if shown or block[at].startswith("$ ") else after


def opens(line, at):
    """Whether a call of bin/play, which goes on until it is ended, writes the address of its page."""
    return re.match(r"http://127\.0\.0\.1:[0-9]+/#\S+\n", bare(f"timeout --signal=INT 5 {line} --no-browser", at)[1]) is not None


def use(at):
    """All commands of the documents, and the forms of README's tables, where the kit can't be seen."""
    expect("bare", "the kit", bare(f"command -v rt; ls '{KIT}/bin' '{TOP}/bin'", at)[:2], (2, ""))
    expect("bare", "--version", bare("bin/sts --version", at)[1].split("\n")[0], f"sts {open(f'{at}/VERSION', encoding='utf-8').read().strip()}")
    for document in [f"{at}/README.md", *sorted(glob.glob(f"{at}/docs/*.md"))]:
        for line, shown in commands_of(document):
            if line.startswith("bin/play "):
                expect("commands", line, opens(line, at), True)
                continue
            status, said, errors = bare(line, at)
            if shown is None:
                expect("commands", line, (status, errors), (0, ""))
            else:
                expect("commands", line, said, "".join(f"{it}\n" for it in shown))
    with open(f"{at}/README.md", encoding="utf-8") as file:
        readme = file.read()
    bare("bin/sts build examples/counter.ts > counter.hex", at)
    for row in re.findall(r"(?m)^\| (`(?:sts|bin/\w+) .*?) \|", readme):
        for form in re.findall(r"`((?:sts|bin/\w+) [^`]*)`", row):
            line = " ".join(FILES.get(word, word) for word in form.split(" "))
            if line.startswith("bin/play "):
                expect("forms", line, opens(line, at), True)
                continue
            status, _, errors = bare(line if line.startswith("bin/") else f"bin/{line}", at)
            expect("forms", line, (status, "Traceback" in errors), (0, False))


def install(at, place):
    """Installed below a prefix the commands have their names there, also a second time, and answer in another folder, where what was unpacked is gone."""
    os.makedirs(f"{place}/else", exist_ok=True)
    shutil.copytree(f"{at}/examples", f"{place}/else/examples")
    run("chown", "-R", f"{NOBODY}:{NOBODY}", place)
    prefix = f"{place}/prefix of mine"
    for words, status in ((f"--prefix '{inner(prefix)}'", 0), (f"--prefix='{inner(prefix)}'", 0), ("", 2), ("--prefix ''", 2)):
        expect("install", words, bare(f"./install {words}", at)[0], status)
    expect("install", "out of itself", bare(f"'{inner(prefix)}/lib/sts/install' --prefix '{inner(prefix)}'", at)[0], 1)
    shutil.move(at, f"{at}.gone")
    here, there = f"{place}/else", f"'{inner(prefix)}/bin"
    expect("install", "sts", bare(f"{there}/sts' run examples/hello.ts", here)[:2], (0, "0 serial 2d32313437343833363438\nend 0 quiet\n"))
    expect("install", "sts-show", bare(f"{there}/sts-show' examples/counter.ts examples/counter.json", here)[1].count("██") > 20, True)
    expect("install", "sts-view", bare(f"{there}/sts-view' examples/counter.txt", here)[1].count("██") > 20, True)
    expect("install", "sts-judge", bare(f"{there}/sts-judge' examples", here)[0], 0)
    expect("install", "sts --help", "sts run P" in bare(f"{there}/sts' --help", here)[1], True)
    for name in ("sts", "sts-play", "sts-show", "sts-view", "sts-judge"):
        expect("install", f"the page of {name}", os.path.exists(f"{prefix}/share/man/man1/{name}.1"), True)


def look_at_pages(folder):
    """man and mandoc read the pages without a warning, and what they show has the forms of the words."""
    for page in sorted(glob.glob(f"{folder}/*.1")):
        name = os.path.basename(page)[:-2]
        ran = run("man", "--warnings", "-l", page, env={**os.environ, "LC_ALL": "C.UTF-8", "MANWIDTH": "80"})
        shown = re.sub(".\b", "", ran.stdout.decode())
        expect("pages", f"man -l {name}", (ran.returncode, ran.stderr.decode()), (0, ""))
        expect("pages", f"{name}: its parts", [it for it in ("NAME", "SYNOPSIS", "DESCRIPTION", "SEE ALSO") if f"\n{it}\n" not in shown], [])
        expect("pages", f"{name}: its name", f"{name} - " in shown, True)
        ran = run("mandoc", "-Tlint", "-Wwarning", page)
        expect("pages", f"mandoc {name}", ran.stdout.decode() + ran.stderr.decode(), "")


def look_at_package(package, folder, proved):
    """dpkg reads the package, installs it into an empty root, finds its files whole, and the commands there answer."""
    told = dict(it.split(": ", 1) for it in run("dpkg-deb", "--field", package).stdout.decode().splitlines() if re.match(r"[A-Z]\S*: ", it))
    expect("package", "fields", (told["Package"], told["Architecture"], "~unproved" in told["Version"], told["Depends"].startswith("libc6 (>= 2.")), ("sts", "amd64", not proved, True))
    root = f"{folder}/debian"
    for it in ("info", "updates", "triggers"):
        os.makedirs(f"{root}/var/lib/dpkg/{it}")
    for it in ("status", "available"):
        open(f"{root}/var/lib/dpkg/{it}", "w", encoding="utf-8").close()
    ran = run("dpkg", f"--root={root}", "--force-depends", "--log=/dev/null", "-i", package)
    expect("package", f"dpkg -i {ran.stderr.decode()[-300:] if ran.returncode else ''}", ran.returncode, 0)
    expect("package", "dpkg -V", run("dpkg", f"--root={root}", "-V", "sts").stdout, b"")
    run("chmod", "-R", "a+rX", folder)
    if not ROOT:
        for name, words in (("sts", "--version"), ("sts", f"run {root}/usr/share/doc/sts/examples/hello.ts"), ("sts-judge", f"{root}/usr/lib/sts/examples")):
            expect("package", f"{name} {words}", bare(f"{root}/usr/bin/{name} {words}", "/")[0], 0)
    with gzip.open(f"{root}/usr/share/man/man1/sts.1.gz", "rt", encoding="utf-8") as page:
        expect("package", "its page", page.read(6), ".TH ST")


def main():
    look_at_words()
    with tempfile.TemporaryDirectory() as folder:
        os.chmod(folder, 0o755)
        look_at_refusals(folder)
        archive, package, proved = make(folder)
        place = tempfile.mkdtemp(dir=f"{ROOT}/tmp" if ROOT else folder)
        os.chmod(place, 0o755)
        at = look_at_archive(archive, place)
        look_at_pages(f"{at}/man/man1")
        run("chown", "-R", f"{NOBODY}:{NOBODY}", place)
        use(at)
        install(at, place)
        look_at_package(package, folder, proved)
        if ROOT:
            shutil.rmtree(place)
    for it in wrong:
        print(f"release: {it}")
    print(f"release: {', '.join(f'{count} {kind}' for kind, count in tried.items())}, {len(wrong)} wrong")
    sys.exit(1 if wrong else 0)


main()
