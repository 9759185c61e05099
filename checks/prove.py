"""Tries what bin/prove takes for proved: in a tree of a library and a program, with a kit of scripts whose prover
refuses a text with the word false, and edits a source at a moment that is given.

An edit that the prover hasn't read is never held for proved, in each of the three windows: before the prover reads the
crate, while it proves, and after it; and so is one that was there while it read, and gone when it ended. A killed run
leaves no note beside a library that was written in part. A library, a note or a folder that others could have written
to isn't taken. With the kit's own prover the second window is tried once more, with a contract that is false.
"""
import contextlib
import os
import shutil
import stat
import subprocess
import sys
import tempfile

TOP = os.path.dirname(os.path.dirname(os.path.abspath(__file__)))
NOBODY = 65534

PROVER = r"""#!/bin/sh
# Notes what it reads, runs the hook of a moment once, and makes a library, an object file or nothing.
act=$1 name='' to=''
while [ $# -gt 0 ]; do
    case $1 in --crate-name) name=$2 ;; -o) to=$2 ;; esac
    shift
done
hook() { if [ -f "$HOOKS/$1-$name" ]; then mv "$HOOKS/$1-$name" "$HOOKS/now" && . "$HOOKS/now"; fi; }
hook before
text=$(cat src/*.rt)
echo "$name $text" >>"$HOOKS/read"
hook while
case $text in *false*) echo "$name is not proved"; exit 1 ;; esac
case $to in
*.rlib) rm -rf "$to" && mkdir "$to" && echo "$text" >"$to/lib" ;;
*) echo "$text" >"$to" ;;
esac
hook after
"""
LINKER = r"""#!/bin/sh
while [ $# -gt 0 ]; do
    case $1 in -o) to=$2 ;; *.o) from=$1 ;; esac
    shift
done
printf '#!/bin/sh\necho %s\n' "$(cat "$from")" >"$to" && chmod 755 "$to"
"""


class Wrong:
    def __init__(self):
        self.count, self.judged = 0, 0

    def judge(self, what, came, due):
        self.judged += 1
        if came != due:
            self.count += 1
            print(f"prove: {what}: {came!r} in place of {due!r}")


def write(path, text, mode=0o644):
    with open(path, "w", encoding="utf-8") as it:
        it.write(text)
    os.chmod(path, mode)


def stub_kit(folder):
    for it in ("bin", "rlibs", "logic_built", "toolchain", "c"):
        os.makedirs(f"{folder}/{it}")
    write(f"{folder}/KIT-ID", "stub\n")
    write(f"{folder}/bin/rt", "#!/bin/sh\n", 0o755)
    write(f"{folder}/bin/rattle", PROVER, 0o755)
    write(f"{folder}/bin/rattle-link", LINKER, 0o755)


class Tree:
    """A library low and a program sts over it, with this repository's bin/."""

    def __init__(self, folder, kit):
        self.at, self.hooks = os.path.join(folder, "tree"), os.path.join(folder, "hooks")
        os.makedirs(self.hooks)
        self.environment = os.environ | {"HOOKS": self.hooks, "PATH": f"{kit}/bin:{os.environ['PATH']}", "XDG_CACHE_HOME": os.path.join(folder, "cache"), "LC_ALL": "C.UTF-8"}
        for name in ("low", "sts"):
            for part in ("src", "specs", "proofs"):
                os.makedirs(os.path.join(self.at, "crates", name, part))
        for name in ("prove", "weights.py", "kept.py", "program", "compile", "about", "places.sh"):
            with contextlib.suppress(FileNotFoundError):
                os.makedirs(os.path.join(self.at, "bin"), exist_ok=True)
                shutil.copy(f"{TOP}/bin/{name}", os.path.join(self.at, "bin", name))
        os.makedirs(os.path.join(self.at, ".git"))
        os.makedirs(os.path.join(self.at, "tests"))
        write(os.path.join(self.at, "crates.txt"), "low:\nsts: low\n")
        write(os.path.join(self.at, "tests/programs.txt"), "")
        self.low, self.sts = (os.path.join(self.at, it) for it in ("crates/low/src/lib.rt", "crates/sts/src/main.rt"))
        write(self.low, "one\n")
        write(self.sts, "main\n")
        self.proved = os.path.join(self.at, ".git/proved")
        self.made = os.path.join(self.at, "crates/sts/out")

    def hook(self, moment, text):
        write(os.path.join(self.hooks, moment), text)

    def edits(self, moment, path, text):
        """At this moment a file gets another text."""
        self.hook(moment, f"printf '%s\\n' {text} >\"$TREE_{'low' if path == self.low else 'sts'}\"\n")

    def prove(self):
        """Gives the status of bin/prove, and what the prover read, once for each crate and text."""
        with contextlib.suppress(FileNotFoundError):
            os.unlink(os.path.join(self.hooks, "read"))
        environment = self.environment | {"TREE_low": self.low, "TREE_sts": self.sts}
        ran = subprocess.run([os.path.join(self.at, "bin/prove"), "sts"], env=environment, cwd="/", stdin=subprocess.DEVNULL, stdout=subprocess.PIPE, stderr=subprocess.STDOUT, timeout=600, check=False)
        self.said = ran.stdout.decode(errors="replace")
        try:
            with open(os.path.join(self.hooks, "read"), encoding="utf-8") as it:
                read = it.read().splitlines()
        except FileNotFoundError:
            read = []
        return ran.returncode, list(dict.fromkeys(read))

    def is_taken(self):
        """Whether bin/sts would take the program for proved."""
        return subprocess.run([os.path.join(self.at, "bin/program"), "--proved", "sts"], env=self.environment, cwd="/", stdout=subprocess.DEVNULL, stderr=subprocess.DEVNULL, check=False).returncode == 0


class Tries:
    def __init__(self, kit):
        self.kit, self.wrong = kit, Wrong()

    @contextlib.contextmanager
    def tree(self, inner="t"):
        with tempfile.TemporaryDirectory(ignore_cleanup_errors=True) as folder:
            yield Tree(os.path.join(folder, inner), self.kit)

    def proved_once(self, tree):
        self.wrong.judge("bin/prove, the first time", tree.prove(), (0, ["low one", "sts main"]))
        self.wrong.judge("whether the program is taken then", tree.is_taken(), True)

    def holds_nothing(self, what, tree, ended, due):
        """A run in which a source was edited, and the run after it, where the prover reads the edit and refuses it."""
        self.wrong.judge(f"{what}: the run's status", ended[0], 1)
        self.wrong.judge(f"{what}: whether the program is taken", tree.is_taken(), False)
        status, read = tree.prove()
        self.wrong.judge(f"{what}: the next run", (status, read[-1:]), (1, [due]))
        self.wrong.judge(f"{what}: whether the program is taken after it", tree.is_taken(), False)

    def windows(self):
        for before in (False, True):
            for window, crate, moment in (
                ("before the prover reads", "low", "before-low"), ("while it proves", "low", "while-low"), ("as it ends", "low", "after-low"), ("after it", "low", "before-sts"),
                ("before the prover reads", "sts", "before-sts"), ("while it proves", "sts", "while-sts"), ("as it ends", "sts", "after-sts"),
            ):
                what = f"{crate} edited {window}{', and another text proved before' if before else ''}"
                with self.tree() as tree:
                    path = tree.low if crate == "low" else tree.sts
                    if before:
                        self.proved_once(tree)
                        write(path, "another\n")
                        # (where the library is edited while the program is proved, the program is proved anew)
                        if crate == "low":
                            write(tree.sts, "changed\n")
                    tree.edits(moment, path, "false")
                    self.holds_nothing(what, tree, tree.prove(), f"{crate} false")

    def noted(self):
        """After the program's prover and before its note: the edit comes with the call that notes."""
        with self.tree() as tree:
            program = os.path.join(tree.at, "bin/program")
            os.rename(program, f"{program}.real")
            write(program, '#!/bin/sh\n[ "$1" != --note ] || echo false >"$TREE_sts"\n. "$(dirname "$0")/program.real"\n', 0o755)
            ended = tree.prove()
            os.rename(f"{program}.real", program)
            self.holds_nothing("sts edited before it is noted", tree, ended, "sts false")

    def there_and_back(self):
        for before in (False, True):
            with self.tree() as tree:
                if before:
                    self.proved_once(tree)
                    write(tree.low, "two\n")
                first = "two" if before else "one"
                tree.edits("before-low", tree.low, "other")
                tree.edits("while-low", tree.low, first)
                self.wrong.judge("an edit that is gone when the prover ends: the run's status", tree.prove()[0], 1)
                self.wrong.judge("an edit that is gone when the prover ends: whether the program is taken", tree.is_taken(), False)
                self.wrong.judge("an edit that is gone when the prover ends: what is proved next", tree.prove(), (0, [f"low {first}", "sts main"]))

    def killed(self):
        with self.tree() as tree:
            self.proved_once(tree)
            write(tree.low, "two\n")
            tree.hook("while-low", 'rm -rf "$to"; mkdir "$to"; echo part >"$to/lib"; kill -KILL $PPID; sleep 5\n')
            self.wrong.judge("a killed run, its status", tree.prove()[0], -9)
            self.wrong.judge("a killed run, whether a note stays", os.path.exists(f"{tree.proved}/low.sum"), False)
            write(tree.low, "one\n")
            self.wrong.judge("after a killed run, with the first text", tree.prove()[0:2], (0, ["low one"]))
            self.wrong.judge("after a killed run, the library", read(f"{tree.proved}/low.rlib/lib"), "one\n")

    def changed(self):
        """A library or a note that isn't as it was written, or that others could write to."""
        for what, change in (
            ("a byte of the library changed", lambda tree: write(f"{tree.proved}/low.rlib/lib", "onf\n")),
            ("a file more in the library", lambda tree: write(f"{tree.proved}/low.rlib/more", "")),
            ("a library that others could write to", lambda tree: os.chmod(f"{tree.proved}/low.rlib/lib", 0o666)),
            ("a library's folder that others could write to", lambda tree: os.chmod(f"{tree.proved}/low.rlib", 0o777)),
            ("a note that others could write to", lambda tree: os.chmod(f"{tree.proved}/low.sum", 0o666)),
            ("a link in the note's place", lambda tree: linked(f"{tree.proved}/low.sum")),
            ("a link in the library's place", lambda tree: linked(f"{tree.proved}/low.rlib/lib")),
        ):
            with self.tree() as tree:
                self.proved_once(tree)
                change(tree)
                status, read_ = tree.prove()
                self.wrong.judge(what, (status, read_[:1]), (0, ["low one"]))
                self.wrong.judge(f"{what}, and then", tree.prove(), (0, []))

    def unsafe_folders(self):
        with self.tree() as tree:
            self.proved_once(tree)
            write(tree.low, "planted\n")
            self.wrong.judge("another text, proved", tree.prove()[0], 0)
            before = sorted(os.listdir(tree.proved))
            os.chmod(tree.proved, 0o777)
            self.wrong.judge("proofs in a folder that others could write to", tree.prove(), (0, ["low planted", "sts main"]))
            self.wrong.judge("what is done with that folder", (stat.S_IMODE(os.stat(tree.proved).st_mode), sorted(os.listdir(tree.proved))), (0o777, before))
        with self.tree() as tree:
            os.makedirs(tree.made)
            os.chmod(tree.made, 0o777)
            self.wrong.judge("an empty folder that others could write to, for the program", (tree.prove()[0], stat.S_IMODE(os.stat(tree.made).st_mode) & 0o22, tree.is_taken()), (0, 0, True))
        with self.tree() as tree:
            os.makedirs(tree.made)
            write(f"{tree.made}/sts", "#!/bin/sh\necho planted\n", 0o777)
            os.chmod(tree.made, 0o777)
            self.wrong.judge("a folder with a program that others could write to", (tree.prove(), stat.S_IMODE(os.stat(tree.made).st_mode), tree.is_taken()), ((125, []), 0o777, False))
            sum_ = subprocess.run([os.path.join(tree.at, "bin/program"), "--sum"], stdout=subprocess.PIPE, text=True, check=True).stdout.strip()
            noted = subprocess.run([os.path.join(tree.at, "bin/program"), "--note", sum_, "sts"], stderr=subprocess.PIPE, check=False)
            self.wrong.judge("a note of a program in such a folder", (noted.returncode, os.path.exists(f"{tree.made}/sts.sources"), bool(noted.stderr), tree.is_taken()), (1, False, True, False))

    def another_user(self):
        if os.getuid():
            print("prove: not root, so a call by root in another user's checkout isn't tried")
            return
        with self.tree() as tree:
            for at, folders, files in os.walk(tree.at):
                for it in (*folders, *files, "."):
                    os.chown(os.path.join(at, it), NOBODY, NOBODY)
            self.wrong.judge("a call by root in another user's checkout", tree.prove(), (125, []))
            left = [it for at, folders, files in os.walk(tree.at) for it in (*folders, *files) if os.lstat(os.path.join(at, it)).st_uid != NOBODY]
            self.wrong.judge("what it leaves", left, [])

    def odd_paths(self):
        for inner in ("a&b", "a#b", "a\\b", "a\nb", "a b'c\"d", "a=b", "a:b,c", "a\n"):
            with self.tree(inner) as tree:
                self.wrong.judge(f"a checkout in {inner!r}", tree.prove(), (0, ["low one", "sts main"]))
                self.wrong.judge(f"a checkout in {inner!r}, once more", tree.prove(), (0, []))
                self.wrong.judge(f"a checkout in {inner!r}, whether the program is taken", tree.is_taken(), True)
        with self.tree(os.fsdecode(b"a\xffb")) as tree:
            self.wrong.judge("a checkout in a folder whose name is no UTF-8", (tree.prove(), "UTF-8" in tree.said, tree.is_taken()), ((125, []), True, False))


def read(path):
    with open(path, encoding="utf-8") as it:
        return it.read()


def linked(path):
    os.rename(path, f"{path}.moved")
    os.symlink(f"{path}.moved", path)


TRUE = """//! A number.
#![tactic(auto)]
ghost use Rattle.std.specs.Prelude.{◌≡◌};

/// Gives one.
pub fn one() -> u32
    ensures { result ≡ 1 }
{
    1
}
"""


def by_the_real_prover(tries):
    """The kit's own prover, with a contract that is made false while it proves."""
    rt = shutil.which("rt")
    if rt is None:
        print("prove: rt is missing, so only the stub proves")
        return
    kit = os.path.dirname(os.path.dirname(os.path.realpath(rt)))
    with tempfile.TemporaryDirectory() as folder:
        os.mkdir(f"{folder}/bin")
        for it in os.listdir(kit):
            if it != "bin":
                os.symlink(f"{kit}/{it}", f"{folder}/{it}")
        for it in os.listdir(f"{kit}/bin"):
            if it not in ("rattle", "rt"):
                os.symlink(f"{kit}/bin/{it}", f"{folder}/bin/{it}")
        # (the kit's folder is where rt is, with no link followed further)
        write(f"{folder}/bin/rt", "#!/bin/sh\n", 0o755)
        write(f"{folder}/bin/rattle", f'#!/bin/sh\n"{kit}/bin/rattle" "$@" || exit\nsed \'s/≡ 1 /≡ 2 /\' src/lib.rt >"$HOOKS/edited" && cat "$HOOKS/edited" >src/lib.rt\n', 0o755)
        with Tries(folder).tree() as tree:
            write(tree.low, TRUE)
            tries.wrong.judge("the kit's prover: a contract made false while it proves", (tree.prove()[0], "≡ 2 " in read(tree.low)), (1, True))
            tries.wrong.judge("the kit's prover: the run after it", (tree.prove()[0], "returns" in tree.said), (1, True))


def main():
    with tempfile.TemporaryDirectory() as kit:
        stub_kit(kit)
        tries = Tries(kit)
        for it in (tries.windows, tries.noted, tries.there_and_back, tries.killed, tries.changed, tries.unsafe_folders, tries.another_user, tries.odd_paths):
            it()
        by_the_real_prover(tries)
    print(f"prove: {tries.wrong.judged} answers, {tries.wrong.count} wrong")
    sys.exit(1 if tries.wrong.count else 0)


main()
