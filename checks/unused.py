"""Each public item of code (function, struct, enum, trait, constant, type) is used by code that isn't rows, or is a law
(a function that takes nothing and gives nothing), or is in checks/unused.txt with the reason. An item is used where
its own file has its name in code besides its definition; where another file has its name in code and brings in the
item of that name from the item's crate, or from its module; and where code has `MODULE::NAME` or `CRATE::NAME`. What
is in an `impl` or a trait is used where code of its crate, or of one above, has `.NAME` or `::NAME`: of two methods of
one name neither may be told. To pass an item on (`pub use`) is no use of it.

    checks/unused.sh           looks whether each is used
    checks/unused.sh --list    each that isn't, with the reason that checks/unused.txt has
"""
import re
import sys

from repository import code, crates, read

ITEM = re.compile(r"^( *)pub (?:const fn|fn|struct|enum|trait|const|type) (\w+)", re.M)
LAW = re.compile(r"\s*pub fn \w+(<[^(]*>)?\(\)\s*(ensures|requires|where)")
USE = re.compile(r"^[ \t]*(pub(?:\(\w+\))? |ghost )?use ([^;]*);", re.M)
CLAUSE = re.compile(r"^\s*(?:ensures|requires|ghost)\b")


def without_clauses(text):
    """Gives the text without comments, clauses and ghost members, each of which ends with its braces."""
    kept, braces = [], 0
    for line in re.sub(r"//[^\n]*", "", text).split("\n"):
        clause = braces > 0 or CLAUSE.match(line) and not re.match(r"\s*ghost use ", line)
        braces += line.count("{") - line.count("}") if clause else 0
        kept.append("" if clause else line)
    return "\n".join(kept)


def leaves(tree, before=()):
    """Gives the paths that a `use` names, as (segments.., name, name here)."""
    tree = tree.strip()
    if head := re.match(r"((?:\w+::)*)\{(.*)\}$", tree, re.S):
        before = (*before, *head[1].split("::")[:-1])
        depth, part = 0, ""
        for it in head[2] + ",":
            depth += (it == "{") - (it == "}")
            if it == "," and depth == 0:
                if part.strip():
                    yield from leaves(part, before)
                part = ""
            else:
                part += it
        return
    path, _, here = tree.partition(" as ")
    *segments, name = path.split("::")
    segments = (*before, *segments)
    if name == "self" and segments:
        *segments, name = segments
    yield (*segments, name, here.strip() or name)


class File:
    """A file of code: its crate, its text without clauses and `use`, what it brings in as (crate, name), and how often it has each word."""

    def __init__(self, path, text, own):
        self.crate = path.split("/")[1]
        plain = without_clauses(text)
        self.text = USE.sub("", plain)
        self.words = {}
        for it in re.findall(r"\w+", self.text):
            self.words[it] = self.words.get(it, 0) + 1
        self.brings = {}
        for found in USE.finditer(plain):
            if not found[1]:
                for *segments, name, here in leaves(found[2]):
                    first = segments[0] if segments else ""
                    crate = first if first in own else self.crate
                    if first not in ("std", "core"):
                        self.brings.setdefault((crate, name), set()).add(here)

    def uses(self, crate, name):
        """Whether code here has the item of that crate and name, that it brings in, or by its path."""
        if any(self.words.get(it, 0) for it in self.brings.get((crate, name), ())):
            return True
        if name not in self.words:
            return False
        for before in set(re.findall(rf"\b(\w+)::{name}\b", self.text)):
            # (a path of two crates, or one that begins with a module that is brought in or is below)
            if before == crate or before == "crate" and crate == self.crate or (crate, before) in self.brings or self.crate == crate and before[:1].islower() and before not in ("self", "super", "std"):
                return True
        return False


def above(name, own):
    """Gives a crate and all that are above it."""
    found = {name}
    for it, below in own.items():
        # (crates.txt lists each crate after those that it uses)
        if found & set(below):
            found.add(it)
    return found


def unused():
    """Gives the items that nothing uses, and how many there are."""
    own, _ = crates()
    texts = code()
    files = {path: File(path, text, own) for path, text in texts.items()}
    found, count = set(), 0
    for path, file in files.items():
        items = [(it[2], it[1], bool(LAW.match(texts[path][it.start() :]))) for it in ITEM.finditer(texts[path])]
        defined = {}
        for name, _, _ in items:
            defined[name] = defined.get(name, 0) + 1
        higher = above(file.crate, own)
        for name, indent, is_law in items:
            if is_law:
                continue
            count += 1
            if file.words.get(name, 0) > defined[name]:
                continue
            others = [it for at, it in files.items() if at != path and it.crate in higher]
            if indent:
                is_used = any(re.search(rf"(?:\.|::){name}\b", it.text) for it in [*others, file] if name in it.words)
            else:
                is_used = any(it.uses(file.crate, name) for it in others)
            if not is_used:
                found.add(f"{file.crate}: {name}")
    return sorted(found), count


def main(words):
    allowed = {}
    for line in read("checks/unused.txt").split("\n"):
        item, _, reason = line.partition(" (")
        if item:
            allowed[item.strip()] = reason.rstrip(")")
    found, count = unused()
    if words == ["--list"]:
        for it in found:
            print(f"{it} ({allowed.get(it, '')})")
        return 0
    wrong = [f"{it}: used by no code but rows and tests" for it in found if it not in allowed] + [f"checks/unused.txt: {it} is used, or isn't there" for it in allowed if it not in found]
    wrong += [f"checks/unused.txt: {it}: no reason" for it, reason in allowed.items() if not reason]
    for it in wrong:
        print(it)
    print(f"unused: {count} public items, {len(found)} that nothing uses, {len(wrong)} wrong")
    return 1 if wrong or count < 1000 else 0


if __name__ == "__main__":
    sys.exit(main(sys.argv[1:]))
