"""What bin/judge finds in a folder: programs with their scripts, class files, arrivals, the transcripts that are wanted, and files that are left out."""
from __future__ import annotations

import dataclasses
import json
import os
from typing import Iterable

LEFT_OUT = {"tsconfig.json"}
KINDS = {"class": "a class file, which `sts class` runs", "arrivals": "arrivals, which `sts run-at` takes"}


@dataclasses.dataclass(frozen=True)
class Case:
    """A run that is to be judged: a program's text, or a class file, on a script and with arrivals, where there are some, and the file with what is wanted. What it lacks is said where it can't be run."""

    number: int
    text: str
    script: str | None
    wanted: str | None
    lacks: str = ""
    arrivals: str | None = None
    is_class: bool = False

    def name(self) -> str:
        if self.is_class or self.arrivals or self.script:
            return os.path.basename(self.arrivals or self.script or self.text)
        return os.path.basename(self.wanted or self.text) + ", without a script"

    def words(self) -> list[str]:
        """Gives the words of sts that run it."""
        if self.is_class:
            return ["class", self.text]
        return ["run-at" if self.arrivals else "run", *(it for it in (self.text, self.script, self.arrivals) if it)]


def is_listed(name: str) -> bool:
    return not name.startswith(".") and not name.endswith(".d.ts") and name not in LEFT_OUT


def is_utf8(name: str) -> bool:
    return name == name.encode("utf-8", "ignore").decode()


def sound(case: Case) -> Case:
    """Gives a case, which lacks a name that sts takes where one isn't UTF-8."""
    if all(is_utf8(it) for it in (case.text, case.script or "", case.arrivals or "")):
        return case
    return dataclasses.replace(case, lacks="sts takes no name that isn't UTF-8")


def owner_of(stem: str, names: Iterable[str]) -> str | None:
    """Gives the program to which a script or a transcript belongs: the longest name with which its own begins."""
    return next((stem[:size] for size in range(len(stem), 0, -1) if stem[:size] in names), None)


# JSON files that are no scripts.


def read_json(path: str) -> object:
    """Gives what a file tells as JSON, or nothing where it is none."""
    try:
        if not os.path.isfile(path) or os.path.getsize(path) > 1_048_576:
            return None
        with open(path, encoding="utf-8") as file:
            return json.load(file)
    except (OSError, ValueError, RecursionError):
        return None


def kind_of(path: str) -> str | None:
    """Says whether a JSON file is a class file or arrivals, as far as it is known."""
    told = read_json(path)
    if isinstance(told, dict):
        return "class" if "boards" in told else "arrivals" if "arrivals" in told else None
    return None


def boards_of(path: str) -> list[dict[str, str]]:
    """Gives the files of each board of a class file, as far as it names them."""
    told = read_json(path)
    listed = told.get("boards") if isinstance(told, dict) else None
    return [{part: it[part] for part in ("program", "script") if isinstance(it, dict) and isinstance(it.get(part), str)} for it in listed] if isinstance(listed, list) else []


# Folders.


class Folder:
    """The files of a folder: its programs' names, the stems of the scripts and transcripts of each, its class files and arrivals, and what is left out, each with what it is. Where some are named, it has these alone."""

    def __init__(self, folder: str, named: set[str] | None):
        self.folder, self.named = folder, named
        self.files = {it for it in os.listdir(folder) if is_listed(it) and not os.path.isdir(os.path.join(folder, it))}
        self.stems: dict[str, set[str]] = {it[:-3]: set() for it in self.files if it.endswith(".ts")}
        self.kinds = {it[:-5]: kind for it in self.files if it.endswith(".json") and (kind := kind_of(os.path.join(folder, it)))}
        self.wanted = {it: self.wanted_of(it) for it in self.kinds}
        self.arrivals: dict[str, list[str]] = {}
        self.left_out: list[tuple[str, str]] = []
        for stem in sorted(it for it, kind in self.kinds.items() if kind == "arrivals"):
            self.place_arrivals(stem)
        self.taken = {it for it in self.wanted.values() if it} | self.members()
        for file in sorted(self.files):
            self.place(file)
        if named is not None:
            owners = {it.removesuffix(".ts") for it in named}
            self.stems = {it: stems for it, stems in self.stems.items() if it in owners}
            self.left_out = [it for it in self.left_out if owner_of(os.path.splitext(it[0])[0], owners)]

    def path(self, file: str) -> str:
        return os.path.join(self.folder, file)

    def wanted_of(self, stem: str) -> str | None:
        """Gives the transcript that is wanted of a class file or of arrivals: of its name, or of what is before `.class` or `.arrivals` in it, where that isn't a script's of its own."""
        kind = self.kinds[stem]
        base = stem.removesuffix(f".{kind}")
        if f"{stem}.txt" in self.files:
            return f"{stem}.txt"
        is_scripts = kind == "class" and f"{base}.json" in self.files
        return f"{base}.txt" if base != stem and f"{base}.txt" in self.files and not is_scripts else None

    def place_arrivals(self, stem: str) -> None:
        """Says to which program arrivals belong, or that they belong to none."""
        owner = owner_of(stem, self.stems)
        if owner is None:
            self.left_out.append((f"{stem}.json", f"{KINDS['arrivals']}, and no program has the name with which they begin"))
        elif self.wanted[stem]:
            self.arrivals.setdefault(owner, []).append(stem)
        else:
            self.left_out.append((f"{stem}.json", f"{KINDS['arrivals']}, and no {stem}.txt says what is wanted"))

    def script_of(self, stem: str, owner: str) -> str | None:
        """Gives the script beside arrivals: of their name without `.arrivals`, or of their program's name."""
        return next((f"{it}.json" for it in (stem.removesuffix(".arrivals"), owner) if f"{it}.json" in self.files and it not in self.kinds), None)

    def classes(self) -> list[str]:
        """Gives the class files that are judged, without `.json`."""
        return sorted(it for it, kind in self.kinds.items() if kind == "class" and self.wanted[it] and (self.named is None or f"{it}.json" in self.named))

    def members(self) -> set[str]:
        """Gives the files of this folder that are run with a class file or with arrivals, and so by themselves only where a transcript of theirs is wanted."""
        found = {script for owner, stems in self.arrivals.items() for it in stems if (script := self.script_of(it, owner))}
        for stem in self.classes():
            for name in (it for board in boards_of(self.path(f"{stem}.json")) for it in board.values()):
                if os.path.realpath(os.path.dirname(name) or ".") == os.path.realpath(self.folder):
                    found.add(os.path.basename(name))
        return found

    def place(self, file: str) -> None:
        """Says to which program a file belongs, or what it is where it belongs to none."""
        stem, end = os.path.splitext(file)
        owner = owner_of(stem, self.stems)
        if end == ".ts" or end == ".json" and self.kinds.get(stem) == "arrivals":
            return
        if end == ".json" and stem in self.kinds:
            if not self.wanted[stem]:
                self.left_out.append((file, f"{KINDS['class']}, and no {stem}.txt says what is wanted"))
        elif file in self.taken and (end == ".txt" or f"{stem}.txt" not in self.files - self.taken):
            return
        elif end not in (".json", ".txt"):
            self.left_out.append((file, "no program: its name doesn't end with .ts"))
        elif owner is None:
            self.left_out.append((file, "no program has the name with which it begins"))
        else:
            self.stems[owner].add(stem)

    def cases(self, name: str, first: int) -> list[Case]:
        """Gives the cases of a program, numbered from first on; none where it is run as a member of a class alone."""
        cases, text = [], self.path(f"{name}.ts")
        stems = self.stems[name] or ({name} if name not in self.arrivals and f"{name}.ts" not in self.taken else set())
        for number, stem in enumerate(sorted(stems), first):
            script, wanted = (self.path(stem + end) if stem + end in self.files - (self.taken if end == ".txt" else set()) else None for end in (".json", ".txt"))
            lacks = "" if script or stem == name else f"there is no script {stem}.json"
            cases.append(sound(Case(number, text, script, wanted, lacks)))
        for number, stem in enumerate(self.arrivals.get(name, ()), first + len(cases)):
            script = self.script_of(stem, name)
            lacks = "" if script else f"there is no script {stem.removesuffix('.arrivals')}.json, which goes with arrivals"
            cases.append(sound(Case(number, text, script and self.path(script), self.path(self.wanted[stem] or ""), lacks, self.path(f"{stem}.json"))))
        return cases

    def judged(self, first: int) -> list[tuple[str, list[Case]]]:
        """Gives what is judged, by names: each program and each class file, with its cases, numbered from first on."""
        found = []
        classes = {f"{it}.json": it for it in self.classes()}
        for file in sorted([*classes, *(f"{it}.ts" for it in self.stems)]):
            stem = classes.get(file)
            if stem is None:
                cases = self.cases(file[:-3], first)
            else:
                cases = [sound(Case(first, self.path(file), None, self.path(self.wanted[stem] or ""), is_class=True))]
            if cases:
                found.append((self.path(file), cases))
            first += len(cases)
        return found
