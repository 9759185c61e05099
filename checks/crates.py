"""docs/CRATES.md is made of crates.txt and of the lines below "## In the table" in each crate's README: which crates
there are, on which each stands, how long the longest chain of crates up to it is (at most eight), what it is, and what
is proved of it.

    checks/crates.sh            compares
    checks/crates.sh --write    writes docs/CRATES.md anew
"""
import functools
import re
import sys

from repository import TOP, crates, read

HEAD = """# The crates

Each crate of the repository, in the order of `crates.txt`. This page is made of `crates.txt` and of the last lines of
each crate's README by `checks/crates.sh --write`; the READMEs have more.

A crate is one layer. Its `specs/` hold the definitions that contracts cite, to be read first; its `src/` the code, each
public function with its contract; its `proofs/` the rest. What a contract doesn't say isn't claimed. A definition that
several crates cite stands in the lowest of them. What is meant to be cited is in `specs/`, on a public function, or in
`proofs/Laws.antt`; nothing above names a crate's other words. The number is the length of the longest chain of crates
up to there; no chain is longer than eight. Of the crates below that a crate stands on, those are named that no other of
them stands on.

## What they are

| | Crate | Stands on | What it is | Read first | What it must not know |
|---|---|---|---|---|---|
"""
PROVED = """
## What is proved of them

| Crate | Proved, by which contract | Only tested | Neither |
|---|---|---|---|
"""
WANTED = ["What it is", "Read first", "What it must not know", "Proved", "Only tested", "Neither"]
wrong = []
used, _ = crates()


@functools.cache
def below(crate):
    """Returns the crates of the repository that this one stands on, at any depth."""
    return frozenset(it for direct in used[crate] for it in (direct, *below(direct)))


def depth(crate):
    return 1 + max((depth(it) for it in used[crate]), default=0)


def row(crate):
    """Returns what the crate's README says of it for the tables, by the names of WANTED."""
    text = read(f"crates/{crate}/README.md")
    entries = re.findall(r"^- ([^:\n]+):((?:.*\n?)(?:  .*\n?)*)", text.partition("\n## In the table\n")[2], re.M)
    said = {name: " ".join(words.split()) for name, words in entries}
    wrong.extend(f"crates/{crate}/README.md: '{it}' isn't told below 'In the table'" for it in WANTED[:1] if not said.get(it))
    wrong.extend(f"crates/{crate}/README.md: '{it}' below 'In the table' is no column" for it in said if it not in WANTED)
    return [said.get(it, "").replace("|", "\\|") for it in WANTED]


rows = {it: row(it) for it in used}
wrong += [f"crates.txt: a chain of {depth(it)} crates ends at {it}" for it in used if depth(it) > 8]
page = HEAD
for crate in used:
    direct = [it for it in used[crate] if not any(it in below(other) for other in used[crate])]
    page += f"| {depth(crate)} | `{crate}` | {', '.join(f'`{it}`' for it in direct) or 'none'} | {' | '.join(rows[crate][:3])} |\n"
page += PROVED + "".join(f"| `{crate}` | {' | '.join(rows[crate][3:])} |\n" for crate in used)
page = re.sub(r"(?<=\|) +(?=\|)", " ", page)
if sys.argv[1:] == ["--write"]:
    with open(f"{TOP}/docs/CRATES.md", "w", encoding="utf-8") as file:
        file.write(page)
elif read("docs/CRATES.md") != page:
    wrong.append("docs/CRATES.md isn't what crates.txt and the READMEs give: checks/crates.sh --write")
for it in wrong:
    print(it)
print(f"crates: {len(used)} crates, {len(wrong)} wrong")
sys.exit(1 if wrong else 0)
