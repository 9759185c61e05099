"""How many files name a form, a call, an operator and so on: how far a change of one reaches. Files of code, definitions
and proofs of the crates are counted that have its names, so one that has an operator as a bare number isn't, and none
of pages, which are HTML.

    checks/touched.sh            the counts, and whether one is more than a tenth above that of docs/CONTRIBUTING.md
    checks/touched.sh --crates   each with the crates, and how many files of each
    checks/touched.sh --write    writes the counts to docs/CONTRIBUTING.md
"""
import collections
import re
import sys

from repository import TOP, below_top, read

PAGE = "docs/CONTRIBUTING.md"
# What is counted: how the page names it, and by which names it is found.
COUNTED = (
    ("a statement form, `DoWhile`", r"\bDoWhile\b"),
    ("a statement form, `ForOf`", r"\bForOf\b"),
    ("an expression form, `Choice`", r"\bChoice\b"),
    ("an operator, `%`", r"\b(?:REMAINDER|[Rr]emainder|Percent)\b"),
    ("a board call, `led.toggle`", r"\bToggle\b|\bled\.toggle\b|\"toggle\""),
    ("a board service, `TEXT_GLYPH`", r"\b(?:TEXT_GLYPH|TextGlyph|text_glyph)\b"),
    ("a library function, `Math.abs`", r"\$abs\b|\babsolute\b|\bMath\.abs\b"),
    ("an option, `--image`", r"--image\b|\b(?:the_image|with_image|stats image)\b|\bimage: bool\b"),
    ("a command, `run-at`", r"\brun-at\b|\b(?:RunAt|run_at)\b"),
    ("a panic code, 104", r"\b(?:INDEX_PANIC|index_panic)\b|\bpanic \d+ 104\b|\b(?:unless|Panic)\b.*\b104\b"),
    ("a limit, 24 activities", r"\b(?:SEAT_LIMIT|seat_limit)\b"),
)
ROW = re.compile(r"^\| (.*?) \| (\d+) \| (\d+) \|$", re.M)


def counts():
    """Gives, for each thing that is counted, how many files of each crate name it."""
    paths = [path for part, end in (("src", "rt"), ("specs", "antt"), ("proofs", "antt")) for path in below_top(f"crates/*/{part}/**/*.{end}")]
    texts = {path: read(path) for path in paths if not path.endswith("/src/page.rt")}
    return {name: collections.Counter(path.split("/")[1] for path, text in texts.items() if re.search(names, text)) for name, names in COUNTED}


def told(found):
    """Gives the rows of the page."""
    return "".join(f"| {name} | {sum(it.values())} | {len(it)} |\n" for name, it in found.items())


def main():
    found, page, wrong = counts(), read(PAGE), 0
    rows = list(ROW.finditer(page))
    listed = {it[1]: int(it[2]) for it in rows if it[1] in found}
    if "--write" in sys.argv[1:]:
        own = [it for it in rows if it[1] in found]
        if own:
            page = page[: own[0].start()] + told(found) + page[own[-1].end() + 1 :]
            with open(f"{TOP}/{PAGE}", "w", encoding="utf-8") as file:
                file.write(page)
        listed = {name: sum(it.values()) for name, it in found.items()}
    for name, it in found.items():
        files = sum(it.values())
        print(f"touched: {name}: {files} files of {len(it)} crates")
        if "--crates" in sys.argv[1:]:
            print("    " + ", ".join(f"{crate} {many}" for crate, many in sorted(it.items())))
        if not files or name not in listed or files > listed[name] * 1.1:
            wrong += 1
            print(f"touched: {name}: {PAGE} has {listed.get(name, 'no count')} (checks/touched.sh --write)")
    print(f"touched: {len(found)} things counted, {wrong} wrong")
    return 1 if wrong else 0


sys.exit(main())
