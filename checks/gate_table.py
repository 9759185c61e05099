"""The table of docs/GATE.md, and what stands above it of the gate that was measured last, as docs/gate.txt and crates.txt give them.

    checks/gate.sh            looks whether the document has them
    checks/gate.sh --write    writes them
"""
import os
import re
import sys

TOP = os.path.dirname(os.path.dirname(os.path.abspath(__file__)))
sys.path.append(f"{TOP}/bin")
import weights  # noqa: E402 (it stands in bin/)

DOCUMENT = f"{TOP}/docs/GATE.md"
HEAD = "| Crate | Code | Definitions | Proofs | Edits | Seconds | GB |\n|---|---|---|---|---|---|---|\n"
# What is made: from a line that begins so to the end of the table.
MADE = re.compile(r"^The last gate that was measured, .*?\n\n\| Crate \| Code .*?\n(?=\n)", re.M | re.S)


def longest_chain(own, known):
    """Gives the crates of the chain that takes longest, the lowest first, and its seconds."""
    found = {}

    def chain(name):
        if name not in found:
            best = max((chain(it) for it in own[name]), key=lambda it: it[1], default=([], 0))
            found[name] = [*best[0], name], best[1] + (known[name].seconds if name in known else 0)
        return found[name]

    return max(map(chain, own), key=lambda it: it[1])


def filled(words):
    """Gives the words in lines of at most 120 columns."""
    lines = [""]
    for word in words.split():
        if len(lines[-1]) + len(word) >= 120:
            lines.append("")
        lines[-1] += f" {word}" if lines[-1] else word
    return "\n".join(lines)


def made():
    own, _ = weights.crates()
    whole, known = weights.measured()
    chain, seconds = longest_chain(own, known)
    text = filled(
        f"The last gate that was measured, on {whole['day']}, took {whole['minutes']} minutes on {whole['processors']} processors, {int(whole['seconds']):,} seconds of a processor. "
        f"The longest chain is {', '.join(f'`{it}`' for it in chain)}: {seconds:,} seconds."
    )
    rows = ""
    for name in filter(known.get, own):
        it = known[name]
        cells = [f"`{name}`", *(str(n) if n else "" for n in it[2:]), str(it.seconds), f"{it.gb:.1f}"]
        rows += "|" + "|".join(f" {cell} " if cell else " " for cell in cells) + "|\n"
    return f"{text}\n\n{HEAD}{rows}"


def write():
    """Writes the part anew. Gives whether the document has a place for it."""
    with open(DOCUMENT, encoding="utf-8") as it:
        text = it.read()
    new, count = MADE.subn(lambda _: made(), text)
    if count == 1 and new != text:
        with open(DOCUMENT, "w", encoding="utf-8") as it:
            it.write(new)
    return count == 1


def main(words):
    if words == ["--write"]:
        return 0 if write() else 1
    with open(DOCUMENT, encoding="utf-8") as it:
        found = MADE.findall(it.read())
    right = found == [made()]
    if not right:
        print("gate: the table of docs/GATE.md isn't what docs/gate.txt gives: checks/gate.sh --write")
    print(f"gate: {len(weights.measured()[1])} crates, {0 if right else 1} wrong")
    return 0 if right and weights.measured()[1] else 1


if __name__ == "__main__":
    sys.exit(main(sys.argv[1:]))
