"""Each definition that a document names by its file, as in (`IsPlace` in crates/sts_base/specs/Places.antt), stands
there, where a path that begins with specs/ belongs to the crate named before; each lemma of another crate is cited
from its proofs/Laws.antt; and each file that a link leads to is there.

    checks/documents.sh
"""
import os
import re
import sys

from repository import TOP, below_top, crates, read

wrong, names, links = [], 0, 0
for document in ["README.md", *below_top("docs/*.md"), *below_top("crates/*/README.md")]:
    text = read(document)
    for target in re.findall(r"\]\(([^)#:]+)(?:#[^)]*)?\)", text):
        links += 1
        if not os.path.exists(os.path.join(TOP, os.path.dirname(document), target)):
            wrong.append(f"{document}: there is no {target}")
    crate = "/".join(document.split("/")[:2]) if document.startswith("crates/") else None
    for part, path in re.findall(r"[(;]([^();]*?)\bin\s+((?:crates/\w+/)?specs/\w+\.antt)", text):
        if path.startswith("crates/"):
            crate = "/".join(path.split("/")[:2])
        elif crate:
            path = f"{crate}/{path}"
        else:
            wrong.append(f"{document}: the crate of {path} isn't named")
            continue
        if not os.path.exists(f"{TOP}/{path}"):
            wrong.append(f"{document}: there is no {path}")
            continue
        definitions = read(path)
        for name in re.findall(r"`([A-Za-z_-]\w*)`", part):
            names += 1
            if not re.search(rf"(?<![\w-]){re.escape(name)}(?![\w-])", definitions):
                wrong.append(f"{document}: `{name}` isn't in {path}")

used, _ = crates()
cited = 0
for file in [*below_top("crates/*/src/**/*.rt"), *below_top("crates/*/[ps]*/**/*.antt")]:
    for crate, module in re.findall(r"(?<![\w.:])(?:Rattle\.)?(\w+)(?:\.|::)proofs(?:\.|::)(\w+)", read(file)):
        if crate in used and crate != file.split("/")[1]:
            cited += 1
            if module != "Laws":
                wrong.append(f"{file}: cites {module} of {crate}, which isn't its Laws")
for it in wrong:
    print(f"documents: {it}")
print(f"documents: {names} names, {links} links, {cited} citations, {len(wrong)} wrong")
sys.exit(1 if wrong or not names or not links or not cited else 0)
