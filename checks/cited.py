"""What stands in specs/ is there to be believed: each definition is cited by code, that is by a contract, a law, an
invariant or a type, or by another definition that is. What proofs alone cite stands in proofs/. Forms that the kit
finds by their names (specs/formers/, `.._code` of how a value is stored) and operators are left out.

    checks/cited.sh           tells the definitions that nothing cites
    checks/cited.sh --own     tells those that only contracts of private functions cite, and that don't stand in specs/inner/
"""
import re
import sys

from definitions import Definitions, lines_of, named
from repository import below_top

FUNCTION = re.compile(r"^( *)((?:pub )?)(?:const )?fn \w+", re.M)


def of_public(text):
    """The contracts of public functions, of those of traits and of what implements these, and all that stands outside functions."""
    kept, at = [], 0
    for it in FUNCTION.finditer(text):
        if it.start() < at:
            continue
        kept.append(text[at : it.start()])
        body = re.compile(rf"^{it[1]}}}", re.M).search(text, it.end())
        at = body.end() if body else len(text)
        if it[2] or it[1]:
            kept.append(text[it.start() : at])
    return "".join(kept + [text[at:]])


specs, cited, public = Definitions(), set(), set()
for path in below_top("crates/*/src/**/*.rt"):
    lines = lines_of(path)
    names = named(lines)
    text = re.sub(r"//[^\n]*", "", "\n".join(it for it in lines if not re.match(r"\s*(?:pub |ghost )*use ", it)))
    cited |= specs.cited(text.split("\n"), *names)
    public |= specs.cited(of_public(text).split("\n"), *names)
known = [it for it in specs.blocks if not it[1].startswith("formers.") and not it[2].endswith("_code") and "◌" not in it[2]]
way = specs.reached(public if "--own" in sys.argv[1:] else cited)
found = [it for it in known if it not in way and not ("--own" in sys.argv[1:] and it[1].startswith("inner."))]
for crate, module, name in found:
    print(f"cited: crates/{crate}/specs/{module.replace('.', '/')}.antt: {name}, {len(specs.blocks[crate, module, name])} lines")
print(f"cited: {len(known)} definitions, {len(found)} that {'only private functions cite' if '--own' in sys.argv[1:] else 'no code cites'}, {sum(len(specs.blocks[it]) for it in found)} lines")
sys.exit(1 if len(known) < 1000 or found and "--own" not in sys.argv[1:] else 0)
