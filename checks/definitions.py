"""The definitions of crates/*/specs/, by the names that files give them: what each of them cites, and what code cites."""
import re

from repository import TOP, below_top

USE = re.compile(r"^\s*(?:ghost )?(?:pub )?use Rattle\.(\w+)\.specs\.([\w.]+?)(?:\.\{(.*)\}| as (\w+))?;?$")
HEAD = re.compile(r"^\s*(?:abbrev|unfoldable|pub)\b(?: (?:abbrev|unfoldable|pub|record|data))* ([^\s:({]+)|^\s*(?:record|data) ([^\s:({]+) .*: Type")
WORD = re.compile(r"[^\s(){}\[\],;:.⟦⟧]+(?:\.[^\s(){}\[\],;:.⟦⟧]+)*")


def lines_of(path):
    with open(f"{TOP}/{path}", encoding="utf-8") as text:
        return text.read().split("\n")


def named(lines):
    """The names that lines import, as (crate, module, name), and the modules that they import under another name."""
    names, modules = {}, {}
    for line in lines:
        if found := USE.match(line):
            crate, module, list_, alias = found.groups()
            for it in (list_ or "").split(", "):
                old, _, new = it.partition(" as ")
                names[new or old] = (crate, module, old)
            if alias:
                modules[alias] = (crate, module)
    names.pop("", None)
    return names, modules


def appears(name, text):
    """Whether an operator, whose name has a sign for each operand, appears in a text."""
    parts = [it for it in name.split("◌") if it]
    return bool(parts) and all(re.search(rf"(?<!\w){re.escape(it)}(?!\w)" if it[0].isalpha() else re.escape(it), text) for it in parts)


class Definitions:
    """Each definition is known as (crate, module, name); a module of specs/inner/ is `inner.NAME`."""

    def __init__(self):
        # of each definition: its lines, with the comment before it, and the number of the first of them; those that are public
        self.blocks, self.starts, self.public = {}, {}, []
        self.imports, self.cases = {}, {}
        for path in below_top("crates/*/specs/**/*.antt"):
            _, crate, _, *rest = path.split("/")
            at, lines = (crate, ".".join(rest)[: -len(".antt")]), lines_of(path)
            self.imports[at] = named(lines)
            self.divide(at, lines)

    def divide(self, at, lines):
        """Finds the definitions of a file: each goes from the comment before it to the next one."""
        begins, mutual, header = [], None, 0
        for number, line in enumerate(lines):
            depth = len(line) - len(line.lstrip())
            if not line.strip() or line.lstrip().startswith("--"):
                continue
            if re.match(r"(pub )?use ", line):
                header = number + 1
                continue
            if mutual is not None and depth <= mutual:
                mutual = None
            if re.match(r"^\s*(abbrev |unfoldable )?mutual$", line):
                mutual = depth
                continue
            within = mutual is not None and depth == mutual + 2
            found = HEAD.match(line)
            if found and (within or not re.match(r"^\s*pub (?!(?:record|data|abbrev|unfoldable)\b)", line)):
                first = number
                while first > header and lines[first - 1].lstrip().startswith("--"):
                    first -= 1
                begins.append((first, number, found.group(1) or found.group(2)))
        for order, (first, number, name) in enumerate(begins):
            end = begins[order + 1][0] if order + 1 < len(begins) else len(lines)
            kept = [it for it in lines[first:end] if it.strip() and not it.lstrip().startswith("module _")]
            self.blocks[*at, name], self.starts[*at, name] = kept, first
            if re.search(r"\bpub\b", lines[number].partition(name)[0]):
                self.public.append((*at, name))
            if re.match(r"^\s*(pub )?data ", lines[number]):
                for line in lines[number + 1 : end]:
                    if found := re.match(r"^\s+([^\s:-]\S*)\s+:", line):
                        self.cases[*at, found.group(1)] = (*at, name)

    def definition(self, crate, module, name):
        """The definition that a name stands for, through files that pass it on; or the type of code."""
        for _ in range(9):
            key = (crate, module, name)
            if key in self.blocks:
                return key
            if key in self.cases:
                return self.cases[key]
            if module.startswith("declared."):
                parts = module.split(".")[1:]
                if parts[-1] == "TheConstants":
                    return (crate, "declared", name)
                return (crate, "declared", parts[-1 if parts[-1] != "TheVariants" else -2])
            if (crate, module) not in self.imports or name not in self.imports[crate, module][0]:
                return None
            crate, module, name = self.imports[crate, module][0][name]
        return None

    def cited(self, lines, names, modules, here=None):
        """The definitions that lines cite, by the names that they import and those of the module where they stand."""
        text = "\n".join(it.partition("--")[0] for it in lines)
        found = {self.definition(*at) for name, at in names.items() if "◌" in name and appears(name, text)}
        for word in WORD.findall(text):
            first, *rest = word.split(".")
            if first in names:
                found.add(self.definition(*names[first]))
            elif first in modules and rest:
                found.add(self.definition(*modules[first], rest[0]))
            elif here:
                found.add(self.definition(*here, first))
        return found - {None}

    def reached(self, roots):
        """What definitions cite, and what these cite in turn."""
        waiting, way = set(roots), set()
        while waiting:
            it = waiting.pop()
            way.add(it)
            if it in self.blocks:
                waiting |= self.cited(self.blocks[it], *self.imports[it[:2]], it[:2]) - way
        return way
