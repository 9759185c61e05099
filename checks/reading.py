"""docs/READING.md is true of the tree: the definitions that the clauses of sts_main cite, and what
these cite in turn, stand in the files of its lists, and in no others, in so many lines as the lists say, give or take
a tenth and two lines; so do the types of code that they cite. The parts of its way of two hours have at most 2,500
lines. Lines are those of the definitions with their comments, without imports, empty lines and lines that name what a
module takes.

    checks/reading.sh                looks whether the document is true
    checks/reading.sh FILE..         names what is to be read of these files of definitions, in their order
    checks/reading.sh --lines        the files as they are, with the lines to be read
"""
import re
import sys

from definitions import Definitions, lines_of, named
from repository import below_top, read

CLAUSE, DOCUMENT = "crates/run_tool/src/commands.rt", "docs/READING.md"
SHORT, MOST = "within two hours", 2500

clause, specs = "\n".join(lines_of(CLAUSE)), Definitions()
contract = re.search(r"pub fn sts_main.*?-> u8\n(.*?)\n\{", clause, re.S).group(1)
way = specs.reached(specs.cited(contract.split("\n"), *named(clause.split("\n"))))

files, types = {}, {}
for it in way:
    crate, module, name = it
    if module == "declared":
        for path in below_top(f"crates/{crate}/src/**/*.rt"):
            # (of constants only texts: the others are numbers)
            if re.search(rf"^pub (?:(?:enum|struct|type) {name}\b|const {name}: &)", "\n".join(lines_of(path)), re.M):
                types.setdefault(path, set()).add(name)
    else:
        files.setdefault(f"crates/{crate}/specs/{module.replace('.', '/')}.antt", []).append(it)
lengths = {path: sum(len(specs.blocks[it]) for it in keys) for path, keys in files.items()}

if "--lines" in sys.argv[1:]:
    for path in sorted(lengths):
        print(f"{lengths[path]:5} {path}")
    print(f"{sum(lengths.values()):5} lines of {len(way)} definitions and types")
    for path in sorted(types):
        print(f"      {path}: {', '.join(sorted(types[path]))}")
    sys.exit(0)
if sys.argv[1:]:
    for path in sys.argv[1:]:
        for it in sorted(files.get(path, []), key=specs.starts.get):
            print(f"{path}:{specs.starts[it] + 1}: {it[2]}, {len(specs.blocks[it])} lines")
    sys.exit(0)

document = read(DOCUMENT)
wrong, sums, told = [], {}, set()


def compare(what, number, wanted):
    if abs(number - wanted) > max(2, wanted / 10):
        wrong.append(f"{what}: {number} lines are told, it is {wanted}")


part = None
# (an entry goes on in lines that are moved in by two)
for line in re.sub(r"\n  (?=\S)", " ", document).split("\n"):
    if line.startswith("#"):
        part = line.lstrip("# ")
    elif found := re.match(r"- `(crates/\w+/specs/\w+\.antt)`, (\d+) lines: (.*)", line):
        path, number = found.group(1), int(found.group(2))
        told.add(path)
        if path not in lengths:
            wrong.append(f"{path}: the way doesn't lead there")
            continue
        sums[part] = sums.get(part, 0) + lengths[path]
        compare(path, number, lengths[path])
        # (names that the entry tells stand among those to be read)
        for name in re.findall(r"`([A-Za-z_]\w*)`", found.group(3)):
            if not any(name in (it[2], *it[2].split("◌")) for it in files[path]) and not any(at[:2] == files[path][0][:2] and at[2] == name for at in specs.cases):
                wrong.append(f"{path}: `{name}` isn't among what is to be read there")
    elif found := re.match(r"\| `(crates/\w+/src/[\w/]+\.rt)` \| ((?:`\w+`(?:, )?)+) \|", line):
        told.add(found.group(1))
        if set(re.findall(r"`(\w+)`", found.group(2))) != types.get(found.group(1)):
            wrong.append(f"{found.group(1)}: the types are {', '.join(sorted(types.get(found.group(1), ['none'])))}")
wrong += [f"{path}: {lengths.get(path, 'its types')} to be read aren't in the document" for path in sorted({*files, *types} - told)]
part_sum = 0
for name, number in re.findall(r"^\| ([^|`]+?) \| ([\d,]+) \|", document, re.M):
    part_sum += sums.get(name, 0)
    wanted = {"all": sum(lengths.values()), SHORT: part_sum}.get(name, sums.get(name))
    if wanted is None:
        wrong.append(f"{DOCUMENT}: there is no part {name}")
    else:
        compare(name, int(number.replace(",", "")), wanted)
    if name == SHORT and wanted > MOST:
        wrong.append(f"{name}: {wanted} lines, and no more than {MOST} are to be read")
for it in wrong:
    print(f"reading: {it}")
print(f"reading: {len(files)} files with {sum(lengths.values())} lines of definitions, {len(types)} files of types, {len(wrong)} wrong")
sys.exit(1 if wrong or len(files) < 50 else 0)
