"""One name, one meaning: each public definition of specs/ (abbrev, record, data, unfoldable, also those that stand in a
module or are mutual) whose name two crates define stands in checks/names.txt with these crates, one name a line. So no
double name comes that nobody saw. A line of the list that isn't needed any more is told, and is no failure. Fields of
records and cases of data aren't looked at.

    checks/names.sh            looks for double names that aren't allowed
    checks/names.sh --list     the lines as checks/names.txt would have them
"""
import sys

from definitions import Definitions
from repository import read

crates = {}
for crate, _, name in Definitions().public:
    crates.setdefault(name, set()).add(crate)
double = {name: " ".join(sorted(of)) for name, of in crates.items() if len(of) > 1}
if "--list" in sys.argv[1:]:
    for name in sorted(double):
        print(f"{name}: {double[name]}")
    sys.exit(0)

allowed, wrong = {}, []
for line in read("checks/names.txt").split("\n"):
    name, colon, of = line.partition("#")[0].strip().partition(": ")
    if colon:
        allowed[name] = " ".join(sorted(of.split()))
for name in sorted(double):
    new = set(double[name].split()) - set(allowed.get(name, "").split())
    if new:
        wrong.append(f"{name} is defined in {double[name]}, and {f'not allowed in {chr(32).join(sorted(new))}' if name in allowed else 'no line of checks/names.txt has it'}")
for name in sorted(allowed):
    if set(allowed[name].split()) - set(double.get(name, "").split()):
        print(f"names: the line of {name} in checks/names.txt has crates that don't define it, or is no longer needed")
for it in wrong:
    print(f"names: {it}")
print(f"names: {len(crates)} public names, {len(double)} of them in two crates or more, {len(wrong)} not allowed")
sys.exit(1 if wrong or len(crates) < 1000 else 0)
