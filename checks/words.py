"""Random lists of words, read by a program and by these rules.

    words.py ROWS SEED

A list is taken where its first word is a command and behind it stand, in any order, the command's names in their order and its options, each at most
once: `--budget M` as two words or `--budget=M` as one, `--stats`, and `--image`, which stands only where `--stats` stands too. A name isn't empty and
doesn't begin with a dash. A number is one to ten decimal digits.
"""
import random
import re
import subprocess
import sys
import tempfile

COUNT = 100_000
SECONDS = 60
PART = r"(?:[^-\t\n][^\t\n]*|--budget[\t=][0-9]{1,10}|--stats|--image)"
# the least and the greatest number of names, and the options
COMMANDS = {
    "check": (1, 1, set()),
    "build": (1, 1, set()),
    "run": (1, 2, {"budget", "stats", "image"}),
    "run-hex": (1, 2, {"budget"}),
    "run-at": (3, 3, {"budget"}),
    "class": (1, 1, {"budget"}),
    "big": (1, 1, {"budget", "stats"}),
}
WORDS = ["--budget", "--budget=", "--budget=7", "--budget=0", "--budget=2147483648", "--budget=2147483649", "--budget=99999999999", "--budget=+1",
         "--budget=007", "--budgets", "--stats", "--stats", "--stats", "--image", "--image", "--imag", "--help", "-h", "-V", "--", "-", "", "p.ts", "s.json",
         "0", "1", "200", "201", "0000000200", "00000000200", "2147483648", "12", "run", "big", "a b", "é", "x=y", "stats"]


def line_of(words):
    return "".join(f"\t{word}" for word in words)


def due(words):
    """Gives the line that the program is to write."""
    joined = line_of(words)
    command = words[0] if words else ""
    if command not in COMMANDS or not re.fullmatch(rf"\t{re.escape(command)}(?:\t{PART})*", joined):
        return "-"
    parts = re.findall(rf"\t({PART})", joined[len(command) + 1 :])
    names = [it for it in parts if not it.startswith("-")]
    budgets = [int(it[9:]) for it in parts if it.startswith("--budget")]
    stats, image = parts.count("--stats"), parts.count("--image")
    least, most, options = COMMANDS[command]
    used = {it for it, times in (("budget", len(budgets)), ("stats", stats), ("image", image)) if times}
    if not least <= len(names) <= most or not used <= options or max(len(budgets), stats, image) > 1 or image > stats:
        return "-"
    if any(not 1 <= it <= 2147483648 for it in budgets):
        return "-"
    budget = budgets[0] if budgets else 50000000
    flags = ["stats" if stats else "-", "image" if image else "-"]
    names.append("-")
    if command in ("check", "build"):
        return f"{command}\t{names[0]}"
    if command == "run":
        return "\t".join(["run", names[0], names[1], str(budget), *flags])
    if command == "run-hex":
        return "\t".join(["run-hex", names[0], names[1], str(budget)])
    if command == "run-at":
        return "\t".join(["run-at", *names[:3], str(budget)])
    if command == "class":
        return "\t".join(["class", names[0], str(budget)])
    if not re.fullmatch("[0-9]{1,10}", names[0]) or not 1 <= int(names[0]) <= 200:
        return "-"
    return "\t".join(["big", str(int(names[0])), str(budget), flags[0]])


def random_list(chance):
    """Gives a list that is nearly of the right form: a command, a name or more, and a few other words, in any order."""
    if chance.random() < 0.02:
        return [chance.choice(WORDS) for _ in range(chance.randrange(4))]
    command = chance.choice([*COMMANDS, "run", "run", "Run", "runs"])
    words = [chance.choice(["1", "7", "200"] if command == "big" else ["p.ts", "h.hex", "é"])]
    if command == "run-at" and chance.random() < 0.8:
        words += ["s.json", "a.json"]
    for _ in range(chance.choice([0, 0, 1, 1, 1, 2, 2, 3])):
        word = chance.choice(WORDS)
        at = chance.randrange(len(words) + 1)
        words[at:at] = [word, chance.choice(["1", "12", "0"])] if word == "--budget" and chance.random() < 0.8 else [word]
    if chance.random() < 0.3:
        words.insert(chance.randrange(len(words) + 1), "--stats")
    return [command, *words]


def main():
    chance = random.Random(int(sys.argv[2]))
    lists = [random_list(chance) for _ in range(COUNT)]
    # (a file, since of a pipe the program reads a byte at a time)
    with tempfile.TemporaryFile() as rows:
        rows.write("".join(f"words{line_of(it)}\n" for it in lists).encode("utf-8"))
        rows.seek(0)
        ran = subprocess.run([sys.argv[1], "input_rows"], stdin=rows, stdout=subprocess.PIPE, timeout=SECONDS, check=True)
    lines = ran.stdout.decode("utf-8").split("\n")[:-1]
    dues = [due(it) for it in lists]
    wrong = [(words, line, right) for words, line, right in zip(lists, lines, dues) if line != right]
    for words, line, right in wrong[:10]:
        print(f"words: {words}: {line!r}, where {right!r} is due")
    taken = sum(it != "-" for it in dues)
    print(f"words: {len(lists)} lists, {taken} taken, {len(wrong)} wrong")
    sys.exit(1 if wrong or len(lines) != len(lists) or taken < COUNT // 10 else 0)


main()
