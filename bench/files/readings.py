"""Compares what `input_rows` says of random class files and arrivals with a reading of docs/FORMATS.md written anew, over Python's own JSON.

usage: bench/files/readings.py PROGRAM SEED COUNT      PROGRAM is `input_rows`, as bin/compile makes it

Half of the files are changed at a place or two: a byte, a cut, or a number that isn't as it should be. Each row that differs is printed; the last line has how many did, and how many files there were
of each answer.
"""
import collections
import json
import random
import subprocess
import sys
import tempfile

DEEPEST = 127
LATEST = 1 << 30
NUMBERS = "-0 -1 1.0 1e2 1e400 18446744073709551615 18446744073709551616 1073741824 1073741825 2147483648 2147483649 65536 01 true null [] \"1\"".split()


class Whole(int):
    """A whole number, as `as_u64` takes it: a type of its own, since Python's `True` is a number too."""


class NotJson(Exception):
    pass


class NotOfForm(Exception):
    pass


def whole_of(digits):
    number = int(digits)
    if digits != "-0" and 0 <= number < 1 << 64:
        return Whole(number)
    return float_of(digits)


def float_of(digits):
    number = float(digits)
    if abs(number) == float("inf"):
        raise NotJson
    return number


def no_constant(name):
    raise NotJson


def has_surrogate(tree):
    if isinstance(tree, str):
        return any(0xD800 <= ord(it) < 0xE000 for it in tree)
    return isinstance(tree, list) and any(map(has_surrogate, tree))


def members_of(pairs):
    if any(has_surrogate(name) or has_surrogate(value) for name, value in pairs):
        raise NotJson
    return dict(pairs)


def depth_of(text):
    depth = deepest = 0
    quoted = escaped = False
    for it in text:
        if quoted:
            quoted, escaped = escaped or it != '"', not escaped and it == "\\"
        elif it == '"':
            quoted = True
        elif it in "[{":
            depth += 1
            deepest = max(deepest, depth)
        elif it in "]}":
            depth -= 1
    return deepest


def tree_of(data):
    try:
        text = data.decode("utf-8")
        tree = json.loads(text, parse_int=whole_of, parse_float=float_of, parse_constant=no_constant, object_pairs_hook=members_of)
    except (ValueError, RecursionError):
        raise NotJson from None
    if has_surrogate(tree) or depth_of(text) > DEEPEST:
        raise NotJson
    return tree


def wanted(passes, value=None):
    if not passes:
        raise NotOfForm
    return value


def members(tree, count):
    return wanted(isinstance(tree, dict) and len(tree) == count, tree)


def whole(tree, name, most, least=0):
    number = tree.get(name)
    return wanted(isinstance(number, Whole) and least <= number <= most, number)


def text(tree, name):
    return wanted(isinstance(tree.get(name), str), tree.get(name))


def items(tree, name):
    return wanted(isinstance(tree.get(name), list), tree.get(name))


def class_of(tree):
    end = whole(members(tree, 3), "end", LATEST)
    boards = [(text(members(it, 2), "program"), text(it, "script")) for it in items(tree, "boards")]
    lose = [(whole(members(it, 3), "at", LATEST), whole(it, "from", 7), whole(it, "to", 7)) for it in items(tree, "lose")]
    if not 1 <= len(boards) <= 8 or len(lose) > 4096:
        return "refused 3"
    shown = [" " + " ".join(map(str, it)) for it in lose[:1] + lose[1:][-1:]]
    return f"{end}" + "".join(f"; `{program}` `{script}`" for program, script in boards) + f"; {len(lose)} lost" + ",".join(shown)


def arrival_of(tree):
    wanted(isinstance(tree, dict))
    after, does = whole(tree, "after", 1 << 31, 1), text(tree, "do")
    if does == "raise":
        members(tree, 4)
        return after, f" {after} raise {whole(tree, 'source', 65535)} {whole(tree, 'value', 65535)}"
    members(tree, 3)
    button = text(tree, "button")
    wanted(does in ("down", "up") and button in ("A", "B"))
    return after, f" {after} {does} {'AB'.index(button) + 1}"


def arrivals_of(tree):
    arrivals = [arrival_of(it) for it in items(members(tree, 1), "arrivals")]
    numbers = [after for after, _ in arrivals]
    if numbers != sorted(numbers):
        return "refused 3"
    if len(arrivals) > 4096:
        return "refused 4"
    return f"{len(arrivals)}" + ",".join(shown for _, shown in arrivals[:1] + arrivals[1:][-1:])


def answer(read, data):
    try:
        return read(tree_of(data))
    except NotJson:
        return "refused 1"
    except NotOfForm:
        return "refused 2"


class Maker:
    def __init__(self, seed):
        self.chance = random.Random(seed)

    def number(self, most):
        chance = self.chance
        return chance.choice([0, 1, 7, 8, most, most + 1]) if chance.random() < 0.08 else chance.randrange(min(most, 60) + 1)

    def written(self, text):
        return json.dumps(text, ensure_ascii=self.chance.random() < 0.5)

    def object(self, *pairs):
        """The members in any order; at times one is doubled, is missing, or is one too many."""
        chance, pairs = self.chance, list(pairs)
        chance.shuffle(pairs)
        kind = chance.random()
        if kind < 0.02:
            pairs.append(chance.choice(pairs))
        elif kind < 0.03:
            pairs.pop()
        elif kind < 0.04:
            pairs.append(("more", 1))
        return "{" + ",".join(f'"{name}":{value}' for name, value in pairs) + "}"

    def list(self, make, counts):
        """So many items; at times as many as the limit of 4096, or one more."""
        if self.chance.random() < 0.002:
            return "[" + ",".join([make()] * self.chance.choice([4095, 4096, 4097])) + "]"
        return "[" + ",".join(make() for _ in range(self.chance.choice(counts))) + "]"

    def name(self):
        return self.written(self.chance.choice(["p.ts", "s.json", "", "é", "a b", "-x", "😀"]))

    def classes(self):
        board = lambda: self.object(("program", self.name()), ("script", self.name()))
        loss = lambda: self.object(("at", self.number(LATEST)), ("from", self.number(7)), ("to", self.number(7)))
        boards = "[" + ",".join(board() for _ in range(self.chance.choice([0, 1, 1, 2, 2, 3, 8, 9]))) + "]"
        return self.object(("end", self.number(LATEST)), ("boards", boards), ("lose", self.list(loss, [0, 0, 1, 2, 5])))

    def arrivals(self):
        after = 1

        def arrival():
            nonlocal after
            chance = self.chance
            after = after + chance.choice([0, 1, 5, 1000]) if chance.random() < 0.96 else self.number(1 << 31)
            does = chance.choice(["down", "up", "raise"] if chance.random() < 0.97 else ["unplug", "press"])
            first = ("after", after), ("do", self.written(does))
            if does == "raise":
                return self.object(*first, ("source", self.number(65535)), ("value", self.number(65535)))
            if does == "unplug":
                return self.object(*first, ("port", chance.randrange(4)))
            return self.object(*first, ("button", self.written(chance.choice("AB"))))

        return self.object(("arrivals", self.list(arrival, [0, 1, 2, 3, 5, 8])))

    def changed(self, data):
        chance, data = self.chance, bytearray(data)
        for _ in range(chance.choice([1, 1, 1, 2])):
            at, way = chance.randrange(len(data) + 1), chance.randrange(5)
            if way == 0:
                data[at:at + 1] = b""
            elif way == 1:
                data.insert(at, chance.choice(b'{}[]",:0123456789-.eE \\xtu%<>'))
            elif way == 2:
                data[at:at + 1] = bytes([chance.randrange(256)])
            elif way == 3:
                del data[at:]
            else:
                digits = [nth for nth, it in enumerate(data) if it in b"0123456789"]
                if digits:
                    nth = chance.choice(digits)
                    data[nth:nth + 1] = chance.choice(NUMBERS).encode()
        return bytes(data)


def spelled(data):
    return "".join(chr(it) if 32 <= it < 127 and it not in b"%<>" else f"%{it:02X}" for it in data)


def main(program, seed, count):
    maker = Maker(int(seed))
    rows, due, counts = [], [], collections.Counter()
    for _ in range(int(count)):
        kind, made, read = maker.chance.choice([("class", maker.classes, class_of), ("arrivals", maker.arrivals, arrivals_of)])
        data = made().encode()
        if maker.chance.random() < 0.5:
            data = maker.changed(data)
        rows.append(f"{kind} {spelled(data)}")
        due.append(answer(read, data))
        counts[f"{kind} {due[-1]}" if due[-1].startswith("refused") else f"{kind} read"] += 1
    # (a file, since of a pipe the program reads a byte at a time)
    with tempfile.TemporaryFile() as asked:
        asked.write("".join(f"{row}\n" for row in rows).encode())
        asked.seek(0)
        said = subprocess.run([program], stdin=asked, capture_output=True, check=True).stdout.decode().split("\n")
    at = differences = 0
    for row, answer_due in zip(rows, due):
        lines = answer_due.count("\n") + 1
        answer_said = "\n".join(said[at:at + lines])
        at += lines
        if answer_said != answer_due:
            differences += 1
            print(f"{row[:300]}\n  said {answer_said[:200]}\n  due  {answer_due[:200]}")
    print(f"{differences} differences; " + ", ".join(f"{number} {kind}" for kind, number in sorted(counts.items())))
    return 1 if differences else 0


if __name__ == "__main__":
    sys.exit(main(*sys.argv[1:]))
