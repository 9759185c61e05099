# Does what checks/schemas.sh says.
import copy
import json
import random
import subprocess
import sys
import tempfile

import jsonschema

SCHEMAS, FOLDER, ROWS = sys.argv[1:]
FILES, LAST, MOST, DEEPEST = 2000, 1073741824, 2147483648, 127
ODD = [-1, 0, 1, 2, 3, 4, 7, 8, 65535, 65536, LAST, LAST + 1, MOST, MOST + 1, 2**64, 10**30, 1.5, True, False, None, "", "A", "B", "C", "up", "down", "raise", "unplug", [], {}, [[]], {"at": 0}]
NAMES = ["at", "after", "do", "button", "source", "value", "port", "end", "events", "arrivals", "boards", "lose", "program", "script", "from", "to", "At", ""]
chance = random.Random(48)


def whole(most, least=0):
    return chance.choice([least, least + 1, most, chance.randrange(least, most + 1), chance.randrange(least, min(most, 50) + 1)])


def mixed(made):
    """The object, at times with its members in another order."""
    names = list(made)
    if chance.random() < 0.3:
        chance.shuffle(names)
    return {name: made[name] for name in names}


def sizes():
    return chance.choice([0, 1, 2, 3, 8, 20])


def rising(least, most):
    """Moments that don't fall, mostly."""
    made = sorted(whole(chance.choice([5, 2000, most]), least) for _ in range(sizes()))
    if chance.random() < 0.15:
        chance.shuffle(made)
    return made


class Scripts:
    schema, parts = "script", "events"

    def part(self, at, kinds=("down", "up", "raise", "unplug"), name="at"):
        kind = chance.choice(kinds)
        made = {name: at, "do": kind}
        if kind in ("down", "up"):
            made["button"] = chance.choice("AB")
        elif kind == "raise":
            made |= {"source": whole(65535), "value": whole(65535)}
        else:
            made["port"] = chance.randrange(4)
        return mixed(made)

    def made(self):
        moments = rising(0, LAST)
        end = max(moments, default=0) if chance.random() < 0.3 else whole(LAST)
        if chance.random() < 0.8:
            end = max([end, *moments])
        return mixed({"end": end, "events": [self.part(at) for at in moments]})

    def at_limits(self):
        entry, raised, unplugged = {"at": 0, "do": "up", "button": "A"}, {"at": 0, "do": "raise", "source": 0, "value": 0}, {"at": 0, "do": "unplug", "port": 0}
        yield {"end": 0, "events": [entry] * 4096}
        yield {"end": 0, "events": [entry] * 4097}
        for name, most, at in (("at", LAST, raised), ("at", LAST, unplugged), ("at", LAST, entry), ("source", 65535, raised), ("value", 65535, raised), ("port", 3, unplugged)):
            yield from ({"end": LAST, "events": [at | {name: number}]} for number in (-1, 0, most, most + 1))
        yield from ({"end": number, "events": []} for number in (-1, 0, LAST, LAST + 1))

    def is_out_of_order(self, value):
        moments = [it["at"] for it in value["events"]]
        return {3: any(later < before for before, later in zip(moments, moments[1:])), 4: any(at > value["end"] for at in moments)}

    def answers(self, contents):
        """For each file None where it is taken, else the code of its refusal."""
        yield from (self.answer(content, ["run", "empty.ts", "file.json"], "script refused ") for content in contents)

    def answer(self, content, words, refused):
        with open(f"{FOLDER}/file.json", "wb") as file:
            file.write(content)
        ran = subprocess.run(["./sts", *words], cwd=FOLDER, stdout=subprocess.PIPE, stderr=subprocess.DEVNULL, timeout=60, check=False)
        said = ran.stdout.decode()
        if ran.returncode == 0 and said.startswith("end "):
            return None
        assert ran.returncode == 11 and said.startswith(refused), (content[:300], said)
        return int(said.split()[2])


class Arrivals(Scripts):
    schema, parts = "arrivals", "arrivals"

    def part(self, at, kinds=("down", "up", "raise"), name="after"):
        return super().part(at, kinds, name)

    def made(self):
        return {"arrivals": [self.part(at) for at in rising(1, MOST)]}

    def at_limits(self):
        pressed, raised = {"after": 1, "do": "up", "button": "A"}, {"after": 1, "do": "raise", "source": 0, "value": 0}
        yield {"arrivals": [pressed] * 4096}
        yield {"arrivals": [pressed] * 4097}
        for name, most, at in (("after", MOST, pressed), ("after", MOST, raised), ("source", 65535, raised), ("value", 65535, raised)):
            yield from ({"arrivals": [at | {name: number}]} for number in (-1, 0, 1, most, most + 1))

    def is_out_of_order(self, value):
        numbers = [it["after"] for it in value["arrivals"]]
        return {3: any(later < before for before, later in zip(numbers, numbers[1:]))}

    def answers(self, contents):
        yield from (self.answer(content, ["run-at", "empty.ts", "nothing.json", "file.json"], "arrivals refused ") for content in contents)


class Classes:
    schema, parts = "class", "lose"

    def part(self, at=None):
        return mixed({"at": whole(LAST) if at is None else at, "from": chance.randrange(8), "to": chance.randrange(8)})

    def board(self):
        return mixed({"program": chance.choice(["p.ts", "", "é", "a/b.ts"]), "script": chance.choice(["s.json", "", "a b"])})

    def made(self):
        return mixed({"end": whole(LAST), "boards": [self.board() for _ in range(chance.choice([1, 1, 2, 3, 8, 8, 0, 9]))], "lose": [self.part() for _ in range(sizes())]})

    def at_limits(self):
        board, loss = {"program": "p", "script": "s"}, {"at": 0, "from": 0, "to": 0}
        for boards, losses in ((1, 4096), (1, 4097), (0, 0), (8, 0), (9, 0)):
            yield {"end": 0, "boards": [board] * boards, "lose": [loss] * losses}
        for name, most in (("at", LAST), ("from", 7), ("to", 7)):
            yield from ({"end": 0, "boards": [board], "lose": [loss | {name: number}]} for number in (-1, 0, most, most + 1))
        yield from ({"end": number, "boards": [board], "lose": []} for number in (-1, 0, LAST, LAST + 1))

    def is_out_of_order(self, value):
        return {}

    def answers(self, contents):
        # (a file, since of a pipe the program reads a byte at a time)
        with tempfile.TemporaryFile() as rows:
            rows.write("".join("class " + "".join(f"%{byte:02X}" for byte in content) + "\n" for content in contents).encode())
            rows.seek(0)
            said = subprocess.run([ROWS, "input_rows"], stdin=rows, stdout=subprocess.PIPE, timeout=300, check=True).stdout.decode().split("\n")[:-1]
        assert len(said) == len(contents)
        yield from (int(it.split()[1]) if it.startswith("refused ") else None for it in said)


def changed(kind, made):
    """The file with one value, one member or one part changed."""
    made = copy.deepcopy(made)
    parts = made[kind.parts]
    at, how = chance.choice([made, *parts, *made.get("boards", [])]), chance.randrange(6)
    if how == 0:
        at[chance.choice(list(at))] = copy.deepcopy(chance.choice(ODD))
    elif how == 1:
        del at[chance.choice(list(at))]
    elif how == 2:
        at[chance.choice(NAMES)] = copy.deepcopy(chance.choice(ODD))
    elif how == 3 and "do" in at:
        at["do"] = chance.choice(["down", "up", "raise", "unplug", "Down", ""])
    elif how == 4:
        parts.insert(chance.randrange(len(parts) + 1), copy.deepcopy(chance.choice(ODD)))
    else:
        parts.append(kind.part(whole(LAST)))
    return made


def spelled(kind, made):
    """The text of a file, perhaps with one of its whole numbers, its white space or one of its bytes changed, or a member written twice."""
    text = json.dumps(made, indent=chance.choice([None, 2]))
    how = chance.randrange(10)
    digits = [at for at, it in enumerate(text) if it.isdigit() and not text[at - 1].isdigit()]
    if how in (0, 1) and digits:
        at = chance.choice(digits)
        behind = at
        while behind < len(text) and text[behind].isdigit():
            behind += 1
        number = text[at:behind]
        other = chance.choice([f"{number}.0", f"{number}e0", f"{number}E+0", f"-{number}", "-0", f"0{number}", f"+{number}", f"{number}.", f"{number}0e-1", "-0.0"])
        text = text[:at] + other + text[behind:]
    elif how == 2:
        at = chance.randrange(len(text))
        text = text[:at] + chance.choice(["", " ", "\n", ",", "}", "]", '"', "0", "\\u0041", "é", "\ufeff", "\x00", "//"]) + text[at + chance.randrange(2) :]
    elif how == 3 and text.startswith("{"):
        depth = chance.choice([1, DEEPEST - 1, DEEPEST, 200])
        text = f'{{"{kind.parts}": ' + "[" * depth + "]" * depth + "," + text[1:]
    elif how == 4 and text.startswith("{"):
        text = f'{{"{kind.parts}": 7,' + text[1:]
    elif how == 5:
        text = text[: chance.randrange(len(text) + 1)]
    return text.encode()


class Spelling(int):
    """A number that has a point or an exponent, or is -0: for a schema it may be whole."""


def depth_of(value):
    return 1 + max((depth_of(it) for it in (value.values() if isinstance(value, dict) else value)), default=0) if isinstance(value, (dict, list)) else 0


def read(content):
    """The value of a JSON text, the whole numbers that are spelled otherwise, and its greatest depth; None where it is no JSON."""
    deepest = 0

    def refuse(name):
        raise ValueError(name)

    def other(text):
        return Spelling(float(text)) if float(text).is_integer() and abs(float(text)) < 2**70 else float(text)

    def pairs(members):
        nonlocal deepest
        deepest = max([deepest, *(1 + depth_of(value) for _, value in members)])
        return dict(members)

    try:
        value = json.loads(content.decode("utf-8"), parse_constant=refuse, parse_float=other, parse_int=lambda text: Spelling(0) if text == "-0" else int(text), object_pairs_hook=pairs)
    except (ValueError, UnicodeDecodeError):
        return None
    return value, max(deepest, depth_of(value))


def is_spelled_otherwise(value):
    if isinstance(value, dict):
        return any(is_spelled_otherwise(it) for it in value.values())
    return any(is_spelled_otherwise(it) for it in value) if isinstance(value, list) else isinstance(value, Spelling)


def found_of(kind, validator, content, code):
    """How the toolchain and the schema agree on a file, or differ as they may; None where they differ otherwise."""
    parsed = read(content)
    by_schema = parsed is not None and validator.is_valid(parsed[0])
    if code is None:
        return "both take" if by_schema else None
    if parsed is None:
        return "no JSON" if code == 1 else None
    if not by_schema:
        return "both refuse"
    value, deepest = parsed
    if code == 1:
        return "depth" if deepest > DEEPEST else None
    if code == 2:
        return "number" if is_spelled_otherwise(value) else None
    return "order" if kind.is_out_of_order(value).get(code) else None


def compared(kind):
    """Whether the files of a kind are taken and refused as they should be."""
    with open(f"{SCHEMAS}/{kind.schema}.json", encoding="utf-8") as file:
        schema = json.load(file)
    jsonschema.Draft202012Validator.check_schema(schema)
    validator = jsonschema.Draft202012Validator(schema)
    given = [json.dumps(it).encode() for it in kind.at_limits()] + [b"", b"\xff", b"[]", b"null"]
    while len(given) < FILES:
        made = kind.made()
        given.append(spelled(kind, changed(kind, made) if chance.random() < 0.4 else made))
    counts = dict.fromkeys(["both take", "both refuse", "no JSON", "number", "depth"] + ["order"] * (kind.schema != "class"), 0)
    wrong = 0
    for content, code in zip(given, kind.answers(given)):
        found = found_of(kind, validator, content, code)
        if found:
            counts[found] += 1
        else:
            wrong += 1
            print(f"schemas: the {kind.schema} {content[:300]!r} is {'taken' if code is None else f'refused by code {code}'}, and the schema says otherwise")
    print(f"schemas: {kind.schema}: {len(given)} files, {', '.join(f'{what} {count}' for what, count in counts.items())}, {wrong} wrong")
    return not wrong and counts["both take"] >= 500 and min(counts.values()) >= 20


with open(f"{FOLDER}/empty.ts", "w", encoding="ascii"):
    pass
with open(f"{FOLDER}/nothing.json", "w", encoding="ascii") as nothing:
    nothing.write('{"end": 1000, "events": []}')
sys.exit(0 if all([compared(kind) for kind in (Scripts(), Arrivals(), Classes())]) else 1)
