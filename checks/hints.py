# Does what checks/hints.sh says.
import glob
import re
import subprocess
import sys
import tempfile

program, rows, top = sys.argv[1:]
folder = tempfile.TemporaryDirectory()
wrong = []


def refusals(texts):
    """What sts tells of each text: code, line and column as words, or the line that it writes."""
    told = []
    for number, text in enumerate(texts):
        name = f"{folder.name}/{number}.ts"
        with open(name, "wb") as file:
            file.write(text)
        line = subprocess.run([program, "check", name], stdout=subprocess.PIPE, check=False).stdout.decode().strip()
        told.append(line.removeprefix("refused "))
    return told


def answered(asked):
    """What input_rows writes of each row."""
    # (a file, since of a pipe the program reads a byte at a time)
    with tempfile.TemporaryFile() as lines:
        lines.write("".join(f"{row}\n" for row in asked).encode())
        lines.seek(0)
        out = subprocess.run([rows, "input_rows"], stdin=lines, stdout=subprocess.PIPE, check=True).stdout.decode()
    answers = out.splitlines()
    assert len(answers) == len(asked)
    return answers


def explained(asked):
    """The sentence, the example and the open bracket of each text at a place, by input_rows."""
    return [line.split("\t") for line in answered([f"hint {place} {text.hex()}" for place, text in asked])]


def tries_of(name):
    """The texts of a table, each with its place and what is to be said."""
    with open(f"{top}/checks/{name}", encoding="utf-8") as file:
        lines = [line for line in file.read().split("\n") if line and not re.match(r"#( |$)", line)]
    bytes_of = {"n": "\n", "r": "\r", "t": "\t", "\\": "\\"}
    for at in range(0, len(lines), 3):
        text, place, said = lines[at : at + 3]
        assert text.startswith("> ") and re.fullmatch(r"\d+ \d+ \d+( \d+ \d+)?", place), text
        yield re.sub(r"\\([nrt\\])", lambda found: bytes_of[found[1]], text[2:]).encode(), place.split(), said


# The tries.
tries = list(tries_of("hints.txt"))
for (text, place, sentence), told in zip(tries, refusals([text for text, _, _ in tries])):
    if told != " ".join(place[:3]):
        wrong.append(f"{text!r}: sts tells {told} in place of {' '.join(place[:3])}")
for (text, place, sentence), (said, _, opened) in zip(tries, explained([(" ".join(place[:3]), text) for text, place, _ in tries])):
    if not said.startswith(sentence):
        wrong.append(f"{text!r}: {said!r} in place of {sentence!r}")
    if opened != (" ".join(place[3:]) or "-"):
        wrong.append(f"{text!r}: the bracket at {opened} in place of {' '.join(place[3:]) or '-'}")
if len(tries) < 300:
    wrong.append(f"{len(tries)} tries")

# Words that are nearly names: the place of sts, and the name of near_names.
meant = list(tries_of("meant.txt"))
for (text, place, name), told in zip(meant, refusals([text for text, _, _ in meant])):
    if told != " ".join(place):
        wrong.append(f"{text!r}: sts tells {told} in place of {' '.join(place)}")
for (text, place, name), said in zip(meant, answered([f"meant {' '.join(place)} {text.hex()}" for text, place, _ in meant])):
    if said != name:
        wrong.append(f"{text!r}: {said!r} in place of {name!r}")
if len(meant) < 60:
    wrong.append(f"{len(meant)} words that are nearly names")

# Scripts, class files and arrivals: the code of sts, and the line and the sentence of input_hints.
inputs = []
with open(f"{top}/checks/inputs.txt", encoding="utf-8") as file:
    lines = [line for line in file.read().split("\n") if line and not line.startswith("#")]
for at in range(0, len(lines), 3):
    text, place, sentence = lines[at : at + 3]
    found = re.fullmatch(r"> (script|class|arrivals) (.*)", text)
    assert found and re.fullmatch(r"\d+ \d+", place), text
    inputs.append((found[1], re.sub(r"\\n", "\n", found[2]).encode(), place.split(), sentence))
words_of = {"script": ["run", f"{top}/examples/hello.ts"], "class": ["class"], "arrivals": ["run-at", f"{top}/examples/arrivals/polling.ts", f"{top}/examples/arrivals/polling.json"]}
for number, (kind, text, (code, _), _) in enumerate(inputs):
    name = f"{folder.name}/{number}.json"
    with open(name, "wb") as file:
        file.write(text)
    told = subprocess.run([program, *words_of[kind], name], stdout=subprocess.PIPE, stderr=subprocess.DEVNULL, check=False).stdout.decode().strip()
    if told != f"{kind} refused {code}":
        wrong.append(f"{text!r}: sts tells {told} in place of {kind} refused {code}")
for (kind, text, (_, line), sentence), said in zip(inputs, answered([f"fault {kind} {text.hex()}" for kind, text, _, _ in inputs])):
    if said != f"{line}\t{sentence}":
        wrong.append(f"{text!r}: {said!r} in place of {line}: {sentence!r}")
of_kind = {kind: sum(1 for it in inputs if it[0] == kind) for kind in words_of}
if of_kind["script"] < 30 or of_kind["class"] < 15 or of_kind["arrivals"] < 10:
    wrong.append(f"files: {of_kind}")

# The code's own sentences, at a place where no row fits, are those of docs/LANGUAGE.md: the first row of each code in its tables, what the text is and what to change.
with open(f"{top}/docs/LANGUAGE.md", encoding="utf-8") as file:
    document = file.read()
due = {}
for row in re.findall(r"(?m)^\| (\d+ \|.*) \|$", document):
    cells = [cell.strip().replace("\0", "|") for cell in row.replace("\\|", "\0").split("|")]
    if len(cells) == 5 and int(cells[0]) not in due:
        text = cells[1].split(". ")[0]
        text = f"The text {text}" if re.match(r"(has|is|spells) ", text) else text[0].upper() + text[1:]
        due[int(cells[0])] = f"{text}: {cells[4]}."
if sorted(due) != list(range(1, 16)):
    wrong.append(f"docs/LANGUAGE.md has the codes {sorted(due)}")
own = explained([(f"{code} 1 1", b"") for code in range(1, 16)])
for code, (said, _, _) in enumerate(own, 1):
    if said != due.get(code):
        wrong.append(f"code {code}: {said!r}, and docs/LANGUAGE.md has {due.get(code)!r}")
for code in [0, 16, 4294967295]:
    if explained([(f"{code} 1 1", b"")])[0][0] != "This number is no code of a refusal.":
        wrong.append(f"code {code}")

# Each call of docs/CALLS.md has its rows, and each member that isn't here, with what stands in its place, is told as such.
with open(f"{top}/docs/CALLS.md", encoding="utf-8") as file:
    calls_here, not_here = file.read().split("## Not here, instead")
calls = re.findall(r"(?m)^- `(\w+\.\w+)\(", calls_here)
entries = [line.partition(": ")[0] for line in not_here.splitlines() if line.startswith("- ")]
members = [name for entry in entries for name in re.findall(r"`(\w+\.\w+)`", entry) if not name[0].isdigit()]
asked = [("11 1 1", f"{call}(") for call in calls] + [("8 1 1", f"{call}(") for call in calls] + [("8 1 1", f"{call.split('.')[1]}(") for call in calls] + [("8 1 1", name) for name in members]
begins = [f"`{call}` takes " for call in calls] + [f"The call is `{call}`, " for call in calls] + [f"`{call.split('.')[1]}` is one of `{call.split('.')[0]}`" for call in calls] + [""] * len(members)
for (place, text), begin, (sentence, _, _) in zip(asked, begins, explained([(place, text.encode()) for place, text in asked])):
    if not sentence.startswith(begin) or not begin and not any(re.search(rf"`(\w+\.)?{part}`", sentence) for part in text.split(".")):
        wrong.append(f"{text} at {place}: {sentence!r}")
if len(calls) < 28 or len(members) < 10:
    wrong.append(f"docs/CALLS.md: {len(calls)} calls, {len(members)} members that aren't here")

# Each example of the tables is a text that isn't refused by the codes 1 to 7, and each sentence stands on one line, ends with a full stop and is of plain ASCII.
sources = [f"{top}/crates/refusal_hints/src/own.rt"]
sources += sorted(glob.glob(f"{top}/crates/refusal_hints/src/tables/*.rt"))
said = {"sentence": set(), "example": set()}
for source in sources:
    with open(source, encoding="utf-8") as file:
        for word, text in re.findall(r'(?s)\b(sentence|example):\s*"((?:[^"\\]|\\.)*)"', file.read()):
            said[word].add(re.sub(r"\\(.)", r"\1", text))
for sentence in said["sentence"]:
    if not re.fullmatch(r"[ -~]*\.", sentence):
        wrong.append(f"the sentence {sentence!r}")
examples = sorted(said["example"] - {""})
for example, told in zip(examples, refusals([f"{example}\n".encode() for example in examples])):
    if re.match(r"[1-7] ", told):
        wrong.append(f"the example {example!r} is refused {told}")
if len(examples) < 200 or len(said["sentence"]) < 300:
    wrong.append(f"{len(examples)} examples, {len(said['sentence'])} sentences")

# Any bytes, any place and any code are answered.
asked = [(f"{code} {line} {column}", text) for code in [0, 3, 6, 8, 11, 15, 99] for line, column in [(0, 0), (1, 0), (0, 1), (2, 1), (1, 99), (4294967295, 4294967295)]
    for text in [b"", b"\n", b"\r", b"\r\n", b"\xff\x80", b"(\xc3", b"((((]]]]", b"\"\\", b"`", b"/*", b"/", b"a" * 70000, b"(" * 70000]]
for (place, text), answer in zip(asked, explained(asked)):
    if len(answer) != 3 or not answer[0].endswith("."):
        wrong.append(f"{place} of {text[:20]!r}: {answer}")
for (place, text), answer in zip(asked, answered([f"meant {place} {text.hex()}" for place, text in asked])):
    if answer != "-":
        wrong.append(f"{place} of {text[:20]!r} is meant as {answer!r}")

for line in wrong:
    print(f"hints: {line}")
print(f"hints: {len(tries)} tries, {len(meant)} words, {len(inputs)} files, {len(calls)} calls, {len(members)} members that are not here, {len(examples)} examples, {len(said['sentence'])} sentences, {len(asked)} places of any texts, {len(wrong)} wrong")
sys.exit(1 if wrong else 0)
