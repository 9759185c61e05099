"""What checks/show.sh looks at. The last line is 'show: N things looked at, K wrong'."""
import json
import os
import signal
import subprocess
import sys
import tempfile
import time

TOP = os.path.dirname(os.path.dirname(os.path.abspath(__file__)))
SHOW, STS = f"{TOP}/bin/show", f"{TOP}/bin/sts"
ENVIRONMENT = {**os.environ, "STS_QUIET": "1"}
looked, wrong = 0, 0


def expect(what, wanted, came):
    global looked, wrong
    looked += 1
    if wanted != came:
        wrong += 1
        print(f"show: {what}\n    wanted {wanted!r}\n    came   {came!r}")


def show(*words, given="", program=SHOW):
    ran = subprocess.run([program, *words], input=given.encode(), stdout=subprocess.PIPE, stderr=subprocess.PIPE, env=ENVIRONMENT, timeout=300, check=False)
    return ran.returncode, ran.stdout.decode(), ran.stderr.decode()


def put(path, text):
    with open(path, "w", encoding="utf-8") as file:
        file.write(text)


# A program that shows which button was pressed, and hears pins.
HEARS = """input.onButtonPressed(Button.A, function () { serial.writeString("a") })
input.onButtonPressed(Button.B, function () { serial.writeString("b") })
control.onEvent(101, 3, function () { serial.writeString("pin") })
"""


def presses():
    put("hears.ts", HEARS)
    for words, shown in (
        ("A@100", '180 button A after 80 ms\n180 serial "a"\n'),
        ("a@0+220", '220 button A after 220 ms\n220 serial "a"\n'),
        ("AB@100", '180 buttons A and B after 80 ms\n180 serial "ab"\n'),
        ("A@200+300, B@50", '130 button B after 80 ms\n130 serial "b"\n500 button A after 300 ms\n500 serial "a"\n'),
        ("B@50,A@100+300", '50 button B goes down\n100 button A goes down\n130 button B goes up\n130 serial "b"\n400 button A goes up\n400 serial "a"\n'),
        ("A@100+1000", "1100 button A after 1000 ms\n"),
        ("pin1@5", '5 event 101 1\n85 event 101 2\n85 event 101 3\n85 serial "pin"\n'),
        ("P1@5+2000", "5 event 101 1\n2005 event 101 2\n"),
    ):
        status, said, error = show("hears.ts", "--press", words)
        expect(f"--press {words}", (0, shown, ""), (status, said.rpartition("end ")[0], error))
    for words in ("", "C@1", "A", "A@", "A@x", "A@1,", "pin3@1", "A@1073741824", "A@1,A@50", "A@1,AB@50", "pin0@1,pin0@2", "A@1+99999999999"):
        expect(f"--press {words}", (2, ""), show("hears.ts", "--press", words)[:2])
    expect("--press with a script", (2, ""), show("hears.ts", "none.json", "--press", "A@1")[:2])
    expect("--save", 0, show("hears.ts", "--press", "A@100+50", "--save", "saved.json")[0])
    with open("saved.json", encoding="utf-8") as file:
        expect("what --save keeps", {"end": 2150, "events": [{"at": 100, "do": "down", "button": "A"}, {"at": 150, "do": "up", "button": "A"}]}, json.load(file))
    expect("the script that was kept", '150 button A after 50 ms\n150 serial "a"\n', show("hears.ts", "saved.json")[1].rpartition("end ")[0])
    expect("--save over a file", (2, "", "bin/show: saved.json is there already: give another name, or --force\n"), show("hears.ts", "--press", "A@1", "--save", "saved.json"))
    expect("--save by --force", 0, show("hears.ts", "--press", "A@1", "--save", "saved.json", "--force")[0])
    expect("--save alone", 2, show("hears.ts", "--save", "other.json")[0])


def held():
    """A press stands in two rows where something is shown while the button is down."""
    put("down.ts", "control.onEvent(1, 1, function () { serial.writeString(\"x\") })\n")
    expect("a press that shows something as it goes down", '100 button A goes down\n100 serial "x"\n', show("down.ts", "--press", "A@100")[1].partition("180 ")[0])


def kinds():
    counter = f"{TOP}/examples/counter"
    for name in ("-", "/dev/stdin"):
        expect(f"a program from {name}", (0, '0 serial "5"\nend 0 quiet\tnothing is left to do\n', ""), show(name, given="serial.writeNumber(2 + 3)\n"))
        status, said, _ = show(name, given="led.plot(1 2)\n")
        expect(f"a refused program from {name}", (10, f"{name}:1:12: A comma is missing between two arguments."), (status, said.split("\n")[0]))
        expect(f"a script from {name}", '180 button A after 80 ms\n180 serial "1\\x0a"\n', show(f"{counter}.ts", name, given='{"end": 300, "events": [{"at": 100, "do": "down", "button": "A"}, {"at": 180, "do": "up", "button": "A"}]}')[1].partition(" " * 10)[0])
    built = subprocess.run([STS, "build", f"{counter}.ts"], stdout=subprocess.PIPE, env=ENVIRONMENT, check=True).stdout.decode()
    put("counter.hex", built)
    expect("a HEX file", show(f"{counter}.ts", f"{counter}.json"), show("counter.hex", f"{counter}.json"))
    lines = built.split("\n")
    for name, text, says in (
        ("sum", "\n".join([*lines[:2], lines[2][:-2] + f"{(int(lines[2][-2:], 16) + 1) % 256:02X}", *lines[3:]]), f"3: the sum is wrong: the last two digits would be {lines[2][-2:]}"),
        ("end", "\n".join(lines[:4]) + "\n", "4: there is no end record, :00000001FF"),
        ("after", built + lines[1] + "\n", f"{len(lines)}: something comes after the end record"),
        ("sign", "\n".join([lines[0], lines[1][:-1] + "g", *lines[2:]]), "2: a line is a colon and pairs of hexadecimal digits, five or more"),
        ("twice", "\n".join([*lines[:2], *lines[1:]]), "3: the byte at 0x0 was given before"),
        ("type", ":00000006FA\n", "1: there is no record of type 06"),
        ("long", ":0200000000FE\n", "1: the line says that it has 2 bytes of data, and has 1"),
        ("flash", ":020000040004F6\n:0100000000FF\n", "2: the address 0x40000 is past the flash, which ends at 0x40000"),
        ("base", ":0100000400FB\n", "1: a record of type 04 has 2 bytes of data"),
    ):
        put(f"{name}.hex", text)
        expect(f"a HEX file, {name}", (12, f"{name}.hex:{says}\n"), show(f"{name}.hex")[:2])
    put("null.ts", "let a: number[]; a.push(1)\n")
    put("null.hex", subprocess.run([STS, "build", "null.ts"], stdout=subprocess.PIPE, env=ENVIRONMENT, check=True).stdout.decode())
    expect("an image's panic 105", (3, "panic 0 105\ta service was asked for something that is null: no object, array or text is 0\n"), show("null.hex")[:2])
    polling = [f"{TOP}/examples/arrivals/polling{it}" for it in (".ts", ".json", ".arrivals.json")]
    for words in (polling, [polling[0], polling[2]]):
        expect(f"arrivals, {len(words)} files", (0, '0 serial "downup"\nend 0 quiet\tnothing is left to do\n'), show(*words)[:2])
    for name, says in ((f"{counter}.json", "is a script, which comes after its program: bin/show PROGRAM"), (polling[2], "are arrivals, which come after the program and its script: bin/show PROGRAM SCRIPT")):
        expect("a file in a program's place", (10, f"{name} {says} {name}\n"), show(name)[:2])


def classes():
    os.chdir(TOP)
    expect("a class", (0, "board 0: examples/lesson/switch.ts\n200 button A after 100 ms\n200 radio 1\n700 button A after 100 ms\n700 radio 1\nend 701 quiet\tnothing is left to do\n\n"
                          "board 1: examples/lesson/lamp.ts\n          201          701 ms\n" + "   ··········   ··········\n" * 2 + "   ····██····   ··········\n" + "   ··········   ··········\n" * 2
                          + "end 701 quiet\tnothing is left to do\n"), show("examples/lesson/lamp.class.json")[:2])
    os.chdir(FOLDER)
    put("wrong.ts", "led.plot(1 2)\n")
    put("none.json", '{"end": 1000, "events": []}\n')
    put("small.json", '{"end": 1000, "events": [{"at": 1, "do": "down", "button": "a"}]}\n')
    put("long.json", '{"end": 2000, "events": []}\n')
    for boards, status, says in (([("hears.ts", "none.json"), ("wrong.ts", "none.json")], 10, "wrong.ts:1:12: A comma"), ([("hears.ts", "none.json"), ("hears.ts", "small.json")], 11, 'small.json:1: entry 1: "button" is "A" or "B"'),
                                 ([("hears.ts", "none.json"), ("gone.ts", "none.json")], 21, "gone.ts: there is no such file\n"), ([], 11, "odd.json:1: "),
                                 ([("hears.ts", "none.json"), ("hears.ts", "long.json")], 11, "odd.json: board 1: its script long.json ends at 2000, and the class at 1000\n")):
        put("odd.json", json.dumps({"end": 1000, "boards": [{"program": it[0], "script": it[1]} for it in boards], "lose": []}))
        came, said, _ = show("odd.json")
        expect(f"a class that is refused, {boards}", (status, says), (came, said[:len(says)]))
    expect("a class with presses", (2, ""), show("odd.json", "--press", "A@1")[:2])


def unread():
    for words, status, says in ((("gone.ts",), 21, "gone.ts: there is no such file\n"), (("hears.ts", "gone.json"), 21, "gone.json: there is no such file\n"), (("hears.ts", "small.json"), 11, 'small.json:1: entry 1: "button" is "A" or "B", in capitals'),
                                (("\u202e.ts",), 21, "\\xe2\\x80\\xae.ts: there is no such file\n"), (("\U000e0041\u00fc.ts",), 21, "\\xf3\\xa0\\x81\\x81\u00fc.ts: there is no such file\n"), ((FOLDER,), 20, f"{FOLDER}: it couldn't be read\n")):
        came, said, _ = show(*words)
        expect(f"show {words}", (status, says), (came, said[:len(says)]))
    came, said, error = show("hears.ts", "a", "b", "\u202e\x1b")
    expect("a word that isn't taken", (2, "", "bin/show: error: unrecognized arguments: \\xe2\\x80\\xae\\x1b"), (came, said, error.split("\n")[-2]))


def pages():
    expect("a page", (0, ""), show(f"{TOP}/examples/counter.ts", f"{TOP}/examples/counter.json", "--html", "counter.html")[:2])
    with open("counter.html", encoding="utf-8") as file:
        page = file.read()
    expect("a page: its title, presses and sentence", [True] * 4, [it in page for it in ('<pre id="said" hidden>\ncounter.ts\n', "\n100 button A goes down\n", "\n180 button A goes up\n", "\nend 2500 quiet\\x09nothing is left to do\n")])
    expect("the page of a refusal", 10, show("wrong.ts", "--html", "wrong.html")[0])
    with open("wrong.html", encoding="utf-8") as file:
        expect("the page of a refusal: its explanation", True, "\nrefused 6 1 12\n  | A comma is missing between two arguments.\n" in file.read())
    started = time.monotonic()
    expect("a page that can't be written", (22, "", "bin/show: gone/x.html can't be written: No such file or directory\n"), show("hears.ts", "--html", "gone/x.html"))
    expect("a page that can't be written is said at once", True, time.monotonic() - started < 20)


def limits():
    put("loop.ts", "while (true) { led.toggle(0, 0) }\n")
    status, said, _ = show("loop.ts", "--width", "80")
    expect("a loop: the status, few rows, the cause first and last", (4, True, True), (status, said.count("\n") < 60, said.split("\n")[0] == said.split("\n")[-2] and said.startswith("budget 0\t")))
    put("texts.ts", f'while (true) serial.writeString("{"0123456789abcdef" * 1000}")\n')
    put("measure.py", "import resource, subprocess, sys\nr = subprocess.run(sys.argv[1:], stdout=subprocess.PIPE)\nprint(r.returncode, resource.getrusage(resource.RUSAGE_CHILDREN).ru_maxrss, len(r.stdout), r.stdout[-300:].split(b'\\t')[0].decode()[-20:])\n")
    for words in ((), ("--html", "texts.html")):
        ran = subprocess.run([sys.executable, "measure.py", SHOW, "texts.ts", *words], stdout=subprocess.PIPE, env=ENVIRONMENT, timeout=600, check=False)
        status, kilobytes, _, last = ran.stdout.decode().split(" ", 3)
        expect(f"long texts {words}: the status and the memory", (22, True), (int(status), int(kilobytes) < 300_000))
        if words:
            expect("long texts: the page", True, os.path.getsize("texts.html") <= 5_000_000)
        else:
            expect("long texts: that the rest is left out", True, "the rest is left out".endswith(last.strip()[-10:]))


def endings():
    with open("/dev/full", "wb") as full:
        ran = subprocess.run([SHOW, "hears.ts"], stdout=full, stderr=subprocess.PIPE, env=ENVIRONMENT, timeout=120, check=False)
        expect("a full device", (22, "bin/show: the output couldn't be written\n"), (ran.returncode, ran.stderr.decode()))
    child = subprocess.Popen([SHOW, f"{TOP}/examples/counter.ts", f"{TOP}/examples/counter.json"], stdout=subprocess.PIPE, stderr=subprocess.PIPE, env=ENVIRONMENT)
    child.stdout.close()
    expect("nobody reads", (22, b"bin/show: the output couldn't be written\n"), (child.wait(120), child.stderr.read()))
    put("watched.ts", "serial.writeNumber(1)\n")
    before = set(os.listdir(tempfile.gettempdir()))
    child = subprocess.Popen([SHOW, "watched.ts", "--watch"], stdout=subprocess.PIPE, stderr=subprocess.PIPE, env=ENVIRONMENT)
    first = [child.stdout.readline().decode() for _ in range(2)]
    put("watched.ts", "serial.writeNumber(22)\n")
    second = [child.stdout.readline().decode() for _ in range(3)]
    child.send_signal(signal.SIGTERM)
    expect("--watch", (['0 serial "1"\n', "end 0 quiet\tnothing is left to do\n"], ["\n", '0 serial "22"\n', "end 0 quiet\tnothing is left to do\n"], 143, b""), (first, second, child.wait(60), child.stderr.read()))
    expect("--watch: what stays", set(), {it for it in set(os.listdir(tempfile.gettempdir())) - before if it.startswith("show-")})


with tempfile.TemporaryDirectory() as FOLDER:
    os.chdir(FOLDER)
    for look in (presses, held, kinds, classes, unread, pages, limits, endings):
        look()
    os.chdir("/")
print(f"show: {looked} things looked at, {wrong} wrong")
sys.exit(1 if wrong else 0)
