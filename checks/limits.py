"""Limits at their greatest allowed value and one past it, through the program sts in a folder.

    limits.py FOLDER

What is due at a limit and past it was written by hand from the rules of the documents.
"""
import json
import os
import subprocess
import sys

FOLDER = sys.argv[1]
wrong = count = 0


def write(name, content):
    with open(os.path.join(FOLDER, name), "wb") as file:
        file.write(content.encode("latin-1") if isinstance(content, str) else content)


def call(*words):
    ran = subprocess.run(["./sts", *words], cwd=FOLDER, stdout=subprocess.PIPE, stderr=subprocess.DEVNULL, timeout=60, check=False)
    return ran.returncode, ran.stdout.decode("latin-1")


def judge(what, came, due):
    global wrong, count
    count += 1
    if came != due:
        wrong += 1
        print(f"limits: {what}: {str(came)[:200]} in place of {str(due)[:200]}")


def checks(what, text, due):
    write("p.ts", text)
    status, said = call("check", "p.ts")
    judge(what, said.strip() if due == "accepted" or due.count(" ") == 3 else " ".join(said.split()[:2]), due)
    judge(f"{what}, status", status, 0 if due == "accepted" else 10)


def both(what, most, text_of, past):
    """A limit of texts: text_of gives the text that has so many."""
    checks(f"{most} {what}", text_of(most), "accepted")
    checks(f"{most + 1} {what}", text_of(most + 1), past)


def lines(n, line):
    return "".join(line.format(i) + "\n" for i in range(n))


LIMIT = "refused 15 1 1"

# texts and trees
both("bytes of a text", 65536, lambda n: ";" + " " * (n - 1), "refused 1 1 1")
both("nested trees", 256, lambda n: "- " * (n - 3) + "1", "refused 6")
both("open brackets", 64, lambda n: "(" * n + "1" + ")" * n, "refused 7 1 65")
both("a number", 4294967295, lambda n: f"serial.writeNumber({n})", "refused 4 1 20")

# names, weights and texts of a program
both("globals", 256, lambda n: lines(n, "let a{} = 0"), LIMIT)
both("classes", 64, lambda n: lines(n, "class C{} {{ }}"), LIMIT)
both("fields of a class", 30, lambda n: "class C {\n" + lines(n, "x{} = 0") + "}", LIMIT)
both("fields, those of a base among them", 30, lambda n: "class B {\n" + lines(15, "y{} = 0") + "}\nclass C extends B {\n" + lines(n - 15, "x{} = 0") + "}", LIMIT)
both("methods of a class", 30, lambda n: "class C {\n" + lines(n, "m{}(): void {{ }}") + "}", LIMIT)
both("methods, those of a base among them", 30, lambda n: "class B {\n" + lines(15, "y{}(): void {{ }}") + "}\nclass C extends B {\n" + lines(n - 15, "m{}(): void {{ }}") + "}", LIMIT)
both("parameters", 8, lambda n: f"function f({', '.join(f'a{i}: number' for i in range(n))}): void {{ }}", LIMIT)
both("parameters with this", 8, lambda n: f"class C {{ m({', '.join(f'a{i}: number' for i in range(n - 1))}): void {{ }} }}", LIMIT)
both("locals", 64, lambda n: "function f(): void {\n" + lines(n, "let a{} = 0") + "}", LIMIT)
both("values that an expression holds", 64, lambda n: "let a = 0\n" + "a += " * (n - 1) + "1", LIMIT)
both("weight of a function", 1200, lambda n: ";" * (n - 4), LIMIT)
# (a call as a statement, with numbers and texts as its arguments, and a function's name as its handler: the statement, the call, each argument, and each number that always stands in it)
CALLS = {
    2: ["input.runningTime()", "control.eventValue()"],
    3: ["basic.pause(1)", "basic.forever(h)", "basic.showLeds(`" + "." * 25 + "`)", "basic.showNumber(1)", "basic.clearScreen()", "input.buttonIsPressed(1)", "control.inBackground(h)", "control.panic(1)", "serial.writeNumber(1)", "radio.sendNumber(1)", "Math.abs(1)"],
    4: ['basic.showString("")', 'serial.writeString("a")', 'serial.writeLine("a")', "pins.digitalWritePin(1, 2)", "control.raiseEvent(1, 2)", "control.raiseNow(1, 2)", "control.waitForEvent(1, 2)", "Math.min(1, 2)", "Math.max(1, 2)"],
    5: ["led.plot(1, 2)", "led.unplot(1, 2)", "led.toggle(1, 2)", "input.onButtonPressed(1, h)", "input.onButtonPressed(Button.A, function () { ; })", "control.onEvent(1, 2, h)"],
    6: ["control.onEventFlags(1, 2, h, EventFlags.DropIfBusy)"],
}
for calls_weight, calls in CALLS.items():
    for it in calls:
        both(f"weight with {it}", 1200, lambda n: f"function h(): void {{ }}\n{it};" + ";" * (n - 4 - calls_weight), LIMIT)
both("weight of all functions", 3600, lambda n: f"function f(): void {{ {';' * 1196} }}\nfunction g(): void {{ {';' * 1196} }}\n" + ";" * (n - 2404), LIMIT)
# (the library has one text, the two bytes of a line's end)
both("bytes of texts", 16384, lambda n: f'serial.writeString("{"a" * (n - 2)}")', LIMIT)
both("bytes of distinct texts", 16384, lambda n: f'serial.writeString("{"a" * 9000}")\nserial.writeString("{"b" * (n - 9002)}")\nserial.writeString("\\r\\n")\nserial.writeString("{"a" * 9000}")', LIMIT)


# scripts
def script(end=1000, events=()):
    return json.dumps({"end": end, "events": list(events)})


def scripts(what, content, due):
    write("s.json", content)
    write("p.ts", "")
    judge(what, call("run", "p.ts", "s.json"), due)


def refused(code):
    return 11, f"script refused {code}\n"


DOWN = {"at": 0, "do": "down", "button": "A"}
scripts("the end 0", script(0), (0, "end 0 quiet\n"))
scripts("the last end", script(1073741824), (0, "end 0 quiet\n"))
scripts("past the last end", script(1073741825), refused(2))
scripts("an entry at the last end", script(1073741824, [{**DOWN, "at": 1073741824}]), (0, "end 1073741824 quiet\n"))
scripts("an entry at the end", script(7, [{**DOWN, "at": 7}]), (0, "end 7 quiet\n"))
scripts("an entry past the end", script(7, [{**DOWN, "at": 8}]), refused(4))
scripts("4096 entries", script(0, [DOWN] * 4096), (0, "end 0 quiet\n"))
scripts("4097 entries", script(0, [DOWN] * 4097), refused(5))
for name in ("source", "value"):
    event = {"at": 0, "do": "raise", "source": 1, "value": 1}
    scripts(f"the greatest {name}", script(0, [{**event, name: 65535}]), (0, "end 0 quiet\n"))
    scripts(f"past the greatest {name}", script(0, [{**event, name: 65536}]), refused(2))
scripts("the last port", script(0, [{"at": 0, "do": "unplug", "port": 3}]), (0, "end 0 quiet\n"))
scripts("past the last port", script(0, [{"at": 0, "do": "unplug", "port": 4}]), refused(2))

# files
long = script(0)
scripts("a script of 1048576 bytes", long + " " * (1048576 - len(long)), (0, "end 0 quiet\n"))
scripts("a script of 1048577 bytes", long + " " * (1048577 - len(long)), (23, "too long\n"))


# images: one that ends at once, and all of flash behind it
def record(kind, offset, payload):
    line = bytes([len(payload), offset >> 8 & 255, offset & 255, kind]) + payload
    return f":{(line + bytes([-sum(line) % 256])).hex().upper()}\n"


write("p.ts", "")
built = call("build", "p.ts")[1]
body = built[: built.rindex(":00000001FF")]
for size, due in ((131072, (0, "end 0 quiet\n")), (262144, (0, "end 0 quiet\n")), (262145, (12, "image refused 5\n"))):
    last = size - 1
    write("h.hex", body + record(4, 0, (last >> 16).to_bytes(2, "big")) + record(0, last & 65535, b"\xff") + ":00000001FF\n")
    judge(f"an image of {size} bytes", call("run-hex", "h.hex"), due)
for size, due in ((1048576, (0, "end 0 quiet\n")), (1048577, (23, "too long\n"))):
    write("h.hex", built + "\n" * (size - len(built)))
    judge(f"a HEX text of {size} bytes", call("run-hex", "h.hex"), due)
write("h.hex", body + "".join(record(4, 0, (at >> 16).to_bytes(2, "big")) + record(0, at & 65535, b"\xff" * 255) for at in range(2048, 261000, 255) if (at & 65535) + 255 <= 65536) + ":00000001FF\n")
judge("an image with nearly all of its bytes", call("run-hex", "h.hex"), (0, "end 0 quiet\n"))


# what a run may use
def runs(what, text, due, *words):
    write("p.ts", text)
    judge(what, call("run", "p.ts", *words), due)


def serial(*numbers):
    return "".join(f"0 serial {str(n).encode().hex()}\n" for n in numbers)


QUIET = "end 0 quiet\n"
SPAWN = "function w(): void {{ control.waitForEvent(60, 1) }}\nfor (let i = 0; i < {}; i++) {{ control.inBackground(w) }}"
runs("24 seats", SPAWN.format(23), (0, QUIET))
runs("a 25th seat", SPAWN.format(24), (3, "panic 0 101\n"))
LISTEN = "function h(): void {{ }}\nfor (let i = 0; i < {}; i++) {{ control.onEvent(70, 1, h) }}"
runs("32 listeners", LISTEN.format(32), (0, QUIET))
runs("a 33rd listener", LISTEN.format(33), (3, "panic 0 103\n"))
QUEUE = "control.onEventFlags(70, 0, function () {{ serial.writeNumber(control.eventValue()) }}, EventFlags.Reentrant)\nfor (let i = 1; i <= {}; i++) {{ control.raiseEvent(70, i) }}"
for raised in (32, 33):
    runs(f"{raised} events in the queue", QUEUE.format(raised), (0, serial(*range(1, 33)) + QUIET))
HELD = "control.onEvent(50, 0, function () {{ basic.pause(1); serial.writeNumber(control.eventValue()) }})\nfor (let i = 1; i <= {}; i++) {{ control.raiseEvent(50, i) }}"
for raised in (11, 12):
    runs(f"{raised - 1} events to hold", HELD.format(raised), (0, "".join(f"{i} {serial(i)[2:]}" for i in range(1, 12)) + "end 11 quiet\n"))
RAISE = "let n = 0\ncontrol.onEventFlags(81, 1, function () {{ n = n + 1; if (n < {}) {{ control.raiseNow(81, 1) }} }}, EventFlags.Reentrant)\ncontrol.raiseNow(81, 1)\nserial.writeNumber(n)"
runs("32 raisers", RAISE.format(32), (0, serial(32) + QUIET))
runs("a 33rd raiser", RAISE.format(33), (3, "panic 0 106\n"))
ARENA = "class C {{ x = 0 }}\nfor (let i = 0; i < {}; i++) {{ new C() }}"
runs("2816 words of the arena", ARENA.format(1408), (0, QUIET))
runs("past the arena", ARENA.format(1409), (3, "panic 0 20\n"))
runs("the greatest budget", "", (0, QUIET), "--budget", "2147483648")
runs("past the greatest budget", "", (2, "usage\n"), "--budget", "2147483649")
runs("the least budget", "", (4, "budget 0\n"), "--budget", "1")
runs("no budget", "", (2, "usage\n"), "--budget", "0")
judge("the most functions of big", call("big", "200")[0], 0)
judge("past the most functions of big", call("big", "201"), (2, "usage\n"))

print(f"limits: {count} answers, {wrong} wrong")
sys.exit(1 if wrong else 0)
