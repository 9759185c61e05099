"""The rows, long transcripts, pages and sentences of checks/view.sh."""
import html
import os
import random
import re
import subprocess
import sys
import tempfile
import time

import browser
import page

PROGRAM, TOP, OF_ROWS = sys.argv[1], page.TOP, sys.argv[2:] == ["--rows"]
failed = []


def expect(what, wanted, came):
    if wanted != came:
        failed.append(f"{what}\n    wanted {wanted!r}\n    came   {came!r}")


def view(words, given):
    ran = subprocess.run([PROGRAM, *words], input=given, stdout=subprocess.PIPE, stderr=subprocess.DEVNULL, timeout=60, check=False)
    return ran.returncode, ran.stdout


def bytes_of(text):
    return re.sub(rb"\\(x[0-9a-fA-F]{2}|.)", lambda it: bytes([int(it[1][1:], 16)]) if len(it[1]) == 3 else {b"n": b"\n", b"t": b"\t", b"r": b"\r", b"\\": b"\\"}[it[1]], text.encode())


def rows():
    count = 0
    with open(f"{TOP}/checks/view.txt", encoding="utf-8") as file:
        text = "".join(line for line in file if not line.startswith("#"))
    for row in text.strip("\n").split("\n\n"):
        part = dict(re.match(r"(\w+): ?(.*)", line, re.S).groups() for line in row.strip("\n").split("\n"))
        named = next((it for it in ("program", "input") if it in part), None)
        with tempfile.NamedTemporaryFile() as refused:
            refused.write(bytes_of(part.get(named, "")))
            refused.flush()
            status, wrote = view(part["words"].split() + [f"--{named}", refused.name] * bool(named), bytes_of(part["reads"]))
        expect(f"{row}", (int(part.get("status", 0)), bytes_of(part["writes"])), (status, wrote))
        count += 1
    return count


def table(document, heading):
    text = open(f"{TOP}/docs/{document}", encoding="utf-8").read()
    lines = text[text.index(heading):].split("\n")[1:]
    begin = next(i for i, line in enumerate(lines) if line.startswith("|"))
    found = []
    for line in lines[begin:]:
        if not line.startswith("|"):
            break
        found.append([it.strip().replace("\\|", "|") for it in re.split(r"(?<!\\)\|", line.strip().strip("|"))])
    return found[2:]


def sentences():
    """Each sentence of a document for a code, as view says it."""
    wanted = {}
    for row in table("TEACHERS.md", "## Panic codes"):
        if row[0].isdigit():
            wanted[f"panic 1 {row[0]}"] = f"{row[1]}: {row[2]}"
    for heading in ("**What is refused**", "## What `check` refuses", "## What names, types and limits refuse"):
        for code, text, _, _, change in table("LANGUAGE.md", heading):
            if code.isdigit() and change != "as above":
                wanted.setdefault(f"refused {code} 1 1", (f"the text {text}" if text.split()[0] in ("has", "is", "spells") else text) + f": {change}")
    for row in table("FORMATS.md", "### Refusals"):
        wanted[f"script refused {row[0]}"] = "the script: " + row[2].replace(" above", " of docs/FORMATS.md", 1 if "form above" in row[2] else 0)
    text = open(f"{TOP}/docs/FORMATS.md", encoding="utf-8").read()
    for row in re.findall(r"^\| (\d) \| \w+ \| ([^|]*) \|", text[text.index("## Class files"):text.index("## Arrivals")], re.M):
        wanted[f"class refused {row[0]}"] = "the class file: " + row[1].strip().replace("form above", "form of docs/FORMATS.md")
    for row in re.findall(r"^\| (\d) \| \w+ \| ([^|]*) \|", text[text.index("## Arrivals"):text.index("## Schemas")], re.M):
        wanted[f"arrivals refused {row[0]}"] = "the arrivals: " + row[1].strip().replace("form above", "form of docs/FORMATS.md")
    for row in reversed(table("FORMATS.md", "### Why a text is refused")):
        wanted[f"image refused {row[0]}"] = f"the HEX file breaks a rule: {row[2]}"
    for line, sentence in wanted.items():
        expect(f"what is said of {line}", f"{line}\t{sentence}\n", view([], f"{line}\n".encode())[1].decode())
    return len(wanted) + own_panics(wanted) + closings()


def own_panics(wanted):
    """What is said of the panics that no table names, as 120, which ends like 20: that they are the program's own."""
    (own,) = [row[1] for row in table("TEACHERS.md", "## Panic codes") if row[0] == "another"]
    lines = [it for it in (f"panic 1 {code}" for code in range(256)) if it not in wanted]
    expect("what is said of other panics", [f"{it}\t{own}" for it in lines], view(["--all"], "".join(f"{it}\n" for it in lines).encode())[1].decode().split("\n")[:-1])
    return len(lines)


def closings():
    """What is said of a closing line, and where nothing is run: each part of the sentence stands in the entry of docs/TEACHERS.md that begins with the line."""
    text = open(f"{TOP}/docs/TEACHERS.md", encoding="utf-8").read()
    rows = {line: " ".join(rest.split()) for line, rest in re.findall(r"(?m)^- (`[^`]*`), status \d+((?:.*\n)(?:  .*\n)*)", text)}
    rows |= {f"`panic T {row[0]}`": row[1] for row in table("TEACHERS.md", "## Panic codes")}
    wanted = {"end 5 quiet": "`end T quiet`", "end 5 script": "`end T script`", "budget 5": "`budget T`", "fault 5 1 0000000c": "`fault T K A`", "panic 5 7": "`panic T another`", "usage": "`usage`"}
    wanted |= {it: f"`{it}`" for it in ("missing", "too long", "folder failed")}
    for line, row in wanted.items():
        wrote = view([], f"{line}\n".encode())[1].decode().rstrip("\n")
        said = wrote.partition("\t")[2] or wrote.rpartition("  | ")[2]
        expect(f"what is said of {line}, by its parts", (True, []), (bool(said), [part for part in re.split(": |; ", said) if part.lower() not in rows[row].lower()]))
    return len(wanted)


def long_transcripts():
    """Long moments, whose middle is left out, and transcripts past the limits: what is shown of them, and in how much memory."""
    count = 0
    for moment, number in (("7", 40), ("7", 41), ("3 12", 100), ("7", 90_000)):
        lines = [f"{moment} radio {i}" for i in range(number)]
        given = "\n".join([*lines, f"{moment.split()[-1]} pin 0 1", "end 9 quiet"] if " " in moment else [*lines, "8 pin 0 1", "end 9 quiet"]).encode()
        wrote = view([], given)[1].decode().split("\n")
        left = [*lines[:10], *lines[-10:]]
        shown = [it for it in wrote if " radio " in it]
        expect(f"{number} lines of {moment}: those that stand", lines if number <= 40 else left, shown)
        told = [it.split("\t")[0] for it in wrote if " left out " in it.split("\t")[0]]
        expect(f"{number} lines of {moment}: how many are left out", [] if number <= 40 else [f"{moment} left out {number - 20}"], told)
        expect(f"{number} lines of {moment}: the last line comes first too", "end 9 quiet" if number > 40 else lines[0], wrote[0].split("\t")[0])
        expect(f"{number} lines of {moment}: by --all", [*lines, wrote[-3].split("\t")[0], "end 9 quiet"], [it.split("\t")[0] for it in view(["--all"], given)[1].decode().split("\n")[:-1]])
        count += 4
    return count + (limits() if not OF_ROWS else 0)


def limits():
    """A transcript of 70 MB, of which 64 MB are read, as a text and as a page, and how much memory that takes."""
    with tempfile.TemporaryDirectory() as folder:
        file = f"{folder}/many.txt"
        with open(file, "w", encoding="ascii") as out:
            for i in range(1100):
                out.write(f"{i} serial {'c3bcff41' * 8000}\n")
        for words, most in ((["--width", "80"], 200_000_000), (["--html"], 5_000_000)):
            ran = subprocess.run(["/usr/bin/env", "python3", "-c", MEASURED, PROGRAM, *words, file], stdout=subprocess.PIPE, stderr=subprocess.PIPE, timeout=600, check=False)
            kilobytes, size, last = ran.stdout.decode().split("\n")[:3]
            expect(f"70 MB, {words}: the memory in MB", True, int(kilobytes) < 300_000)
            expect(f"70 MB, {words}: the bytes written", True, int(size) <= most)
            expect(f"70 MB, {words}: that the rest is left out", True, "the rest is left out" in last)
            print(f"70 MB by {' '.join(words)}: {int(kilobytes) // 1000} MB of memory, {int(size)} bytes written")
    return 6


# Runs a program with words, and writes its memory in KB, how many bytes it wrote, and the last of them.
MEASURED = "import resource, subprocess, sys; r = subprocess.run(sys.argv[1:], stdout=subprocess.PIPE); t = r.stdout; print(resource.getrusage(resource.RUSAGE_CHILDREN).ru_maxrss); print(len(t)); print(t[-30000:].replace(b'\\n', b' ').decode('utf-8', 'replace'))"


def page_of(folder, name, transcript, words=()):
    status, wrote = view(["--html", *words], transcript)
    expect(f"the page of {name}: status", 0, status)
    file = f"{folder}/{name}.html"
    with open(file, "wb") as out:
        out.write(wrote)
    return file


def frames_in(transcript):
    return [(int(t), rows) for t, rows in re.findall(r"^(\d+) display (\S+)$", transcript.decode(), re.M)]


def at_moment(frames, moment):
    return next((rows for t, rows in reversed(frames) if t <= moment), "/".join(["....."] * 5))


def fetched(log):
    """The addresses that Chromium asked for, but for files and its own."""
    text = open(log, encoding="utf-8", errors="replace").read()
    return sorted({it for it in re.findall(r'"url":"(https?://[^"]*|ftp:[^"]*|wss?:[^"]*)"', text) if "google" not in it and "gvt1" not in it})


def pages():
    game = open(f"{TOP}/examples/game.txt", "rb").read()
    script = b"<script>document.title='taken'</script><img src=http://example.org/x onerror=document.title='taken'>"
    serial = b"5 serial " + script.hex().encode() + b"\n" + script + b"\n7 display #####/...../...../...../.....\nend 9 quiet\n"
    many = b"".join(b"%d display %s\n" % (20 * i, b"/".join(bytes(random.Random(i * 5 + r).choice(b"#.") for _ in range(5)) for r in range(5))) for i in range(10_000)) + b"end 200000 script\n"
    moments = 0
    with tempfile.TemporaryDirectory() as folder:
        for name, transcript in (("game", game), ("serial", serial), ("many", many)):
            file, frames = page_of(folder, name, transcript), frames_in(transcript)
            end = frames[-1][0] + 10
            for i in range(10):
                moment = end * i // 9
                log = f"{folder}/{name}-{i}.log"
                begun = time.time()
                text = page.dom(file, moment, log if i == 0 else None)
                took = time.time() - begun
                expect(f"{name}: the lights at {moment} ms", at_moment(frames, moment), page.lights(text))
                expect(f"{name}: its title", "A run of the board", re.search(r"<title>(.*?)</title>", text)[1])
                if i == 0:
                    expect(f"{name}: what was fetched", [], fetched(log))
                    if name == "serial":
                        expect("the serial text", html.escape(script.decode(), quote=False), "".join(re.findall(r"<span[^>]*>(&lt;script.*?)</span>", text, re.S)))
                    print(f"the page of {name}, {os.path.getsize(file)} bytes: {took:.1f} s from Chromium's start to its end")
                moments += 1
            if name == "many":
                seconds = min(opens(file) for _ in range(3))
                expect("a page of 10,000 pictures opens within two seconds", True, seconds <= 2)
                print(f"the page of {name} was open after {seconds:.2f} s")
    return moments


def opens(file):
    with browser.Browser(file, 1000, 700) as it:
        return it.seconds


def class_page():
    """The page of two boards: each has its own lights, and the words of radio stand between them."""
    first, second = "#####/#...#/#...#/#...#/#####", ".#.#./#####/#####/.###./..#.."
    transcript = f"0 0 display {first}\n1 5 display {first}\n0 100 radio 7\n1 101 display {second}\n1 300 radio -3\n0 end 400 script\n1 end 400 script\n".encode()
    with tempfile.TemporaryDirectory() as folder:
        file = page_of(folder, "class", transcript)
        for moment, lights, words in ((0, (first, "/".join(["....."] * 5)), 0), (50, (first, first), 0), (200, (first, second), 1), (400, (first, second), 2)):
            text = page.dom(file, moment)
            expect(f"class: the lights at {moment} ms", lights, (page.lights(text, 0), page.lights(text, 1)))
            expect(f"class: the words of radio at {moment} ms", words, len(re.findall(r"<li>\d+ ms, board \d: -?\d+</li>", text)))
    return 4


def stepped(transcript, lines):
    """The picture after so many lines of a transcript of one board."""
    return at_moment([(0, rows) for rows in re.findall(r"^\d+ display (\S+)$", "\n".join(transcript.decode().split("\n")[:lines]), re.M)], 0)


def moment_of(it):
    return int(it.value("document.getElementById('now').textContent").split()[0])


def contrast(it, selector):
    """How an element's letters stand out from the page, as the guidelines for accessible pages count it."""
    def light(colour):
        parts = [int(part) / 255 for part in re.findall(r"\d+", colour)[:3]]
        return sum(weight * (part / 12.92 if part <= 0.03928 else ((part + 0.055) / 1.055) ** 2.4) for weight, part in zip((0.2126, 0.7152, 0.0722), parts))
    ink, back = light(it.value(f"getComputedStyle(document.querySelector('{selector}')).color")), light(it.value("getComputedStyle(document.body).backgroundColor"))
    return (max(ink, back) + 0.05) / (min(ink, back) + 0.05)


def is_narrow(it):
    """Whether nothing of the page is wider than the window."""
    return it.value("document.documentElement.scrollWidth <= document.documentElement.clientWidth && [...document.querySelectorAll('button, input, select, .lights, .strip, pre, .pin')].filter((it) => !it.closest('.inner')).every((it) => it.getBoundingClientRect().right <= document.documentElement.clientWidth)")


def settled_moment(it):
    """The moment that the page shows, once it stays."""
    before, now = None, moment_of(it)
    while now != before:
        time.sleep(0.2)
        before, now = now, moment_of(it)
    return now


def by_keys(it, transcript, frames, end):
    """Steps, plays and moves along by keys alone."""
    for lines in range(1, 6):
        it.key("ArrowRight")
        expect(f"keys: the lights after {lines} steps", stepped(transcript, lines), it.lights())
    for lines in range(4, 2, -1):
        it.key("ArrowLeft")
        expect(f"keys: the lights after steps back to {lines}", stepped(transcript, lines), it.lights())
    before = settled_moment(it)
    it.key(" ")
    expect("keys: it plays", "Pause", it.value("document.getElementById('play').textContent"))
    until = time.time() + 60
    while moment_of(it) <= before and time.time() < until:
        time.sleep(0.05)
    it.key(" ")
    stopped = moment_of(it)
    time.sleep(0.3)
    expect("keys: it plays on, and stops", (True, "Play", stopped), (stopped > before, it.value("document.getElementById('play').textContent"), moment_of(it)))
    expect("keys: the lights where it stopped", at_moment(frames, stopped), it.lights())
    reached = []
    for _ in range(5 + len(frames) + 1):
        it.key("Tab")
        at = it.value("(() => { const it = document.activeElement, style = getComputedStyle(it); return [it.id || it.className || it.tagName, style.outlineStyle, parseFloat(style.outlineWidth)]; })()")
        expect(f"keys: {at[0]} is seen to have the focus", (True, True), (at[1] != "none", at[2] >= 2))
        reached.append(at[0])
    expect("keys: what Tab reaches", ["back", "play", "on", "time", "speed"] + ["frame"] * len(frames) + ["PRE"], reached)
    it.key("Tab", shift=True)
    it.key("Enter")
    expect("keys: the last picture is chosen", (frames[-1][1], frames[-1][0]), (it.lights(), moment_of(it)))
    it.value("document.getElementById('time').focus()")
    it.key("Home")
    expect("keys: the beginning", (0, at_moment(frames, 0)), (moment_of(it), it.lights()))
    it.key("End")
    expect("keys: the end", (end, frames[-1][1]), (moment_of(it), it.lights()))


def by_pointer(it, frames, end):
    it.value("window.scrollTo(0, 0)")
    left, width, y = it.value("(() => { const at = document.getElementById('time').getBoundingClientRect(); return [at.x, at.width, at.y + at.height / 2]; })()")
    it.drag(left + width - 10, left + width / 2, y)
    expect("pointer: the time line dragged to its middle", (True, True), (abs(moment_of(it) - end / 2) < end / 10, at_moment(frames, moment_of(it)) == it.lights()))
    it.click(".frame")
    expect("pointer: the first picture", frames[0][1], it.lights())


def used():
    """A page used by keys and pointer, and looked at in a narrow window, dark and light; that of a class, whose boards stand side by side where there is room."""
    counter, count = open(f"{TOP}/examples/counter.txt", "rb").read(), 0
    frames = frames_in(counter)
    pair = b"0 0 display #####/#...#/#...#/#...#/#####\n0 0 radio 5\n1 1 serial 35\n1 1 pin 0 1\n0 panic 7 105\n1 end 9 quiet\n"
    with tempfile.TemporaryDirectory() as folder:
        of_counter, of_pair = page_of(folder, "counter", counter), page_of(folder, "pair", pair)
        for scheme in ("light", "dark"):
            with browser.Browser(of_counter, 320, 640, scheme) as it:
                expect(f"{scheme}: as wide as the window", True, is_narrow(it))
                expect(f"{scheme}: what can be read", [True] * 4, [contrast(it, selector) >= 4.5 for selector in ("h1", "button", ".later", "#now")])
                expect(f"{scheme}: the page's colour", scheme == "dark", it.value("getComputedStyle(document.body).backgroundColor") == "rgb(22, 23, 26)")
                by_keys(it, counter, frames, 2500)
                by_pointer(it, frames, 2500)
                expect(f"{scheme}: what was asked for, and what went wrong", ([f"file://{of_counter}"], []), (it.asked, it.told))
                count += 1
        for width, side_by_side in ((320, False), (900, True)):
            with browser.Browser(of_pair, width, 700) as it:
                places = it.value("[...document.querySelectorAll('.board')].map((it) => { const at = it.getBoundingClientRect(); return [at.x, at.y]; })")
                expect(f"class: the boards in {width} columns", (2, side_by_side, not side_by_side), (len(places), places[0][1] == places[1][1], places[0][0] == places[1][0]))
                expect(f"class: as wide as the window of {width}", True, is_narrow(it))
                it.key("ArrowRight")
                it.key("ArrowRight")
                expect("class: the word of radio, and the first board's lights", (["0 ms, board 0: 5"], "#####/#...#/#...#/#...#/#####"), (it.value("[...document.querySelectorAll('#radio li')].map((it) => it.textContent)"), it.lights()))
                it.value("document.getElementById('time').focus()")
                it.key("End")
                expect("class: how the boards ended", ["0 panic 7 105", "1 end 9 quiet"], it.value("[...document.querySelectorAll('.closing')].map((it) => it.textContent)"))
                count += 1
    return count


def told():
    """What the page says, as the terminal does: the title, presses on buttons and pins that go down, sentences, an explanation; and a moment with many pictures."""
    pressed = b"100 button A goes down\n180 button A goes up\n180 serial e280aec3bc0a\n200 event 101 1\n300 pin 2 1\n400 button B goes down\n400 event 101 2\npanic 500 105\n"
    flood = b"".join(b"0 display %s/...../...../...../.....\n" % (b"#....", b".....")[i % 2] for i in range(90_000)) + b"budget 0\n"
    count = 0
    with tempfile.TemporaryDirectory() as folder:
        file = page_of(folder, "pressed", pressed, ["--title", "caf\u00e9 <b>.ts"])
        with browser.Browser(file, 1000, 700) as it:
            down = "[...document.querySelectorAll('.down')].map((it) => it.dataset.key).join()"
            states = [it.value(down)]
            for _ in range(7):
                it.key("ArrowRight")
                states.append(it.value(down))
            expect("pressed: what is down, line by line", ["", "A", "", "", "P1", "P1", "B,P1", "B"], states)
            expect("pressed: the pin that is high", "P2", it.value("document.querySelector('.high').dataset.key"))
            expect("pressed: the title", ["caf\u00e9 <b>.ts"] * 2, [it.value("document.title"), it.value("document.getElementById('name').textContent")])
            expect("pressed: presses on the time line", "Presses: A from 100 ms, P1 from 200 ms, B from 400 ms", it.value("document.getElementById('presses').getAttribute('aria-label')"))
            expect("pressed: strokes on the time line", 2, it.value("document.querySelectorAll('#presses path').length"))
            expect("pressed: the serial text, its mark of direction as a number", "\\u202e\u00fc\n", it.value("document.querySelector('.rest pre').textContent"))
            it.value("document.getElementById('time').focus()")
            it.key("End")
            expect("pressed: how it ended", ["panic 500 105", "something is used that is `null`: make it with `new`, a list by `= []` and a text by `= \"\"`, before it is used; test `!= null`"], it.value("['closing', 'says'].map((it) => document.querySelector('.' + it).textContent)"))
            expect("pressed: the speeds", "0.0625", it.value("document.getElementById('speed').options[0].value"))
            expect("pressed: what went wrong", [], it.told)
            count += 9
        with open(f"{folder}/wrong.ts", "w", encoding="utf-8") as out:
            out.write("led.plot(1 2)\n")
        file = page_of(folder, "wrong", b"refused 6 1 12\n", ["--title", "wrong.ts", "--program", f"{folder}/wrong.ts"])
        with browser.Browser(file, 1000, 700) as it:
            expect("wrong: the explanation", ["refused 6 1 12", "A comma is missing between two arguments.\n    led.plot(1 2)\n               ^\nfor example: led.plot(1, 2)"], it.value("[...document.querySelectorAll('#told *')].map((it) => it.textContent)"))
            expect("wrong: what went wrong", [], it.told)
            count += 2
        for words, most, pictures in (((), 30_000, "Pictures: 90000"), (("--all",), 5_000_000, "Pictures: 90000")):
            file = page_of(folder, "flood", flood, words)
            expect(f"flood {words}: the bytes of the page", True, os.path.getsize(file) <= most)
            seconds = min(opens(file) for _ in range(3))
            expect(f"flood {words}: it opens within a second", True, seconds <= 1 or bool(words))
            with browser.Browser(file, 1000, 700) as it:
                expect(f"flood {words}: one picture stands for all", ["90000 at 0 ms"], it.value("[...document.querySelectorAll('.frame')].map((it) => it.textContent)"))
                expect(f"flood {words}: how many there are", pictures, it.value("document.querySelector('.rest h2').textContent"))
                it.value("document.getElementById('time').focus()")
                it.key("End")
                expect(f"flood {words}: the sentence", "the program wasn't done", it.value("document.querySelector('.says').textContent").partition(":")[0])
            print(f"the page of a flood {' '.join(words)}, {os.path.getsize(file)} bytes, was open after {seconds:.2f} s")
            count += 5
        many = b"".join(b"%d display %s\n" % (i, (b"#..../...../...../...../.....", b"...../...../...../...../.....")[i % 2]) for i in range(5000)) + b"end 5000 quiet\n"
        with browser.Browser(page_of(folder, "many", many), 1000, 700) as it:
            expect("5,000 pictures: how many are drawn", "Pictures: 5000, of which 2000 are drawn", it.value("document.querySelector('.rest h2').textContent"))
            expect("5,000 pictures: how wide the strip is", 128_000, it.value("document.querySelector('.inner').offsetWidth"))
            count += 2
    return count


def main():
    count = rows()
    said = sentences()
    if subprocess.run([sys.executable, f"{TOP}/checks/page.py"], check=False).returncode:
        failed.append("the policy of the page")
    count += long_transcripts()
    looked = pages() + class_page() + used() + told() if page.chromium() and not OF_ROWS else 0
    for it in failed:
        print(it)
    if failed:
        sys.exit(f"{len(failed)} differ")
    print(f"{count} rows, {said} sentences and {looked} looks at pages are as wanted")
    if not looked and not OF_ROWS:
        print("there is no chromium, so no page was looked at")
        sys.exit(77)


main()
