"""The page of bin/play in headless Chromium: see play_page.sh."""
import contextlib
import http.server
import json
import os
import random
import re
import statistics
import subprocess
import sys
import tempfile
import threading
import time

import page
from browser import Browser

TOP = page.TOP
COUNTER = open(f"{TOP}/examples/counter.ts", encoding="utf-8").read()
wrong = 0
tries = 0


def look(holds, what):
    global wrong, tries
    tries += 1
    if not holds:
        wrong += 1
        print(what)


class Page(Browser):
    """The page, and what a reader does with it."""

    def wait(self, expression, what, seconds=20):
        begun = time.time()
        while not self.value(expression):
            if time.time() - begun > seconds:
                look(False, f"waited in vain: {what}")
                return False
            time.sleep(0.02)
        return True

    def text(self, selector):
        return self.value(f"document.querySelector({json.dumps(selector)}).textContent")

    def put(self, text):
        """Puts a text in the place of the program's, as typing does."""
        self.value("document.getElementById('text').focus(), document.getElementById('text').select()")
        self.call("Input.insertText", text=text)

    def quiet(self):
        self.wait("!busy && !again", "a run that ends")
        time.sleep(0.25)
        self.wait("!busy && !again", "a run that ends")

    def press(self, name, seconds=0.05):
        words = {"key": name, "code": f"Key{name.upper()}", "windowsVirtualKeyCode": ord(name.upper())}
        self.call("Input.dispatchKeyEvent", type="rawKeyDown", **words)
        time.sleep(seconds)
        self.call("Input.dispatchKeyEvent", type="keyUp", **words)


class Served:
    """bin/play over two files of a folder, which needn't be there."""

    def __init__(self, folder):
        self.program, self.script = f"{folder}/mine.ts", f"{folder}/mine.json"
        self.runs = subprocess.Popen([f"{TOP}/bin/play", self.program, self.script, "--no-browser"], stdout=subprocess.PIPE, text=True)
        self.url = self.runs.stdout.readline().strip()

    def __enter__(self):
        return self

    def __exit__(self, *_):
        self.runs.send_signal(2)
        self.runs.wait(30)


def used(served):
    with Page(served.url, 1280, 900) as it:
        it.wait("sums.program !== ''", "the files")
        look(it.value("document.getElementById('text').value") == "", "a program that isn't there has a text")
        it.put(COUNTER)
        it.quiet()
        look(it.value("mark") is None, "the program is refused")
        it.put(COUNTER.replace("let count = 0", "let count = 0 0"))
        it.wait("!document.getElementById('refusal').hidden", "a refusal")
        look("line 2" in it.text("#goto"), f"the place is told as {it.text('#goto')}")
        look(len(it.text("#sentence")) > 10, "no sentence is told")
        look(it.value("document.querySelectorAll('#shown .row.bad').length") == 1, "the line isn't marked")
        it.put(COUNTER)
        it.wait("document.getElementById('refusal').hidden", "a program that is mended")
        it.quiet()
        it.value("document.activeElement.blur()")
        it.click("#a")
        it.wait("answer.lines.some((one) => one.kind === 'display')", "a picture after the first press")
        it.wait("document.querySelectorAll('.light.on').length > 0", "lights after the first press")
        first = it.lights()
        it.press("a")
        it.wait("answer.lines.filter((one) => one.kind === 'serial').length >= 4", "what is written after the second press")
        time.sleep(0.3)
        look(it.lights() != first, "the second press changes nothing")
        look(it.value("broken") == 0, "what was shown has changed")
        look(it.value("events.length") == 4, f"two presses are {it.value('events.length')} entries")
        it.click("#play")
        time.sleep(0.1)
        it.click("#savescript")
        it.wait("document.getElementById('state').textContent.startsWith('saved')", "a script that is saved")
        it.click("#save")
        it.wait("document.getElementById('state').textContent === 'saved: the program'", "a program that is saved")
        look(open(served.program, encoding="utf-8").read() == COUNTER, "the program's file is another")
        ran = subprocess.run([f"{TOP}/bin/sts", "run", served.program, served.script], stdout=subprocess.PIPE, stderr=subprocess.DEVNULL, text=True, check=False)
        shown = it.text("#transcript").split("\n")
        lines = [row for row in ran.stdout.split("\n") if row and not row.startswith("end ")]
        look(ran.returncode == 0 and len(lines) >= 4 and shown[:len(lines)] == lines, f"sts writes {lines}, and the page has shown {shown}")
        it.click("#rewind")
        look(it.value("time") == 0 and it.lights() == "/".join(["....."] * 5), "rewound, the lights aren't dark")
        it.put('serial.writeString("<img src=x onerror=\\"document.title=1\\"></pre><script>document.title=2</script>")\n')
        it.quiet()
        it.click("#play")
        it.wait("document.getElementById('serial').textContent.includes('<img src=x')", "a text from the serial port")
        look(it.value("document.querySelectorAll('img').length") == 0 and it.value("document.title") == "Play: the board", "a program's text is taken for markup")
        told = [one for one in it.told if "status of 404" not in one]  # (files that aren't there yet)
        look(not told, f"the page tells {told}")
        look(all(one.startswith(served.url.split("#")[0]) for one in it.asked), f"the page asks for {it.asked}")


def picture_at(lines, moment):
    """The lights and the serial port's text that lines show at a moment."""
    before = [(kind, rest) for at, kind, rest in lines if at <= moment]
    lights = [rest for kind, rest in before if kind == "display"]
    return [lights[-1].replace("/", "") if lights else "." * 25, bytes.fromhex("".join(rest for kind, rest in before if kind == "serial")).decode()]


def pressed(served):
    """What was shown stays as it was, whatever is pressed; and how long a click takes."""
    chance = random.Random(72)
    with Page(served.url, 1280, 900) as it:
        it.wait("sums.program !== ''", "the files")
        it.put(open(f"{TOP}/examples/game.ts", encoding="utf-8").read())
        it.quiet()
        it.value("document.activeElement.blur()")
        it.click("#anew")
        it.quiet()
        seen = []
        for _ in range(200):
            chance.choice([lambda: it.press("a", 0), lambda: it.press("b", 0.01), lambda: it.click("#a"), lambda: it.click("#ab")])()
            seen.append(it.value("[parseInt(document.getElementById('now').textContent), [...document.querySelectorAll('.light')].map((one) => one.classList.contains('on') ? '#' : '.').join(''), document.getElementById('serial').textContent]"))
        it.quiet()
        last = it.value("answer.lines.map((one) => [one.at, one.kind, one.rest])")
        changed = [(moment, *was) for moment, *was in seen if was != picture_at(last, moment)]
        look(not changed and len({lights for _, lights, _ in seen}) > 3, f"what was shown behind 200 presses is another at the end, {len(changed)} times: {changed[:3]}")
        look(it.value("broken") == 0, f"what was shown has changed, {it.value('broken')} times")
        look(it.value("events.length") > 300, f"200 presses are {it.value('events.length')} entries")
        times = []
        for _ in range(20):
            before = it.value("performance.now()")
            it.press("a", 0)
            it.wait("!busy && !again", "a run that ends")
            times.append(it.value("performance.now()") - before)
        print(f"play_page: a press is answered in {statistics.median(times):.0f} ms in the middle, by Chromium's protocol")


# What a page of another origin tries, with the key and without it: each gives "answered", or why it isn't.
TRIES = """(async (target, key) => {
    const bears = { "X-Play": key }, text = (it) => { if (!it.ok) throw new Error("status " + it.status); return it.text(); };
    const loads = (name, where, words) => new Promise((yes, no) => { const it = document.createElement(name); it.onload = yes; it.onerror = () => no(new Error("not loaded")); Object.assign(it, words); it[where] = target + "/"; document.body.append(it); });
    const tries = {
        "the page is read": () => fetch(target + "/").then(text),
        "a file is read": () => fetch(target + "/program").then(text),
        "a file is read with the key": () => fetch(target + "/program", { headers: bears }).then((it) => { if (it.status !== 404) throw new Error("status " + it.status); }),
        "a run": () => fetch(target + "/run/3/1000", { method: "POST", body: "let" }).then(text),
        "a run with the key": () => fetch(target + "/run/3/1000", { method: "POST", headers: bears, body: "let" }).then(text),
        "a run that isn't read": () => fetch(target + "/run/3/1000", { method: "POST", mode: "no-cors", headers: bears, body: "let" }).then((it) => { if (it.type !== "opaque") throw new Error("status " + it.status); }),
        "a save": () => fetch(target + "/save/program", { method: "POST", headers: { "X-Sum": "none" }, body: "stolen" }).then(text),
        "a save that isn't read": () => fetch(target + "/save/program", { method: "POST", mode: "no-cors", headers: { ...bears, "X-Sum": "none" }, body: "stolen" }).then((it) => { if (it.type !== "opaque") throw new Error("status " + it.status); }),
        "a save with the key": () => fetch(target + "/save/script", { method: "POST", headers: { ...bears, "X-Sum": "none" }, body: "stolen" }).then(text),
        "an image": () => loads("img", "src", {}),
        "a script": () => loads("script", "src", {}),
        "a style": () => loads("link", "href", { rel: "stylesheet" }),
        "a socket": () => new Promise((yes, no) => { const it = new WebSocket(target.replace("http", "ws") + "/"); it.onopen = yes; it.onerror = () => no(new Error("not open")); }),
    };
    const came = {};
    for (const name in tries) came[name] = await tries[name]().then(() => "answered", (error) => String(error));
    return came;
})"""


class Foreign(http.server.BaseHTTPRequestHandler):
    """A page of another origin, with a form that posts and a frame that shows what the other origin has."""

    def do_GET(self):
        self.send_response(200)
        self.send_header("Content-Type", "text/html")
        self.end_headers()
        self.wfile.write(b"<!doctype html><title>foreign</title><body><p>foreign</p></body>")

    def log_message(self, *_):
        return


@contextlib.contextmanager
def elsewhere():
    """The address of a page of another origin."""
    serves = http.server.ThreadingHTTPServer(("127.0.0.1", 0), Foreign)
    threading.Thread(target=serves.serve_forever, daemon=True).start()
    try:
        yield f"http://127.0.0.1:{serves.server_address[1]}/"
    finally:
        serves.shutdown()


def tried(it, target, key):
    words = f"{TRIES}({json.dumps(target)}, {json.dumps(key)})"
    return it.call("Runtime.evaluate", expression=words, awaitPromise=True, returnByValue=True)["result"].get("value", {})


def strangers(served):
    """A page of another origin gets nothing and changes nothing, though it has the key; nor does one that names the listener by another host. The page's own origin gets by the same means what the key gives."""
    target, key = served.url.split("/#")
    with elsewhere() as url, Page(url, 800, 600) as it:
        came = tried(it, target, key)
        look(len(came) == 13 and "answered" not in came.values(), f"a foreign page gets {[name for name in came if came[name] == 'answered']} of {len(came)}")
        it.value(f"document.body.insertAdjacentHTML('beforeend', '<iframe name=f id=f src=\"{target}/#{key}\"></iframe>')")
        it.wait("document.getElementById('f').contentDocument === null", "a frame of another origin")
        time.sleep(0.5)
        look(any("frame-ancestors" in one for one in it.told), "a foreign page frames the page")
        it.value(f"document.body.insertAdjacentHTML('beforeend', '<form id=p method=post enctype=text/plain target=f action=\"{target}/save/program\"><input name=stolen value=1></form>'), document.getElementById('p').submit()")
        time.sleep(0.5)
        look(sum(one == f"{target}/save/program" for one in it.asked) >= 3, f"the form wasn't sent: {it.asked[-4:]}")
    look(not os.path.exists(served.program) and not os.path.exists(served.script), "a foreign page has written a file")
    named = target.replace("127.0.0.1", "play.example")
    with Page(f"{named}/#{key}", 800, 600, words=("--host-resolver-rules=MAP play.example 127.0.0.1",)) as it:
        look(any(one.startswith(named) for one in it.asked) and it.value("document.querySelector('#text') === null") is True, "another name for this machine is answered by the page")
    with Page(served.url, 800, 600) as it:
        it.wait("sums.program !== ''", "the files")
        came = tried(it, target, key)
        own = ["the page is read", "a file is read with the key", "a run with the key", "a save with the key"]
        look([name for name in came if came[name] == "answered"] == own, f"the page's own origin gets {came}")
    for name in (served.program, served.script):
        with contextlib.suppress(FileNotFoundError):
            os.remove(name)


def lesson(served):
    """The lesson of docs/TEACHERS.md: its programs are typed, pressed and seen."""

    def typed(it, name):
        with open(f"{TOP}/examples/lesson/{name}.ts", encoding="utf-8") as file:
            it.put(file.read())
        it.quiet()
        look(it.value("mark") is None, f"lesson: {name} is refused")
        it.value("document.activeElement.blur()")

    def at(it, moment):
        """The lights at a moment of the time line."""
        it.value(f"(() => {{ const line = document.getElementById('time'); line.value = {moment}; line.dispatchEvent(new Event('input', {{ bubbles: true }})); }})()")
        return it.lights()

    heart, small = ".#.#./#####/#####/.###./..#..", "...../.#.#./.###./..#../....."
    with Page(served.url, 1280, 900) as it:
        it.wait("sums.program !== ''", "the files")
        typed(it, "picture")
        it.click("#anew")
        it.wait("time > 0", "a clock that goes on")
        look(it.lights() == heart, f"lesson: the picture is {it.lights()}")
        typed(it, "beat")
        it.click("#anew")
        it.wait("time > 1000", "a second")
        look([at(it, moment) for moment in (399, 400, 819, 820)] == [small, heart, heart, small], "lesson: the heart beats otherwise")
        typed(it, "walk")
        it.click("#anew")
        it.wait("document.getElementById('closing').textContent.startsWith('The board waits')", "a board that waits")
        look(it.lights() == "...../...../..#../...../.....", f"lesson: the light begins as {it.lights()}")
        for name in "bbba":
            it.press(name)
            time.sleep(0.3)
        it.quiet()
        it.wait("document.querySelectorAll('.light.on').length === 1", "one light")
        walked = "...../...../...#./...../....."
        look(it.lights() == walked and it.text("#count") == "8 entries", f"lesson: the light has walked to {it.lights()}, by {it.text('#count')}")
        it.click("#rewind")
        it.wait("document.getElementById('closing').textContent.startsWith('The board waits')", "the presses once more")
        look(it.lights() == walked, f"lesson: once more it has walked to {it.lights()}")
        typed(it, "catch")
        it.value("(() => { const it = document.getElementById('speed'); it.value = '0.0625'; it.dispatchEvent(new Event('change')); })()")
        it.click("#anew")
        it.wait("time > 230", "the light in the middle")
        it.press("a")
        it.wait("document.getElementById('serial').textContent === '1 points\\r\\n'", "a point")


def shapes(served):
    for width, scheme in ((320, "light"), (320, "dark"), (1280, "dark")):
        with Page(served.url, width, 800, scheme) as it:
            it.wait("sums.program !== ''", "the files")
            look(it.value("document.documentElement.scrollWidth") <= width, f"at {width} columns the page is {it.value('document.documentElement.scrollWidth')} wide")
            back = it.value("getComputedStyle(document.body).backgroundColor")
            look((sum(int(one) for one in re.findall(r"\d+", back)[:3]) < 200) == (scheme == "dark"), f"{scheme}: the page is {back}")
            names = it.value("[...document.querySelectorAll('button, input, select, textarea')].filter((one) => !one.closest('[hidden]') && !(one.labels && one.labels.length) && !one.getAttribute('aria-label') && !one.textContent.trim()).map((one) => one.id)")
            look(names == [], f"controls without a name: {names}")
    with Page(served.url, 1280, 900) as it:
        it.wait("sums.program !== ''", "the files")
        long = "".join(f"let a{i} = {i} // a line of some length\n" for i in range(1800))[:65000]
        it.put(long)
        took = it.value("(() => { const from = performance.now(); for (let i = 0; i < 10; i += 1) drawText(); return (performance.now() - from) / 10; })()")
        look(took < 16, f"a program of {len(long)} bytes is drawn in {took:.1f} ms")
        look(it.value("document.querySelectorAll('#shown .row').length") < 80, "rows are drawn that nobody sees")


with tempfile.TemporaryDirectory(prefix="play-") as here, Served(here) as there:
    for part in (strangers, used, pressed, lesson, shapes):
        part(there)
    look(sorted(os.listdir(here)) == ["mine.json", "mine.ts"], f"in the folder are {sorted(os.listdir(here))}")
print(f"play_page: {tries} looked at, {wrong} wrong")
sys.exit(1 if wrong else 0)
