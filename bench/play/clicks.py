"""Times of the page of bin/play: see run.sh."""
import json
import os
import socket
import statistics
import subprocess
import sys
import tempfile
import time

TOP = os.path.dirname(os.path.dirname(os.path.dirname(os.path.abspath(__file__))))
sys.path.insert(0, f"{TOP}/checks")
import page
from browser import Browser

COUNT, PLAY = int(sys.argv[1]), os.path.abspath(sys.argv[2])
HOST, KEY, AHEAD = "127.0.0.1:4321", "a-key-for-times", 4000
with open(f"{TOP}/examples/game.ts", "rb") as source:
    GAME = source.read()


def request(text, script, budget):
    body = text + script
    return f"POST /run/{len(text)}/{budget} HTTP/1.1\r\nHost: {HOST}\r\nX-Play: {KEY}\r\nContent-Length: {len(body)}\r\n\r\n".encode() + body


def presses(count):
    """So many presses of A and B in turn, 200 ms apart and 80 ms long."""
    pairs = [({"at": 200 * i + 100, "do": "down", "button": "AB"[i % 2]}, {"at": 200 * i + 180, "do": "up", "button": "AB"[i % 2]}) for i in range(count)]
    return [it for pair in pairs for it in pair]


def script_of(events, end):
    return json.dumps({"end": end, "events": events}).encode()


def answer(peer):
    """Reads one answer, and gives its status and its body."""
    came = b""
    while b"\r\n\r\n" not in came:
        came += peer.recv(65536)
    head, _, body = came.partition(b"\r\n\r\n")
    length = next(int(row.split(b":")[1]) for row in head.lower().split(b"\r\n") if row.startswith(b"content-length:"))
    while len(body) < length:
        body += peer.recv(1 << 20)
    return int(head.split(b" ")[1]), body


class Served:
    """A process of the program at the other end of a pair of sockets."""

    def __init__(self, folder):
        self.peer, theirs = socket.socketpair()
        words = [PLAY, f"{folder}/game.ts", "game.ts", f"{folder}/game.json", "game.json"]
        self.runs = subprocess.Popen(words, stdin=theirs, stdout=theirs, env={"PLAY_HOST": HOST, "PLAY_KEY": KEY})
        theirs.close()

    def ask(self, sent):
        """Seconds from a request to the end of its answer, which tells a run."""
        begun = time.perf_counter()
        self.peer.sendall(sent)
        status, body = answer(self.peer)
        took = time.perf_counter() - begun
        if status != 200 or body.split(b" ")[0] not in (b"0", b"3", b"4"):
            sys.exit(f"{status} is answered, and {body[:60]}")
        return took

    def end(self):
        """The processor's seconds and the most memory of the process."""
        self.peer.close()
        _, _, used = os.wait4(self.runs.pid, 0)
        return used.ru_utime + used.ru_stime, used.ru_maxrss / 1024


def told(name, times):
    """The middle, the ninth of ten and the longest, in milliseconds."""
    ordered = sorted(it * 1000 for it in times)
    print(f"{name}: {statistics.median(ordered):.1f} ms in the middle, {ordered[len(ordered) * 9 // 10]:.1f} for nine of ten, {ordered[-1]:.1f} at most, of {len(ordered)}")


def server(folder):
    it = Served(folder)
    times = []
    for count in range(1, COUNT + 1):
        events = presses(count)
        end = (events[-1]["at"] // AHEAD + 1) * AHEAD
        times.append(it.ask(request(GAME, script_of(events, end), 1000000 + 100 * end)))
    processor, memory = it.end()
    told("request to answer", times)
    print(f"processor: {1000 * processor / COUNT:.2f} ms a request; memory: {memory:.0f} MB at most")
    it = Served(folder)
    took = it.ask(request(GAME, script_of(presses(100), 3600000), 50000000))
    processor, memory = it.end()
    print(f"an hour of board time: {1000 * took:.0f} ms, {1000 * processor:.0f} ms of a processor, {memory:.0f} MB at most")


# The page's script is its own: a press goes in by the pointer's event, and the lights are drawn when the page has told how long the answer took.
PRESS = """new Promise((done) => {
    const button = document.getElementById('a'), begun = performance.now();
    const watch = new MutationObserver(() => { if (busy && again) return; watch.disconnect(); done([performance.now() - begun, parseFloat(/[0-9]+/.exec(document.getElementById('state').textContent)[0])]); });
    watch.observe(document.getElementById('state'), { childList: true, characterData: true, subtree: true });
    button.dispatchEvent(new PointerEvent('KIND', { pointerId: 1, button: 0, bubbles: true }));
})"""


def shown(folder):
    runs = subprocess.Popen([f"{TOP}/bin/play", f"{folder}/game.ts", f"{folder}/game.json", "--no-browser"], stdout=subprocess.PIPE, text=True)
    url = runs.stdout.readline().strip()
    try:
        with Browser(url, 1280, 900) as it:
            while not it.value("sums.program !== '' && !busy"):
                time.sleep(0.05)
            it.value("HTMLElement.prototype.setPointerCapture = () => undefined")
            whole, asked = [], []
            for number in range(COUNT):
                kind = ("pointerdown", "pointerup")[number % 2]
                # (the text of the state is another each time, so that its change is seen)
                it.value("document.getElementById('state').textContent = ''")
                came = it.call("Runtime.evaluate", expression=PRESS.replace("KIND", kind), awaitPromise=True, returnByValue=True)["result"]["value"]
                whole.append(came[0] / 1000)
                asked.append(came[1] / 1000)
                while it.value("busy || again"):
                    time.sleep(0.01)
    finally:
        runs.send_signal(2)
        runs.wait(30)
    told("press to picture, by the page's clock", whole)
    told("of it from its request to the answer's end", asked)


with tempfile.TemporaryDirectory(prefix="play-") as here:
    with open(f"{here}/game.ts", "wb") as file:
        file.write(GAME)
    server(here)
    if page.chromium():
        shown(here)
    else:
        print("there is no chromium here, so the page's part isn't measured")
