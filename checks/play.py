"""Requests to the program play, and what is to be answered: see play.sh."""
import hashlib
import os
import random
import re
import shutil
import socket
import subprocess
import sys
import tempfile
import time

TOP, PROGRAM, COUNT = sys.argv[1], os.path.abspath(sys.argv[2]), int(sys.argv[3])
HOST, KEY = "127.0.0.1:4321", "a-key-for-tries"
ALWAYS = {"content-security-policy", "x-content-type-options", "cache-control", "referrer-policy", "cross-origin-opener-policy", "cross-origin-resource-policy"}
wrong = 0
tries = 0


def look(holds, what):
    """Counts a try, and tells of it where it isn't as it is to be."""
    global wrong, tries
    tries += 1
    if not holds:
        wrong += 1
        print(what)


def order(folder):
    return [PROGRAM, f"{folder}/game.ts", "game.ts", f"{folder}/game.json", "game.json"]


def talk(folder, sent):
    """What the program writes when it reads this, and its status."""
    ran = subprocess.run(order(folder), input=sent, stdout=subprocess.PIPE, stderr=subprocess.DEVNULL, env={"PLAY_HOST": HOST, "PLAY_KEY": KEY}, timeout=60, check=False)
    return ran.stdout, ran.returncode


def request(method, path, body=b"", host=HOST, key=KEY, more=""):
    """The bytes of a request."""
    head = f"{method} {path} HTTP/1.1\r\n" + (f"Host: {host}\r\n" if host is not None else "") + (f"X-Play: {key}\r\n" if key is not None else "") + more
    return head.encode() + (b"Content-Length: %d\r\n" % len(body) if body or method == "POST" else b"") + b"\r\n" + body


def answers(came):
    """The answers in what came: status, fields by their names, body; and what is left."""
    found = []
    while came:
        head, mark, rest = came.partition(b"\r\n\r\n")
        if not mark:
            break
        rows = head.decode("latin-1").split("\r\n")
        fields = {name.lower(): value for name, _, value in (row.partition(": ") for row in rows[1:])}
        length = int(fields.get("content-length", "0"))
        if len(rest) < length:
            break
        found.append((int(rows[0].split(" ")[1]), fields, rest[:length]))
        came = rest[length:]
    return found, came


def one(folder, sent):
    """The one answer to a request, after which the connection ends."""
    came, status = talk(folder, sent)
    found, left = answers(came)
    return found[0] if status == 0 and len(found) >= 1 and not left else (status, {}, came)


def run_of(text, script, budget=1000000, length=None):
    return request("POST", f"/run/{len(text) if length is None else length}/{budget}", text + script)


def read(name):
    with open(name, "rb") as file:
        return file.read()


def file_of(folder, name, content):
    with open(f"{folder}/{name}", "wb") as file:
        file.write(content)


def statuses(folder):
    """What can't be had, by its status and without a body."""
    text = b"basic.showNumber(1)\n"
    rows = [
        ("another host", 421, request("GET", "/", host="example.com")),
        ("another port", 421, request("GET", "/", host="127.0.0.1:80")),
        ("localhost", 421, request("GET", "/", host="localhost:4321")),
        ("no key", 403, request("GET", "/program", key=None)),
        ("another key", 403, request("GET", "/program", key="b-key-for-tries")),
        ("a part of the key", 403, request("GET", "/program", key=KEY[:-1])),
        ("no key for a run", 403, request("POST", "/run/0/1", key=None)),
        ("no key for what isn't there", 403, request("GET", "/elsewhere", key=None)),
        ("the page by another method", 405, request("POST", "/")),
        ("a run by GET", 405, request("GET", "/run/0/1")),
        ("another method", 405, request("PUT", "/save/program", b"x")),
        ("another path", 404, request("GET", "/elsewhere")),
        ("a path with more", 404, request("GET", "/program/")),
        ("another file", 404, request("POST", "/save/another", b"x")),
        ("a file outside", 404, request("POST", "/save/../game.ts", b"x")),
        ("no budget", 400, request("POST", f"/run/{len(text)}", text)),
        ("an empty budget", 400, request("POST", f"/run/{len(text)}/", text)),
        ("budget 0", 400, run_of(text, b"", 0)),
        ("a budget past the most", 400, run_of(text, b"", 50000001)),
        ("a budget with a sign", 400, run_of(text, b"", "+5")),
        ("a budget that is no number", 400, run_of(text, b"", "1e3")),
        ("a budget of many digits", 400, run_of(text, b"", "0" * 40 + "5")),
        ("a length that is no number", 400, run_of(text, b"", 1000, "x")),
        ("a negative length", 400, run_of(text, b"", 1000, -1)),
        ("a length past the body", 400, run_of(text, b"", 1000, len(text) + 1)),
        ("a length of many digits", 400, run_of(text, b"", 1000, "9" * 30)),
        ("a body past the most", 413, request("POST", "/run/1/1", b"x" * (2 * 1024 * 1024 + 1))),
        ("a file of another sum", 409, request("POST", "/save/program", b"x", more="X-Sum: none\r\n")),
        ("a file without a sum", 409, request("POST", "/save/program", b"x")),
        ("no host", 400, request("GET", "/", host=None)),
        ("two hosts", 400, request("GET", "/", more=f"Host: {HOST}\r\n")),
        ("rubbish", 400, b"\x16\x03\x01\x02\x00\x01\x00\x01\xfc\x03\x03\r\n\r\n"),
    ]
    for name, status, sent in rows:
        came = one(folder, sent)
        look(came[0] == status and (status in (400, 413) or came[2] == b""), f"{name}: {status} is to be answered, and it is {came[0]}, with {len(came[2])} bytes")
        look(status in (400, 413) or came[1].keys() >= ALWAYS, f"{name}: the answer lacks {sorted(ALWAYS - came[1].keys())}")
    look(read(f"{folder}/game.ts") == read(f"{TOP}/examples/game.ts"), "a file that wasn't to be written is another")


def files(folder):
    """The page and the files."""
    status, fields, body = one(folder, request("GET", "/", key=None))
    look(status == 200 and body.startswith(b"<!doctype html>") and fields.get("content-type") == "text/html; charset=utf-8", "the page isn't answered")
    policy = fields.get("content-security-policy", "")
    look("unsafe" not in policy and "default-src 'none'" in policy and "frame-ancestors 'none'" in policy, f"the policy is {policy}")
    text = read(f"{folder}/game.ts")
    status, fields, body = one(folder, request("GET", "/program"))
    sum_of = hashlib.sha256(text).hexdigest()
    look((status, body, fields.get("x-name"), fields.get("x-sum")) == (200, text, "game.ts", sum_of), "the program isn't answered as it is")
    status, fields, body = one(folder, request("GET", "/script"))
    look((status, body, fields.get("x-sum")) == (404, b"", "none"), "a script that isn't there is answered")
    came = one(folder, request("POST", "/save/script", b"{}\n", more="X-Sum: none\r\n"))
    look(came[0] == 204 and read(f"{folder}/game.json") == b"{}\n" and came[1].get("x-sum") == hashlib.sha256(b"{}\n").hexdigest(), "the script isn't made")
    came = one(folder, request("POST", "/save/script", b"[]\n", more="X-Sum: none\r\n"))
    look(came[0] == 409 and read(f"{folder}/game.json") == b"{}\n", "a script that was made meanwhile is replaced")
    came = one(folder, request("POST", "/save/program", b"let x = 1\n", more=f"X-Sum: {sum_of}\r\n"))
    look(came[0] == 204 and read(f"{folder}/game.ts") == b"let x = 1\n", "the program isn't saved")
    look(sorted(os.listdir(folder)) == ["game.json", "game.ts"], f"there is more in the folder: {sorted(os.listdir(folder))}")
    os.chmod(folder, 0o500)
    if os.geteuid():
        came = one(folder, request("POST", "/save/program", b"let x = 2\n", more=f"X-Sum: {hashlib.sha256(b'let x = 1' + bytes([10])).hexdigest()}\r\n"))
        look(came[0] == 500 and read(f"{folder}/game.ts") == b"let x = 1\n", "a folder that can't be written isn't told of")
    os.chmod(folder, 0o700)
    os.remove(f"{folder}/game.json")
    file_of(folder, "game.ts", text)


def runs(folder):
    """Runs, beside the transcripts of the examples, which others wrote; many in one connection, in their order."""
    names = sorted(it[:-3] for it in os.listdir(f"{TOP}/examples") if it.endswith(".ts") and os.path.exists(f"{TOP}/examples/{it[:-3]}.txt"))
    wanted, sent = [], b""
    for name in names:
        script = f"{TOP}/examples/{name}.json"
        sent += run_of(read(f"{TOP}/examples/{name}.ts"), read(script) if os.path.exists(script) else b"")
        wanted.append(read(f"{TOP}/examples/{name}.txt"))
    found, left = answers(talk(folder, sent)[0])
    look(len(found) == len(names) and not left, f"{len(names)} runs were asked for, and {len(found)} are answered")
    for name, want, (status, _, body) in zip(names, wanted, found):
        head, _, rest = body.partition(b"\n")
        code, length = (int(it) for it in head.split(b" "))
        look(status == 200 and code in (0, 3) and rest[:length] == want, f"{name}: the transcript is another")
        look(rest[length:].count(b"\n") >= 1, f"{name}: there is no view")
    for name, status, text, script in [
        ("a refused program", 10, b"let = 1\n", b""),
        ("a refused script", 11, b"let x = 1\n", b"{"),
        ("no text", 0, b"", b""),
        ("no UTF-8", 10, b"\xff\xfe", b""),
        ("a NUL", 10, b"let x\0 = 1", b""),
        ("a loop that never waits", 4, b"let x = 0\nwhile (true) { x += 1 }\n", b""),
        ("a program that panics", 3, b"let a: number[] = []\nlet b = a[5]\nlet c: number[] = null\nlet d = c.length\n", b""),
    ]:
        came = one(folder, run_of(text, script))
        head, _, rest = came[2].partition(b"\n")
        code, length = (int(it) for it in head.split(b" "))
        there = subprocess.run([f"{TOP}/bin/sts", "run", "program", *(["script"] if script else []), "--budget", "1000000"], cwd=put(text, script), stdout=subprocess.PIPE, stderr=subprocess.DEVNULL, check=False)
        look((code, rest[:length]) == (there.returncode, there.stdout), f"{name}: sts answers {there.returncode} and {there.stdout[:60]}, and the page gets {code} and {rest[:60]}")
        look(status in (3, code), f"{name}: {status} is to be answered, and it is {code}")


def put(text, script):
    """A folder with a program and a script."""
    folder = tempfile.mkdtemp(prefix="play-")
    file_of(folder, "program", text)
    if script:
        file_of(folder, "script", script)
    return folder


def cuts(folder):
    """A request that ends too soon is answered by nothing, or by what refuses it; nothing is left in the folder."""
    for sent in (request("GET", "/", key=None), request("GET", "/script"), run_of(b"let x = 1\n", b'{"end": 5, "events": []}'), request("POST", "/save/script", b"{}\n", more="X-Sum: none\r\n")):
        for length in range(len(sent)):
            came, status = talk(folder, sent[:length])
            found, left = answers(came)
            look(status in (0, 22) and not left and all(it[0] in (400, 408) for it in found), f"{sent[:40]}.. cut after {length} bytes: status {status}, {[it[0] for it in found]}")
    look(os.listdir(folder) == ["game.ts"], "a request that ended too soon wrote a file")


def strangers(folder):
    """Random bytes, and requests of which some bytes are others: none ends the program but by its own statuses."""
    chance = random.Random(72)
    seeds = [request("GET", "/", key=None), request("GET", "/program"), run_of(b"basic.showNumber(1)\n", b'{"end": 5, "events": []}'), request("POST", "/save/another", b"x")]
    for _ in range(COUNT):
        sent = bytearray(b"".join(chance.choice(seeds) for _ in range(chance.randint(1, 3))))
        for _ in range(chance.choice((0, 1, 2, 8))):
            at = chance.randrange(len(sent))
            sent[at:at + chance.choice((0, 1, 4))] = bytes(chance.randrange(256) for _ in range(chance.choice((0, 1, 1, 3))))
        sent = bytes(sent[:chance.randint(0, len(sent))]) if chance.random() < 0.3 else bytes(sent)
        came, status = talk(folder, sent)
        look(status in (0, 22) and not answers(came)[1], f"{sent[:80]}: status {status}, {came[-80:]}")
    look(os.listdir(folder) == ["game.ts"] and read(f"{folder}/game.ts") == read(f"{TOP}/examples/game.ts"), "random requests changed a file")


def listens(folder):
    """bin/play over sockets: who says nothing blocks nobody, it is bound to this machine alone, and Ctrl-C ends all."""
    runs_it = subprocess.Popen([f"{TOP}/bin/play", f"{folder}/game.ts", "--no-browser"], stdout=subprocess.PIPE, text=True)
    url = re.match(r"http://(127\.0\.0\.1):(\d+)/#([-\w]{24})$", runs_it.stdout.readline().strip())
    look(url is not None, "no address is written")
    port, key = int(url[2]), url[3]
    idle = [socket.create_connection(("127.0.0.1", port)) for _ in range(24)]
    for it in idle[::2]:
        it.sendall(b"GET / HT")
    begun = time.monotonic()
    with socket.create_connection(("127.0.0.1", port), timeout=20) as peer:
        peer.sendall(request("GET", "/program", host=f"127.0.0.1:{port}", key=key))
        came = peer.recv(65536)
    look(came.startswith(b"HTTP/1.1 200 ") and time.monotonic() - begun < 5, f"24 who say nothing keep others out for {time.monotonic() - begun:.1f} s")
    runs_it.send_signal(2)
    look(runs_it.wait(10) == 0, "Ctrl-C doesn't end it")
    for it in idle:
        it.close()
    time.sleep(0.5)
    left = subprocess.run(["pgrep", "-f", f"{folder}/game.ts"], stdout=subprocess.PIPE, text=True, check=False).stdout
    look(not left, f"processes are left: {left}")


def ends_early(folder):
    """Ctrl-C while the program is made ends bin/play without more words, and what makes it too."""
    shutil.copytree(f"{TOP}/bin", f"{folder}/bin")
    os.remove(f"{folder}/bin/program")
    file_of(folder, "bin/program", b"#!/bin/sh\nexec sleep 600.25\n")
    os.chmod(f"{folder}/bin/program", 0o755)
    runs_it = subprocess.Popen([f"{folder}/bin/play", f"{folder}/game.ts", "--no-browser"], stdout=subprocess.PIPE, stderr=subprocess.PIPE, text=True)
    for _ in range(200):
        if subprocess.run(["pgrep", "-P", str(runs_it.pid), "-f", "sleep 600.25"], stdout=subprocess.DEVNULL, check=False).returncode == 0:
            break
        time.sleep(0.05)
    runs_it.send_signal(2)
    said = runs_it.communicate(timeout=20)
    look((runs_it.returncode, *said) == (130, "", ""), f"Ctrl-C while play is made: status {runs_it.returncode}, {said[1][-200:]}")
    left = subprocess.run(["pgrep", "-f", "sleep 600.25"], stdout=subprocess.PIPE, text=True, check=False).stdout
    look(not left, f"what makes play is left: {left}")


def in_the_way(folder):
    """A save is written first to a file of its own: links and files that others have put beside it stay as they are, also those of names that it would take, and where there are too many it is refused."""
    victim, saved = f"{folder}/victim", request("POST", "/save/script", b"{}\n", more="X-Sum: none\r\n")
    file_of(folder, "victim", b"mine")
    file_of(folder, "game.json.new", b"mine")
    file_of(folder, "game.json.1.new", b"mine")
    os.symlink(victim, f"{folder}/game.json.0.new")
    os.symlink(f"{folder}/nowhere", f"{folder}/game.json.2.new")
    before = sorted(os.listdir(folder))
    came = one(folder, saved)
    look(came[0] == 204 and read(f"{folder}/game.json") == b"{}\n" and not os.path.islink(f"{folder}/game.json"), f"with links in its way a save is answered {came[0]}")
    os.remove(f"{folder}/game.json")
    look(sorted(os.listdir(folder)) == before and os.readlink(f"{folder}/game.json.0.new") == victim, "a save leaves or takes away another file")
    for number in range(3, 100):
        os.symlink(victim, f"{folder}/game.json.{number}.new")
    came = one(folder, saved)
    look(came[0] == 500 and not os.path.exists(f"{folder}/game.json"), f"with all names taken a save is answered {came[0]}")
    look([read(f"{folder}/{name}") for name in ("victim", "game.json.new", "game.json.1.new")] == [b"mine"] * 3, "a save writes to a file of somebody else")
    look(sum(os.path.islink(f"{folder}/{name}") for name in os.listdir(folder)) == 99, "a save takes away a link of somebody else")
    for name in os.listdir(folder):
        if name != "game.ts":
            os.remove(f"{folder}/{name}")


def names_told(folder):
    """Names in what bin/play says, with what isn't seen by its digits."""
    for words, says in (([f"{folder}/\u202e/a.ts"], f"{folder}/\\xe2\\x80\\xae/a.ts: there is no such folder\n"), ([f"{folder}/\x1b.ts", f"{folder}/\x1b.ts"], f"{folder}/\\x1b.ts: the script has the same name: name another one after it\n"),
                        ([f"{folder}/a.ts", "b", "\u2028"], "unrecognized arguments: \\xe2\\x80\\xa8\n")):
        ran = subprocess.run([f"{TOP}/bin/play", *words, "--no-browser"], capture_output=True, text=True, timeout=60, check=False)
        look(ran.stdout == "" and ran.stderr.endswith(says), f"bin/play {words} says {ran.stderr!r}")


with tempfile.TemporaryDirectory(prefix="play-") as here:
    file_of(here, "game.ts", read(f"{TOP}/examples/game.ts"))
    for part in (statuses, files, runs, cuts, strangers, listens, in_the_way, names_told, ends_early):
        part(here)
print(f"play: {tries} looked at, {wrong} wrong")
sys.exit(1 if wrong else 0)
