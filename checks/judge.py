"""Tries bin/judge as checks/judge.sh says.

    checks/judge.py PROGRAM FOLDER

The last line is 'judge: N things looked at, K wrong'.
"""
import contextlib
import getpass
import glob
import json
import os
import pty
import re
import resource
import shlex
import shutil
import signal
import socket
import subprocess
import sys
import tempfile
import time
from xml.etree import ElementTree

TOP = os.path.dirname(os.path.dirname(os.path.abspath(__file__)))
PROGRAM, FOLDER = os.path.abspath(sys.argv[1]), sys.argv[2]
JUDGE = f"{TOP}/bin/judge"
COUNTER = {end: open(f"{TOP}/examples/counter.{end}", "rb").read() for end in ("ts", "json", "txt")}
looked, wrong = 0, 0
# A check that a script runs in the background has SIGINT ignored, and so would the judges that it begins.
signal.signal(signal.SIGINT, signal.default_int_handler)


def expect(what, had, wanted):
    global looked, wrong
    looked += 1
    if had != wanted:
        wrong += 1
        print(f"judge: {what}: {had!r} in place of {wanted!r}")


def expect_in(what, part, whole):
    expect(f"{what}: {part!r} is in {whole[-2000:]!r}", part in whole, True)


def judge(*words, program=PROGRAM, seconds=120):
    """Runs the judge, and gives its status, what it says and what stands on standard error."""
    ran = subprocess.run([JUDGE, *words, "--program", program], stdout=subprocess.PIPE, stderr=subprocess.PIPE, cwd=FOLDER, timeout=seconds, check=False)
    return ran.returncode, ran.stdout.decode(), ran.stderr.decode()


def put(path, content):
    path = f"{FOLDER}/{path}"
    os.makedirs(os.path.dirname(path), exist_ok=True)
    with open(path, "wb") as file:
        file.write(content if isinstance(content, bytes) else content.encode())
    return path


def put_counter(name, **changed):
    """Puts the example that counts presses under a name, with other content for some of its files, or without a file where that is None."""
    for end, content in {**COUNTER, **changed}.items():
        if content is not None:
            put(f"{name}.{end}", content)


def stub(name, text):
    """Puts a shell script that stands for the program sts."""
    path = put(f"{name}", f"#!/bin/sh\n{text}\n")
    os.chmod(path, 0o755)
    return path


def counts(**numbers):
    return {**{it: 0 for it in ("passed", "failed", "no wanted file", "refused", "timed out", "crashed", "not run")}, **{key.replace("_", " "): it for key, it in numbers.items()}}


def judged(folder, *words, **more):
    """Judges a folder, and gives the status, what is said, the counts of the JSON file, and its programs by their names."""
    status, said, _ = judge(folder, *words, "--json", f"{FOLDER}/out.json", "--junit", f"{FOLDER}/out.xml", **more)
    with open(f"{FOLDER}/out.json", encoding="utf-8") as file:
        found = json.load(file)
    return status, said, found["programs"], {os.path.basename(it["name"]): it for it in found["judged"]}


def look_at_examples():
    many = len([it for it in glob.glob(f"{TOP}/examples/*.ts") if not it.endswith(".d.ts")])
    status, said, found, _ = judged(f"{TOP}/examples")
    expect("examples", (status, found), (0, counts(passed=many)))
    expect("examples, lines", len(re.findall(r"(?m)^passed +\S+/examples/\w+\.ts: 1 of 1 runs as wanted$", said)), many)
    suites = ElementTree.parse(f"{FOLDER}/out.xml").getroot()
    expect("examples, JUnit", [(it.get("tests"), it.get("failures"), it.get("errors"), it.get("skipped"), len(it)) for it in suites], [("1", "0", "0", "0", 1)] * many)


def wrong_copies():
    """The copies, each with what is told of it: the verdict, the sentence, the number of the line, and what is wanted there and what came."""
    text = COUNTER["txt"]
    lines = text.splitlines(keepends=True)
    return {
        "frame": ({"txt": text.replace(b"..#../.##..", b"..#../.###.")}, ("failed", "line 3 differs", 3, "180 display ..#../.###./..#../..#../.###.", "180 display ..#../.##../..#../..#../.###.")),
        "byte": ({"txt": text.replace(b"760 serial 32", b"760 serial 33")}, ("failed", "line 4 differs", 4, "760 serial 33", "760 serial 32")),
        "time": ({"txt": text.replace(b"1160 serial 33", b"1161 serial 33")}, ("failed", "line 7 differs", 7, "1161 serial 33", "1160 serial 33")),
        "fewer": ({"txt": b"".join(lines[:1] + lines[2:])}, ("failed", "line 2 is one too many", 2, lines[2].decode()[:-1], "180 serial 0a")),
        "more": ({"txt": b"".join(lines[:1] * 2 + lines[1:])}, ("failed", "line 2 is missing", 2, "180 serial 31", "180 serial 0a")),
        "behind": ({"txt": text + b"3000 serial 31\n"}, ("failed", "line 14 is missing", 14, "3000 serial 31", None)),
        "short": ({"txt": b"".join(lines[:-1])}, ("failed", "line 13 is one too many", 13, None, "end 2500 quiet")),
        "empty": ({"txt": b""}, ("failed", "line 1 is one too many", 1, None, "180 serial 31")),
        "status": ({"txt": text.replace(b"end 2500 quiet", b"panic 2500 7")}, ("failed", "line 13 differs", 13, "panic 2500 7", "end 2500 quiet")),
        "bytes": ({"txt": b"\xff\x1b\xc3\xa9\n"}, ("failed", "line 1 differs", 1, "\\xff\\x1b\u00e9", "180 serial 31")),
        "no script": ({"json": None}, ("failed", "line 1 differs", 1, "180 serial 31", "end 0 quiet")),
        "no wish": ({"txt": None}, ("no wanted file", "there is no transcript to compare with; its last line is 'end 2500 quiet'", 0, None, None)),
        "text": ({"ts": b"let a = 1\nlet b =\n"}, ("refused", "refused by code 6 at line 3, column 1", 0, None, None)),
        "other place": ({"ts": b"let b =\n", "txt": b"refused 6 1 1\n"}, ("refused", "refused by code 6 at line 2, column 1", 1, "refused 6 1 1", "refused 6 2 1")),
        "broken script": ({"json": b"{"}, ("refused", "script refused 1", 0, None, None)),
    }


def look_at_wrong_copies():
    copies = wrong_copies()
    for name, (changed, _) in copies.items():
        put_counter(f"wrong/{name}", **changed)
    status, said, found, programs = judged("wrong")
    expect("wrong copies", (status, found), (1, counts(failed=11, no_wanted_file=1, refused=3)))
    for name, (_, wanted) in copies.items():
        program = programs[f"{name}.ts"]
        expect(name, [(it["verdict"], it["says"], it["line"], it["wanted"], it["came"]) for it in program["runs"]], [wanted])
        expect_in(name, f"{wanted[0]:16}wrong/{name}.ts: 0 of 1 runs as wanted\n", said)
    expect_in("frames as pictures", "        wanted        came\n        ····██····    ····██····\n        ··██████··    ··████····\n        ····██····    ····██····\n", said)
    expect_in("serial bytes as text", '        wanted  760 serial 33    "3"\n        came    760 serial 32    "2"\n', said)
    expect_in("a run without a script", "    no script.txt, without a script: line 1 differs: 0 of 13 rows are as wanted\n", said)
    expect_in("how many rows are as wanted", "    frame.json: line 3 differs: 12 of 13 rows are as wanted\n", said)
    expect_in("a refusal by its text", "    text.json: refused by code 6 at line 3, column 1\n        A value is missing after this sign.\n", said)
    expect_in("a refused script", "    broken script.json: script refused 1\n        line 1: ", said)
    suites = {it.get("name"): it for it in ElementTree.parse(f"{FOLDER}/out.xml").getroot()}
    for name, (_, wanted) in copies.items():
        tag = "skipped" if wanted[0] == "no wanted file" else "failure"
        expect(f"{name}, JUnit", [(it.tag, it.get("type"), it.get("message")) for it in suites[f"wrong/{name}.ts"][0]], [(tag, wanted[0], wanted[1])])


def look_at_odd_folders():
    """Files that are as wanted though they look otherwise, and files that can't be read."""
    put_counter("odd/count")
    put_counter("odd/counter", json=None, txt=None)
    for stem in ("counter-a", "counter-b"):
        put_counter(f"odd/{stem}", ts=None)
    put_counter("odd/two  words & <signs>")
    put_counter("odd/caf\u00e9 \x1b")
    put_counter("odd/windows", txt=COUNTER["txt"].replace(b"\n", b"\r\n"))
    put_counter("odd/no end", txt=COUNTER["txt"][:-1])
    put_counter("odd/t")
    put_counter("odd/refused", ts=b"let b =\n", json=None, txt=b"refused 6 2 1\n")
    put_counter("odd/panics", ts=b"control.panic(7)\n", json=None, txt=b"panic 0 7\n")
    for end in COUNTER:
        os.symlink(f"count.{end}", f"{FOLDER}/odd/link.{end}")
    for name in ("tsconfig.json", "._count.ts", "board.d.ts", "list.txt", "notes.md"):
        put(f"odd/{name}", b"\0\xff")
    os.mkdir(f"{FOLDER}/odd/folder.ts")
    status, said, found, programs = judged("odd")
    expect("odd files", (status, found), (0, counts(passed=10)))
    expect("two scripts", [it["name"] for it in programs["counter.ts"]["runs"]], ["counter-a.json", "counter-b.json"])
    os.symlink("nowhere.ts", f"{FOLDER}/odd/dangling.ts")
    put_counter("odd/windows-2", ts=None, json=None)
    os.mkfifo(f"{FOLDER}/odd/t-pipe.txt")
    put("odd/t-pipe.json", COUNTER["json"])
    put_counter("odd/large", ts=b"//" + b" " * 1048576)
    put_counter("odd/\udcff")
    status, said, found, programs = judged("odd")
    expect("files that can't be read", (status, found), (1, counts(passed=8, not_run=5)))
    expect("names beyond ASCII", programs["caf\u00e9 \\x1b.ts"]["verdict"], "passed")
    for name, says in (("\\xff.ts", "sts takes no name that isn't UTF-8"), ("dangling.ts", "the text or the script is missing"), ("windows.ts", "there is no script windows-2.json"), ("t.ts", "t-pipe.txt: it is no file"),
                       ("large.ts", "the text or the script has more than 1,048,576 bytes")):
        expect(name, [it["says"] for it in programs[name]["runs"] if it["verdict"] != "passed"], [says])


def look_at_stubs():
    """Programs that crash, hang, end otherwise, or write much."""
    put_counter("stubs/one")
    answer = f"cat {FOLDER}/stubs/one.txt"
    for name, text, verdict, says in (
        ("crash", f"{answer}; kill -SEGV $$", "crashed", "killed by SIGSEGV"),
        ("abort", "exit 101", "crashed", "it ended with status 101, as no run does"),
        ("memory", "exit 30", "crashed", "there was no memory"),
        ("other", f"{answer}; exit 3", "failed", "it ended with status 3, which isn't that of its last line, 'end 2500 quiet'"),
        ("hang", f"{answer}; sleep 100", "timed out", "killed after 1 seconds"),
        ("silent", f"{answer}; exec >&- 2>&-; sleep 100", "timed out", "killed after 1 seconds"),
        ("left", f"{answer}; sleep 100 & exit 0", "timed out", "killed after 1 seconds"),
        ("killed", "kill -KILL $$", "crashed", "killed by SIGKILL"),
        ("long line", "head -c 3000000 /dev/zero; echo; echo end 1 quiet", "failed", "line 1 differs"),
        ("much", "yes '0 serial 31' | head -n 2000000; echo end 0 quiet", "failed", "line 1 differs"),
        ("bytes", "head -c 100000 /dev/urandom; echo; echo end 0 quiet", "failed", "line 1 differs"),
        ("right", answer, "passed", ""),
    ):
        status, said, _, programs = judged("stubs", "--seconds", "1" if verdict == "timed out" else "60", program=stub(f"stub {name}", text))
        run = programs["one.ts"]["runs"][0]
        expect(f"stub {name}", (status, run["verdict"], run["says"]), (int(verdict != "passed"), verdict, says))
        expect(f"stub {name}, length", len(said) < 3000, True)
    expect("memory", resource.getrusage(resource.RUSAGE_CHILDREN).ru_maxrss < 200_000, True)
    os.chmod(stub("no program", "exit 0"), 0o644)
    for name in ("no program", "nothing"):
        expect(name, judge("stubs", program=f"{FOLDER}/{name}")[0], 2)
    os.chmod(put("no format", b"\x7fELF"), 0o755)
    status, _, found, _ = judged("stubs", program=f"{FOLDER}/no format")
    expect("a program that can't be started", (status, found), (1, counts(not_run=1)))


def look_at_loops():
    put("loops/loop.ts", "while (true) { }\n")
    put("loops/loop.txt", "end 0 quiet\n")
    status, _, _, programs = judged("loops", "--seconds", "1", "--budget", "2147483648")
    expect("a loop", (status, programs["loop.ts"]["runs"][0]["verdict"], programs["loop.ts"]["runs"][0]["says"]), (1, "timed out", "killed after 1 seconds"))
    status, _, _, programs = judged("loops", "--budget", "1000")
    expect("a loop within a budget", (status, programs["loop.ts"]["runs"][0]["came"], programs["loop.ts"]["runs"][0]["status"]), (1, "budget 0", 4))


def look_at_words():
    put("none/notes.txt", "")
    for words in ((), ("nowhere",), ("none/notes.txt",), ("none",), ("none", "none"), ("stubs", "--budget", "0"), ("stubs", "--budget", "2147483649"), ("stubs", "--budget", "x"),
                  ("stubs", "--jobs", "0"), ("stubs", "--seconds", "-1"), ("stubs", "--junit"), ("stubs", "--junit", "nowhere/file"), ("stubs", "--json", "stubs"), ("stubs", "--bud", "5"),
                  ("stubs", "--hosts", "nowhere")):
        status, said, error = judge(*words)
        expect(f"words {words}", (status, said, bool(error)), (2, "", True))
    expect_in("no programs", "none: it has no .ts files", judge("none")[2])
    status, said, error = judge("stubs", "./stubs/", f"{FOLDER}/stubs")
    expect("a folder named three times", (status, said.count("one.ts"), error.count("it is taken once")), (0, 1, 2))
    status, said, _ = judge("stubs", "none")
    expect_in("one folder without programs", "not run         none: it has no .ts files\n", said)
    expect("one folder without programs", status, 1)
    expect("a report that is written to a full device", judge("stubs", "--json", "/dev/full")[0], 1)
    expect("--help", judge("--help")[0], 0)


def children_of(parent):
    for it in glob.glob("/proc/[0-9]*/stat"):
        try:
            with open(it, encoding="utf-8", errors="replace") as file:
                words = file.read().rpartition(")")[2].split()
        except OSError:
            continue
        if int(words[1]) == parent and words[0] != "Z":
            yield int(it.split("/")[2])


def begin(*words, program=PROGRAM, **streams):
    return subprocess.Popen([JUDGE, *words, "--program", program], cwd=FOLDER, **{"stdout": subprocess.PIPE, "stderr": subprocess.PIPE, **streams})


def look_at_killed_runs():
    for at in range(200):
        put_counter(f"many/p{at:03}")
    # (a program that takes a while, so that three can be met while they run)
    child, killed = begin("many", "--json", "out.json", program=stub("slow", f'sleep 0.05; exec {shlex.quote(PROGRAM)} "$@"')), 0
    while killed < 3 and child.poll() is None:
        for it in list(children_of(child.pid))[:1]:
            # (it may have ended by now)
            with contextlib.suppress(ProcessLookupError):
                os.kill(it, signal.SIGKILL)
                killed += 1
        time.sleep(0.1)
    said, error = (it.decode() for it in child.communicate(timeout=300))
    with open(f"{FOLDER}/out.json", encoding="utf-8") as file:
        found = json.load(file)
    expect("three killed of 200", (child.returncode, killed, found["programs"], len(re.findall("(?m)^passed .*p[0-9]{3}.ts: 1 of 1", said))), (0, 3, counts(passed=200), 200))
    # (one that had written everything may be killed in vain)
    expect("told of the killed", error.count("was killed, and is run once more") in (1, 2, 3), True)


def look_at_a_part():
    """A program of which some runs are done where it is interrupted."""
    put_counter("parts/a")
    for at in range(200):
        put_counter(f"parts/a{at}", ts=None)
    put("begun", "")
    child = begin("parts", "--jobs", "1", program=stub("counted", f'echo >>"{FOLDER}/begun"; exec "{PROGRAM}" "$@"'))
    while os.path.getsize(f"{FOLDER}/begun") < 5 and child.poll() is None:
        time.sleep(0.01)
    child.send_signal(signal.SIGINT)
    said = child.communicate(timeout=60)[0].decode()
    done = int((re.search(r"\ninterrupted: (\d+) of 201 runs were done\n$", said) or [0, 0])[1])
    expect("a part, done", (child.returncode, 3 <= done < 201), (130, True))
    expect_in("a part", f"not run         parts/a.ts: {done} of 201 runs as wanted, {201 - done} not done\n", said)


def look_at_interrupts():
    for how, status in ((signal.SIGINT, 130), (signal.SIGTERM, 143)):
        child = begin("many", "--json", "out.json", "--jobs", "1")
        lines = [child.stdout.readline().decode() for _ in range(3)]
        child.send_signal(how)
        said = "".join(lines) + child.communicate(timeout=60)[0].decode()
        with open(f"{FOLDER}/out.json", encoding="utf-8") as file:
            found = json.load(file)
        done = said.count("1 of 1 runs as wanted")
        expect(f"{how.name}", (child.returncode, found["complete"], found["programs"]["passed"], 3 <= done < 200), (status, False, done, True))
        expect_in(f"{how.name}", f"interrupted: {done} of 200 runs were done\n", said)
        expect(f"{how.name}, left running", list(children_of(child.pid)), [])
    look_at_a_part()
    child = begin("many", "--jobs", "1")
    child.stdout.readline()
    child.stdout.close()
    expect("nobody reads", (child.wait(60), child.stderr.read()), (22, b"judge: the output couldn't be written: Broken pipe\n"))


def look_at_terminal():
    master, slave = pty.openpty()
    child = begin("stubs", f"{TOP}/examples", "--jobs", "1", stderr=slave, stdout=subprocess.DEVNULL)
    os.close(slave)
    shown = b""
    try:
        while part := os.read(master, 4096):
            shown += part
    except OSError:
        pass
    expect("how far it is", (child.wait(60), re.search(rb"\d+ of 12 programs, \d+ of 12 runs, 0 not as wanted, about \d+ s left", shown) is not None), (0, True))


@contextlib.contextmanager
def ssh_server():
    """An ssh server on a free port of this machine, with keys of its own: the words of ssh that reach it. Nothing where there is no such server."""
    server = shutil.which("sshd") or shutil.which("sshd", path="/usr/sbin")
    if not (server and shutil.which("ssh") and shutil.which("ssh-keygen")):
        yield None
        return
    home = f"{FOLDER}/ssh"
    os.makedirs(home, mode=0o700)
    for name in ("host", "user"):
        subprocess.run(["ssh-keygen", "-q", "-t", "ed25519", "-N", "", "-f", f"{home}/{name}"], check=True)
    with socket.socket() as free:
        free.bind(("127.0.0.1", 0))
        port = free.getsockname()[1]
    put("ssh/config", f"Port {port}\nListenAddress 127.0.0.1\nHostKey {home}/host\nAuthorizedKeysFile {home}/user.pub\nPidFile none\nStrictModes no\nUsePAM no\nPasswordAuthentication no\nLogLevel ERROR\n")
    # (run by root, the server wants this folder)
    is_made = os.geteuid() == 0 and not os.path.isdir("/run/sshd")
    if is_made:
        os.mkdir("/run/sshd", 0o755)
    child = subprocess.Popen([server, "-D", "-e", "-f", f"{home}/config"], stderr=subprocess.DEVNULL)
    try:
        yield f"ssh -p {port} -i {home}/user -o IdentitiesOnly=yes -o UserKnownHostsFile={home}/known -o StrictHostKeyChecking=no -o LogLevel=ERROR {getpass.getuser()}@127.0.0.1"
    finally:
        child.terminate()
        child.wait()
        if is_made:
            os.rmdir("/run/sshd")


def look_at_hosts():
    put("hosts", ":\n")
    status, _, found, programs = judged("wrong", "--hosts", "hosts", "--jobs", "2")
    expect("--hosts", (status, found), (1, counts(failed=11, no_wanted_file=1, refused=3)))
    expect("--hosts, a line", programs["frame.ts"]["runs"][0]["says"], "line 3 differs")
    path = os.environ["PATH"]
    stub("path/ssh", "exit 255")
    put("hosts", "1/gone\n")
    os.environ["PATH"] = f"{FOLDER}/path:{path}"
    status, said, error = judge("stubs", "--hosts", "hosts")
    os.environ["PATH"] = path
    expect("a machine that isn't there", (status, said.count("1 of 1 runs as wanted")), (0, 1))
    expect_in("a machine that isn't there", "1 runs came to no end on the other machines, and are done here", error)
    for text in ("", "-oProxyCommand=x\n", "8/\n"):
        put("hosts", text)
        expect(f"hosts {text!r}", judge("stubs", "--hosts", "hosts")[0], 2)
    with ssh_server() as words:
        if words is None:
            print("judge: there is no ssh server (package openssh-server), so that --hosts wasn't tried over one")
            return
        look_at_ssh(words)


def look_at_ssh(words):
    """Over an ssh server of this machine: the same outcomes as here, in at most twice the time, also where a machine is gone; nothing stays there."""
    before = set(os.listdir(tempfile.gettempdir()))
    put("hosts", f"# two machines, of which one is gone\n2/{words}\nssh -p 1 -i {words.partition(' -i ')[2]}\n")
    status, said, error = judge("wrong", "--hosts", "hosts", "--json", "out.json")
    with open(f"{FOLDER}/out.json", encoding="utf-8") as file:
        found = json.load(file)["programs"]
    expect("over ssh", (status, found), (1, counts(failed=11, no_wanted_file=1, refused=3)))
    expect("over ssh, done here", "are done here" in error, False)
    expect_in("over ssh, frames as pictures", "        wanted        came\n        ····██····    ····██····\n", said)
    put("hosts", f"{words}\n")
    seconds = {}
    # (the least of up to five tries each: other work may come between)
    for _ in range(5):
        for name, more in (("here", ()), ("over ssh", ("--hosts", "hosts"))):
            begun = time.monotonic()
            status, said, error = judge("many", *more, seconds=600)
            seconds[name] = min(time.monotonic() - begun, seconds.get(name, 600))
            expect(f"200 programs {name}", (status, said.count("1 of 1 runs as wanted"), error), (0, 200, ""))
        if seconds["over ssh"] <= 2 * seconds["here"] + 2:
            break
    expect(f"200 programs over ssh within twice the time: {seconds}", seconds["over ssh"] <= 2 * seconds["here"] + 2, True)
    print(f"judge: 200 programs took {seconds['here']:.1f} s here and {seconds['over ssh']:.1f} s over ssh")
    put("hosts", f"1/{words}\n")
    status, said, _ = judge("stubs", "--hosts", "hosts", "--seconds", "1", program=stub("hangs", "exec sleep 100"))
    expect_in("over ssh, a program that hangs", "one.json: killed after 1 seconds", said)
    child = begin("many", "--hosts", "hosts", "--jobs", "1")
    child.stdout.readline()
    child.send_signal(signal.SIGINT)
    expect_in("over ssh, interrupted", "interrupted: ", child.communicate(timeout=60)[0].decode())
    until = time.monotonic() + 20
    while (left := {it for it in set(os.listdir(tempfile.gettempdir())) - before if it.startswith("judge-")}) and time.monotonic() < until:
        time.sleep(0.2)
    expect("over ssh, what stays", left, set())


def look_at_meanings():
    """What is compared by meaning: the text as a whole, the last picture of each moment, times that differ."""
    wanted = COUNTER["txt"]
    late = b"".join(re.sub(rb"^(end )?(\d+)", lambda it: (it[1] or b"") + b"%d" % (int(it[2]) + 3), line) for line in wanted.splitlines(keepends=True))
    other = wanted.replace(b"180 serial 31\n180 serial 0a\n", b"180 serial 310a\n").replace(b"180 display", b"180 display #####/...../...../...../.....\n180 display")
    closed = wanted.replace(b"end 2500 quiet", b"budget 2500")
    picture = wanted.replace(b"..#../.##..", b"..#../.###.")
    text = wanted.replace(b"760 serial 32", b"760 serial 39")
    for name, given in (("late", late), ("other", other), ("closed", closed), ("picture", picture), ("text", text)):
        put_counter(f"meant/{name}", txt=given)
    for words, passed in (((), set()), (("--compare", "text"), {"late", "other", "picture"}), (("--compare", "pictures"), {"other", "text"}), (("--compare", "text,pictures"), {"other"}),
                          (("--compare", "pictures", "--within", "3"), {"late", "other", "text"}), (("--compare", "pictures", "--within", "2"), {"other", "text"}), (("--within", "3"), {"late"}),
                          (("--compare", "text", "--compare", "pictures", "--within", "3"), {"late", "other"})):
        _, said, _, programs = judged("meant", *words)
        expect(f"meant {words}", {it.removesuffix(".ts") for it, program in programs.items() if program["verdict"] == "passed"}, passed)
        if words == ("--compare", "text"):
            expect_in("meant, a text", "    text.json: line of text 2 differs: 4 of 5 rows are as wanted\n        wanted  text 9\n        came    text 2\n", said)
            expect_in("meant, a closing", "    closed.json: the closing line differs\n        wanted  budget 2500\n        came    end 2500 quiet\n", said)
        if words == ("--compare", "pictures"):
            expect_in("meant, pictures", "    picture.json: picture 1 differs: 3 of 4 rows are as wanted\n", said)
    for words in (("--compare", "words"), ("--within", "x"), ("--within", "-1")):
        expect(f"meant {words}", judge("meant", *words)[0], 2)


def look_at_tasks():
    """One task for all programs, programs by their names, and files that are no programs."""
    for name in ("a", "b"):
        put_counter(f"tasks/{name}", json=None, txt=None)
    put("tasks/b.ts", "basic.pause(1)\n")
    put("task.json", COUNTER["json"])
    put("task.txt", COUNTER["txt"])
    _, said, found, programs = judged("tasks", "--task", "task.json", "--wanted", "task.txt")
    expect("a task", (found, programs["a.ts"]["verdict"], programs["b.ts"]["verdict"]), (counts(passed=1, failed=1), "passed", "failed"))
    expect_in("a task, a run", "    task.json: line 1 differs: 0 of 13 rows are as wanted\n", said)
    expect("a program by its name", judged("tasks/a.ts", "--task", "task.json", "--wanted", "task.txt")[2], counts(passed=1))
    put("quiet.txt", "end 1 quiet\n")
    put("none.json", '{"end": 1000, "events": []}')
    _, _, found, programs = judged("tasks/a.ts", "tasks/b.ts", "--task", "task.json", "--wanted", "task.txt", "--task", "none.json", "--wanted", "quiet.txt")
    expect("two tasks", [len(it["runs"]) for it in programs.values()], [2, 2])
    for words in (("tasks", "--task", "nowhere.json"), ("tasks", "--task", "task.json", "--wanted", "task.txt", "--wanted", "quiet.txt"), ("tasks/a.json",), ("task.json",)):
        expect(f"tasks {words}", judge(*words)[0], 2)
    shutil.copytree(f"{TOP}/examples/lesson", f"{FOLDER}/lesson")
    put("lesson/lamp.arrivals.json", '{"arrivals": []}')
    put("lesson/other.arrivals.json", '{"arrivals": []}')
    put("lesson/stray.txt", "")
    put("lesson/notes.md", "")
    put("lesson/\x1b.odd", "")
    status, said, error = judge("lesson")
    for line in ("lesson/lamp.class.json: a class file, which `sts class` runs, and no lamp.class.txt says what is wanted",
                 "lesson/lamp.arrivals.json: arrivals, which `sts run-at` takes, and no lamp.arrivals.txt says what is wanted",
                 "lesson/other.arrivals.json: arrivals, which `sts run-at` takes, and no program has the name with which they begin", "lesson/stray.txt: no program has the name with which it begins", "lesson/notes.md: no program: its name doesn't end with .ts", "lesson/\\x1b.odd: no program: its name doesn't end with .ts"):
        expect_in("what is left out", f"left out        {line}\n", said)
    expect("no class file is a script", re.findall(r"class\.json[:,] .*refused", said), [])
    expect("a class file as a task", judge("tasks", "--task", "lesson/lamp.class.json")[0], 2)


def class_of(*boards):
    """The text of a class file of boards, each the names of its program and its script in classes/."""
    return json.dumps({"end": 3000, "boards": [{"program": f"classes/{program}", "script": f"classes/{script}"} for program, script in boards], "lose": []})


def look_at_classes():
    """Class files are run as `sts class` runs them, where it is said what is wanted, and compared as others are; files that they name are run by themselves only where something is wanted of them."""
    for it in ("ping.ts", "ping.json", "pong.ts", "no_events.json"):
        shutil.copy(f"{TOP}/examples/class/{it}", put(f"classes/{it}", ""))
    wanted = open(f"{TOP}/examples/class/ping_pong.txt", "rb").read()
    game = class_of(("ping.ts", "ping.json"), ("pong.ts", "no_events.json"))
    put("classes/broken.ts", "let b =\n")
    put("classes/panics.ts", "control.panic(7)\n")
    put("classes/waits.ts", "basic.pause(1)\n")
    put("classes/wrong.json", '{"end": 3000, "events": [{"at": 5, "do": "press"}]}')
    put("classes/game.class.json", game)
    put("classes/game.txt", wanted)
    for name, text, given in (
        ("late", game, wanted.replace(b"1 383 radio 4", b"1 384 radio 4")),
        ("refused", class_of(("ping.ts", "ping.json"), ("broken.ts", "no_events.json")), b"0 end 0 quiet\n"),
        ("refused as wanted", class_of(("ping.ts", "ping.json"), ("broken.ts", "no_events.json")), b"1 refused 6 2 1\n"),
        ("script", class_of(("ping.ts", "ping.json"), ("pong.ts", "wrong.json")), b"0 end 0 quiet\n"),
        ("empty", class_of(), b"0 end 0 quiet\n"),
        ("missing", class_of(("ping.ts", "ping.json"), ("nowhere.ts", "no_events.json")), b"0 end 0 quiet\n"),
        ("panic", class_of(("panics.ts", "no_events.json"), ("waits.ts", "no_events.json")), b"0 panic 0 7\n1 end 1 quiet\n"),
    ):
        put(f"classes/{name}.class.json", text)
        put(f"classes/{name}.class.txt", given)
    status, said, found, programs = judged("classes")
    expect("classes", (status, found), (1, counts(passed=3, failed=1, refused=3, not_run=1)))
    runs = {name.removesuffix(".class.json"): [(it["name"], it["verdict"], it["says"]) for it in program["runs"]] for name, program in programs.items()}
    says = {"late": ("failed", "line 9 differs"), "refused": ("refused", "the program of board 1 is refused by code 6 at line 2, column 1"), "script": ("refused", "1 script refused 2"),
            "empty": ("refused", "class refused 3"), "missing": ("not run", "there is no file classes/nowhere.ts, which board 1 names: it is looked up from the folder of this command")}
    expect("classes, each", runs, {it: [(f"{it}.class.json", *says.get(it, ("passed", "")))] for it in ("game", "refused as wanted", "panic", *says)})
    expect_in("a class's refusal by its text", "refused by code 6 at line 2, column 1\n        A value is missing after this sign.\n", said)
    expect_in("a class's script", '1 script refused 2\n        line 1: entry 1: "do" is "down", "up", "raise" or "unplug"; here it is "press"', said)
    expect("a class by its name", judged("classes/game.class.json")[2], counts(passed=1))
    expect("a program of a class by its name", judged("classes/waits.ts")[2], counts(no_wanted_file=1))
    put("classes/ping.txt", "180 radio 1\nend 180 quiet\n")
    expect("a program of a class of which something is wanted", judged("classes")[3]["ping.ts"]["verdict"], "passed")
    for end, text in (("ts", "basic.pause(1)\n"), ("json", '{"end": 1000, "events": []}'), ("txt", "end 1 quiet\n"), ("class.json", game)):
        put(f"solo/solo.{end}", text)
    status, said, found, _ = judged("solo")
    expect("a class beside a program with a script of its name", (status, found), (0, counts(passed=1)))
    expect_in("a class beside a program with a script of its name", "left out        solo/solo.class.json: a class file, which `sts class` runs, and no solo.class.txt says what is wanted\n", said)
    put("hosts", ":\n")
    expect("classes, by --hosts", judged("classes", "--hosts", "hosts")[2], counts(passed=4, failed=1, refused=3, not_run=1))
    look_at_boards(game, wanted)


def look_at_boards(game, wanted):
    """By meaning each board is compared by itself."""
    late = re.sub(rb"(?m)^(\d (?:end )?)(\d+)", lambda it: it[1] + b"%d" % (int(it[2]) + 2), wanted)
    put("boards/late.class.json", game)
    put("boards/late.class.txt", b"".join(sorted(late.splitlines(keepends=True), key=lambda it: it[:1])))
    put("boards/text.class.json", game)
    put("boards/text.class.txt", wanted.replace(b"0 384 serial 34", b"0 384 serial 39"))
    put("boards/picture.class.json", game)
    put("boards/picture.class.txt", wanted.replace(b"1 283 display ...../...../..#..", b"1 283 display ...../...../.##.."))
    put("boards/closed.class.json", game)
    put("boards/closed.class.txt", wanted.replace(b"1 end 486 quiet", b"1 panic 486 7"))
    for words, passed in (((), set()), (("--compare", "text"), {"late", "picture"}), (("--compare", "pictures", "--within", "2"), {"late", "text"}), (("--within", "2"), {"late"})):
        _, said, _, programs = judged("boards", *words)
        expect(f"boards {words}", {it.removesuffix(".class.json") for it, program in programs.items() if program["verdict"] == "passed"}, passed)
        for mode, line in (("text", "text.class.json: line of text 1 of board 0 differs: 0 of 1 rows are as wanted"), ("text", "closed.class.json: the closing line of board 1 differs"),
                           ("pictures", "picture.class.json: picture 3 of board 1 differs: 5 of 6 rows are as wanted")):
            if mode in words:
                expect_in(f"boards {words}", f"    {line}\n", said)


def look_at_arrivals():
    """Arrivals are given to `sts run-at` with their program and its script."""
    for it in os.listdir(f"{TOP}/examples/arrivals"):
        for name in ("good", "both", "odd", "other"):
            shutil.copy(f"{TOP}/examples/arrivals/{it}", put(f"arrive/{it.replace('polling', name)}", ""))
    put("arrive/both.arrivals.txt", open(f"{TOP}/examples/arrivals/polling.txt", "rb").read())
    put("arrive/both.txt", "budget 0\n")
    put("arrive/odd.arrivals.json", '{"arrivals": [{"after": 9, "do": "down", "button": "A"}, {"after": 5, "do": "up", "button": "A"}]}')
    put("arrive/other.txt", "0 serial 646f776e\n0 serial 7571\nend 0 quiet\n")
    shutil.copy(f"{TOP}/examples/arrivals/polling.ts", put("arrive/scriptless.ts", ""))
    put("arrive/scriptless.arrivals.json", '{"arrivals": []}')
    put("arrive/scriptless.arrivals.txt", "budget 0\n")
    for more in ((), ("--hosts", "hosts")):
        put("hosts", ":\n")
        status, said, found, programs = judged("arrive", "--budget", "100000", *more)
        expect(f"arrivals {more}", (status, found), (1, counts(passed=2, failed=1, refused=1, not_run=1)))
        runs = {name: [(it["name"], it["verdict"], it["says"]) for it in program["runs"]] for name, program in programs.items()}
        expect(f"arrivals {more}, each", runs, {
            "good.ts": [("good.arrivals.json", "passed", "")], "both.ts": [("both.json", "passed", ""), ("both.arrivals.json", "passed", "")],
            "odd.ts": [("odd.arrivals.json", "refused", "arrivals refused 3")], "other.ts": [("other.arrivals.json", "failed", "line 2 differs")],
            "scriptless.ts": [("scriptless.arrivals.json", "not run", "there is no script scriptless.json, which goes with arrivals")]})
        expect_in("refused arrivals", "arrivals refused 3\n        line 1: arrival 2: 5 comes after 9\n", said)


def look_at_files():
    """Reports: none takes the place of a file that it didn't make, and none is lost where the output can't be written."""
    put("notes.txt", "kept\n")
    for option in ("--json", "--junit", "--html"):
        status, said, error = judge("stubs", option, "notes.txt")
        expect(f"{option} over another file", (status, said, open(f"{FOLDER}/notes.txt", encoding="utf-8").read()), (2, "", "kept\n"))
        expect_in(f"{option} over another file", "give another name, or --force", error)
        for words in ((), ("--force",)):
            expect(f"{option} over its own file {words}", judge("stubs", option, f"own{option}", *words)[0], 0)
            expect(f"{option} over its own file {words}, again", judge("stubs", option, f"own{option}")[0], 0)
        expect(f"{option} by force", judge("stubs", option, "notes.txt", "--force")[0], 0)
        put("notes.txt", "kept\n")
    put_counter("names/<b>\x1b\u202e", txt=COUNTER["txt"].replace(b"760 serial 32", b"760 serial 3c623e"))
    status, said, _ = judge("names", "--html", "names.html")
    with open(f"{FOLDER}/names.html", encoding="utf-8") as file:
        page = file.read()
    expect("names in a page", ("&lt;b&gt;\\x1b\\xe2\\x80\\xae.ts" in page, "<b>" in page, "\x1b" in page + said, "\u202e" in page + said), (True, False, False, False))
    expect_in("a page", "1 programs: 1 failed", page)
    expect("a word that isn't taken", judge("names", "--\x1b\u202e")[2].split("\n")[-2], "judge: error: unrecognized arguments: --\\x1b\\xe2\\x80\\xae")
    with open("/dev/full", "wb") as full:
        child = begin("stubs", stdout=full)
        error = child.communicate(timeout=60)[1].decode()
        expect("a full device", (child.returncode, error), (22, "judge: the output couldn't be written: No space left on device\n"))


def look_at_documents():
    """What the documents show behind `$ bin/judge` is what it writes."""
    shutil.copytree(f"{TOP}/examples", f"{FOLDER}/as/examples")
    os.mkdir(f"{FOLDER}/as/bin")
    for it in [*glob.glob(f"{JUDGE}*"), f"{TOP}/bin/printable.py"]:
        shutil.copy(it, f"{FOLDER}/as/bin/{os.path.basename(it)}")
    stub("as/bin/program", f"[ \"${{1:-}}\" = view ] && exec '{TOP}/bin/program' view; echo '{PROGRAM}'")
    shown = 0
    for document in [f"{TOP}/README.md", *sorted(glob.glob(f"{TOP}/docs/*.md"))]:
        with open(document, encoding="utf-8") as file:
            blocks = re.split(r"\n(?! {4}|\n {4})", file.read())
        for block in blocks:
            lines = [it.removeprefix("    ") for it in block.split("\n")]
            begins = [at for at, it in enumerate(lines) if it.startswith("$ ")]
            for at, end in zip(begins, [*begins[1:], len(lines)]):
                if "bin/judge" in lines[at]:
                    ran = subprocess.run(["sh", "-c", lines[at][2:]], cwd=f"{FOLDER}/as", stdout=subprocess.PIPE, stderr=subprocess.DEVNULL, timeout=120, check=False)
                    expect(f"{document}: {lines[at]}", ran.stdout.decode().rstrip("\n"), "\n".join(lines[at + 1 : end]).rstrip("\n"))
                    shown += 1
    expect("commands in the documents", shown > 0, True)


for look in (look_at_examples, look_at_wrong_copies, look_at_odd_folders, look_at_stubs, look_at_loops, look_at_words, look_at_meanings, look_at_tasks, look_at_classes, look_at_arrivals, look_at_files, look_at_killed_runs,
             look_at_interrupts, look_at_terminal, look_at_hosts, look_at_documents):
    look()
print(f"judge: {looked} things looked at, {wrong} wrong")
sys.exit(1 if wrong else 0)
