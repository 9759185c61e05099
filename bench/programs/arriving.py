#!/usr/bin/env python3
"""Gives generated programs with scripts (generate.py) and arrivals drawn by chance to a built program, and compares with the independent reading of the rules (reading.py).

What arrives behind N instructions comes, in the program's meaning, behind k counted steps: k is at most N, N is less than 512 more than 512 k, and these numbers don't fall. The reading is
asked for such steps with which it gives the transcript that `run-at` writes; all that arrive must come, unless the program has ended within so many steps. It tries a step for each place
between two requests that could tell what arrived before from what arrives behind: events raised, turns given up, and looks at the button; and those of the first arrivals must also give what
`run-at` writes with these alone. Where it can't tell within its tries it says so.

usage: arriving.py PROGRAM SEED COUNT [PROCESSES]
       arriving.py --fits TEXT SCRIPT ARRIVALS TRANSCRIPT      the same of one program, and of a transcript that stands in a file
"""
import collections
import json
import multiprocessing
import os
import random
import shutil
import signal
import subprocess
import sys
import tempfile
import time

sys.path.insert(0, os.path.dirname(os.path.abspath(__file__)))
import generate
import reading

KEPT = os.path.join(tempfile.gettempdir(), "sts-arriving")
TRIES = 400
LONGEST = 1_000_000
BOUND = 512
MATTER = {"raiseEvent", "raiseNow", "pause", "waitForEvent", "ends"}
STATUS = {"end": 0, "panic": 3}


class Late(Exception):
    pass


def late(*_):
    raise Late()


LISTENING = [
    "control.onEvent(40, 0, function () { serial.writeNumber(control.eventValue()) })",
    "control.onEvent(41, 0, function () { basic.pause(1); serial.writeNumber(100 + control.eventValue()) })",
    "control.onEventFlags(42, 0, function () { serial.writeNumber(200); basic.pause(2); serial.writeNumber(input.runningTime()) }, EventFlags.Reentrant)",
    "input.onButtonPressed(Button.A, function () { serial.writeNumber(300) })",
    "control.onEventFlags(1, 0, function () { serial.writeNumber(400 + control.eventValue()) }, EventFlags.DropIfBusy)",
    "control.inBackground(function () { control.waitForEvent(0, 0); serial.writeNumber(500 + control.eventValue()) })",
    "for (let turn = 0; turn < 40; turn++) { if (input.buttonIsPressed(Button.A)) { serial.writeNumber(turn) } }",
    "for (let turn = 0; turn < 20; turn++) { if (turn % 4 == 0) { control.raiseEvent(40, turn) } if (input.buttonIsPressed(Button.B)) { basic.pause(1) } }",
]


def listening(chance, text):
    """Gives a program with some things in front of it that hear what arrives."""
    return "\n".join([*chance.sample(LISTENING, chance.randrange(1, 4)), text])


def some_arrivals(chance, executed):
    """Gives up to four arrivals behind about as many instructions as a run has."""
    numbers = sorted(chance.choice([chance.randrange(1, executed + 1), chance.randrange(1, min(executed, 600) + 1), chance.randrange(1, 2 * executed + 2)])
                     for _ in range(chance.choice([1, 1, 2, 2, 3, 4])))
    found = []
    for number in numbers:
        act = chance.choice([{"do": "raise", "source": chance.randrange(40, 43), "value": chance.randrange(4)}, {"do": "raise", "source": chance.choice([1, 2]), "value": chance.randrange(1, 5)},
                             {"do": chance.choice(["down", "down", "up"]), "button": chance.choice("AAB")}])
        found.append({"after": number, **act})
    return found


class Tries:
    """The search for steps. With the first so many arrivals the program writes such a transcript, where that is known."""

    def __init__(self, text, script, arrivals, transcripts):
        self.text, self.script, self.arrivals, self.transcripts = text, script, arrivals, transcripts
        self.left = TRIES

    def places(self, world, it, least):
        """Gives a step for each place that the number allows."""
        low, high = max(least, it["after"] // BOUND), min(it["after"], world.steps - 1)
        pressed = {"A": 1, "B": 2}.get(it.get("button"))
        marks = [mark for mark in world.marks if mark[1] in MATTER or (mark[1] == "buttonIsPressed" and mark[2] == [pressed])]
        return sorted({low, *(mark[0] for mark in marks if low < mark[0] <= high)}) if low <= high else []

    def found(self, steps=()):
        """Gives steps for all arrivals that begin with these, with which the transcript is the one that is due; steps that end before are those of arrivals that come too late."""
        if self.left <= 0:
            return None
        self.left -= 1
        at = len(steps)
        # (without its arrivals a program may run on for ever: what comes next comes by then)
        most = LONGEST if self.transcripts[at] is not None or at == len(self.arrivals) else self.arrivals[at]["after"] + 1
        world = reading.run_of(self.text, self.script, list(zip(steps, self.arrivals)), most)
        if self.transcripts[at] is not None and world.out != self.transcripts[at]:
            return None
        if at == len(self.arrivals) or (world.steps <= self.arrivals[at]["after"] and world.out == self.transcripts[-1]):
            return steps
        for step in self.places(world, self.arrivals[at], steps[-1] if steps else 0):
            tried = self.found((*steps, step))
            if tried is not None:
                return tried
        return None


def faults(program, seed, folder, seen):
    chance = random.Random(f"arrivals {seed}")
    text, script = generate.made(seed)
    text = listening(chance, text)

    def write(name, content):
        with open(os.path.join(folder, name), "w", encoding="utf-8") as file:
            file.write(content)

    def call(*words):
        ran = subprocess.run([program, *words], cwd=folder, stdout=subprocess.PIPE, stderr=subprocess.DEVNULL, timeout=60)
        return ran.returncode, ran.stdout

    write("p.ts", text)
    write("s.json", json.dumps(script))
    status, out = call("run", "p.ts", "s.json", "--stats", "--image", "--budget=2000000")
    if status not in (0, 3):
        seen["refused or long"] += 1
        return []
    executed = int(out[out.rfind(b"\ninstructions ") :].split()[1])
    arrivals = some_arrivals(chance, executed)
    write("a.json", json.dumps({"arrivals": arrivals}))
    write("none.json", '{"arrivals":[]}')
    found = []
    if call("run-at", "p.ts", "s.json", "none.json") != call("run", "p.ts", "s.json"):
        found.append("run-at without arrivals is no run")
    status, out = call("run-at", "p.ts", "s.json", "a.json", "--budget=20000000")
    wanted = out.decode().split("\n")[:-1]
    closing = wanted[-1].split()[0] if wanted else ""
    if status == 4 and closing == "budget":
        seen["cut"] += 1
        return found
    if STATUS.get(closing) != status:
        return [*found, f"run-at: {status}, {out[-60:]!r}"]
    transcripts = []
    for at in range(len(arrivals) + 1):
        write("some.json", json.dumps({"arrivals": arrivals[:at]}))
        transcripts.append(call("run-at", "p.ts", "s.json", "some.json", "--budget=20000000")[1].decode().split("\n")[:-1])
    tries = Tries(text, script, arrivals, transcripts)
    signal.signal(signal.SIGALRM, late)
    signal.alarm(60)
    try:
        steps = tries.found()
    except (Late, RecursionError):
        seen["not read in time"] += 1
        return found
    finally:
        signal.alarm(0)
    if steps is None and tries.left > 0:
        found.append(f"no steps give {out[-120:]!r}")
    seen["not told within the tries" if steps is None and tries.left <= 0 else "read"] += 1
    seen["changed by arrivals"] += call("run", "p.ts", "s.json")[1] != out
    return found


def work(order):
    program, first, count = order
    folder = tempfile.mkdtemp()
    seen, wrong = collections.Counter(), []
    for seed in range(first, first + count):
        found = faults(program, seed, folder, seen)
        if found:
            kept = os.path.join(KEPT, str(seed))
            os.makedirs(kept, exist_ok=True)
            for name in "p.ts", "s.json", "a.json":
                shutil.copy(os.path.join(folder, name), kept)
            wrong.append(f"program {seed} (in {kept}): " + "; ".join(found))
    shutil.rmtree(folder)
    return seen, wrong


def fits(text, script, arrivals, transcript):
    """Whether the reading gives this transcript for some steps of the arrivals."""
    with open(text, encoding="utf-8", newline="") as file:
        read = file.read()
    given = [json.load(open(it, encoding="utf-8")) for it in (script, arrivals)]
    wanted = open(transcript, encoding="ascii").read().split("\n")[:-1]
    come = given[1]["arrivals"]
    steps = Tries(read, given[0], come, [None] * len(come) + [wanted]).found()
    print(f"arriving: {text}: " + ("no steps fit" if steps is None else f"behind the steps {', '.join(map(str, steps))}"))
    sys.exit(1 if steps is None else 0)


def main():
    if sys.argv[1] == "--fits":
        fits(*sys.argv[2:])
    program, first, count = os.path.abspath(sys.argv[1]), int(sys.argv[2]), int(sys.argv[3])
    processes = int(sys.argv[4]) if len(sys.argv) > 4 else os.cpu_count()
    step = max(1, min(25, -(-count // processes)))
    orders = [(program, at, min(step, first + count - at)) for at in range(first, first + count, step)]
    begun = time.monotonic()
    with multiprocessing.Pool(processes) as pool:
        results = pool.map(work, orders, 1)
    seen, wrong = sum((it[0] for it in results), collections.Counter()), [line for it in results for line in it[1]]
    for line in wrong[:20]:
        print(line)
    told = ", ".join(f"{key}: {n}" for key, n in sorted(seen.items(), key=str))
    print(f"arriving: {count} programs from {first} on in {time.monotonic() - begun:.0f} s; {told}; {len(wrong)} wrong")
    sys.exit(1 if wrong else 0)


if __name__ == "__main__":
    main()
