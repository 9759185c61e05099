#!/usr/bin/env python3
"""Gives classes of one to eight boards, with generated programs that send and hear numbers by radio, scripts and losses, to a built program, and compares what `class` writes with the independent
reading of the rules (reading.py).

A class that ends writes what the reading gives, whole. Of one that a budget of M instructions cuts, at T for board b, the reading gives all lines of the moments before T, those at T of the boards
before b, and behind them the first lines of b at T: as many as b has written behind some number k of its counted steps, which is at most M and not below M / 512, while its clock stands at T; and
no board before made more than M steps. A class with a program that `check` refuses is refused so, behind the first such board's number.

usage: classes.py PROGRAM SEED COUNT [PROCESSES]
"""
import collections
import json
import multiprocessing
import os
import random
import shutil
import signal
import subprocess
import sys
import tempfile
import time

sys.path.insert(0, os.path.dirname(os.path.abspath(__file__)))
import generate
import reading

KEPT = os.path.join(tempfile.gettempdir(), "sts-classes")
BOUND = 512
LONGEST = 2_000_000
SECONDS = 40

HEARING = [
    "control.onEvent(200, 0, function () { serial.writeNumber(control.eventValue()) })",
    "control.onEvent(200, 0, function () { let heard = control.eventValue(); if (heard > 0 && heard < 40) { radio.sendNumber(heard + 7) } })",
    "control.onEvent(200, 3, function () { basic.pause(2); radio.sendNumber(5); serial.writeNumber(input.runningTime()) })",
    "control.onEventFlags(200, 0, function () { serial.writeNumber(control.eventValue()); basic.pause(3); radio.sendNumber(30) }, EventFlags.DropIfBusy)",
    "control.onEventFlags(200, 0, function () { basic.pause(1); serial.writeNumber(control.eventValue()) }, EventFlags.Reentrant)",
    "control.onEvent(0, 0, function () { serial.writeNumber(control.eventValue()) })",
    "control.onEvent(200, 9, function () { control.panic(9) })",
    "control.inBackground(function () { while (input.runningTime() < 40) { control.waitForEvent(200, 0); radio.sendNumber((control.eventValue() * 3) & 63) } })",
    "control.inBackground(function () { control.waitForEvent(200, 0); serial.writeNumber(control.eventValue()) })",
    "control.raiseEvent(200, 8)",
]
SENDING = [
    "radio.sendNumber(3)",
    "control.inBackground(function () { for (let turn = 0; turn < 5; turn++) { radio.sendNumber(turn); basic.pause(turn) } })",
    "for (let turn = 0; turn < 34; turn++) { radio.sendNumber(turn) }",
    "control.inBackground(function () { basic.pause(25); radio.sendNumber(9); radio.sendNumber(-1) })",
    "input.onButtonPressed(Button.A, function () { radio.sendNumber(input.runningTime()) })",
    "control.inBackground(function () { basic.pause(11); for (let turn = 0; turn < 12; turn++) { radio.sendNumber(turn * 100) } })",
]


class Late(Exception):
    pass


def late(*_):
    raise Late()


def program_of(chance, seed):
    """Gives a program that sends and hears, and its script."""
    text, script = generate.made(seed)
    front = [*chance.sample(HEARING, chance.choice([0, 1, 1, 2, 2, 3])), *chance.sample(SENDING, chance.choice([0, 1, 1, 2]))]
    chance.shuffle(front)
    return "\n".join([*front, text] if chance.random() < 0.7 else front) + "\n", script


def made(seed):
    """Gives a class: programs with scripts, the end of all scripts, and losses."""
    chance = random.Random(f"class {seed}")
    members = [program_of(chance, 8 * seed + at) for at in range(chance.choice([1, 2, 2, 2, 3, 3, 4, 5, 6, 7, 8, 8]))]
    least = max([it["at"] for _, script in members for it in script["events"]], default=0)
    end = least + chance.choice([0, 1, 3, 30, 300])
    for _, script in members:
        script["end"] = end
        script["events"] += [{"at": chance.randrange(end + 1), "do": "raise", "source": 200, "value": chance.randrange(12)} for _ in range(chance.choice([0, 0, 0, 1, 3]))]
        script["events"].sort(key=lambda it: it["at"])
    numbers = chance.choice([2, len(members), 8])
    lose = [{"at": chance.randrange(chance.choice([1, 13, 60, end + 2])), "from": chance.randrange(numbers), "to": chance.randrange(numbers)} for _ in range(chance.choice([0, 0, 3, 20, 200]))]
    return members, end, lose


class Read:
    """The reading of a class, in which no board makes more than so many counted steps."""

    def __init__(self, members, end, lose, most):
        self.boards, self.cut = reading.Boards(members, end, lose, most), None
        try:
            self.boards.runs()
        except reading.CutClass as cut:
            number = cut.args[0]
            self.cut = self.boards.worlds[number].clock, number

    def steps_through(self, number, moment):
        """How many steps a board has made when it has gone through a moment."""
        world = self.boards.worlds[number]
        return next((steps for steps, clock, _ in world.trail if clock > moment), world.steps)

    def allows(self, number, moment, written, budget):
        """Whether some number of steps that the budget allows leaves the board's clock at this moment, with so many lines, and the run not over."""
        world = self.boards.worlds[number]
        trail = [*world.trail, (world.steps, None, None)]
        return any(clock == moment and lines == written and max(steps, budget // BOUND) <= min(budget, behind - 1) for (steps, clock, lines), (behind, _, _) in zip(trail, trail[1:]))

    def fault(self, lines, budget):
        """What is wrong with the lines of a class that a budget has cut."""
        closing = lines[-1].split(" ") if lines else []
        if len(closing) != 3 or closing[1] != "budget" or int(closing[0]) >= len(self.boards.worlds):
            return "no closing line of a budget"
        number, moment = int(closing[0]), int(closing[2])
        if self.cut and (moment, number) > self.cut:
            return f"board {self.cut[1]} can't have gone through {self.cut[0]}"
        before = [f"{at} {text}" for when, at, text in self.boards.lines if (when, at) < (moment, number)]
        own = [f"{number} {text}" for when, at, text in self.boards.lines if (when, at) == (moment, number)]
        rest = lines[len(before) : -1]
        if lines[: len(before)] != before or rest != own[: len(rest)]:
            return "no prefix"
        earlier = sum(1 for when, at, _ in self.boards.lines if at == number and when < moment)
        if not self.allows(number, moment, earlier + len(rest), budget):
            return "no number of steps gives this"
        others = [at for at in range(len(self.boards.worlds)) if at != number and self.steps_through(at, moment if at < number else moment - 1) > budget]
        return f"board {others[0]} has made more steps before" if others else None


def read(members, end, lose, most):
    # (seconds of a processor, whatever else runs)
    signal.signal(signal.SIGVTALRM, late)
    signal.setitimer(signal.ITIMER_VIRTUAL, SECONDS)
    try:
        return Read(members, end, lose, most)
    except (Late, RecursionError):
        return None
    finally:
        signal.setitimer(signal.ITIMER_VIRTUAL, 0)


def write(folder, name, content):
    with open(os.path.join(folder, name), "w", encoding="utf-8") as file:
        file.write(content)


def faults(program, seed, folder, seen):
    members, end, lose = made(seed)
    chance = random.Random(f"budget {seed}")

    def call(*words):
        ran = subprocess.run([program, *words], cwd=folder, stdout=subprocess.PIPE, stderr=subprocess.DEVNULL, timeout=600)
        return ran.returncode, ran.stdout.decode()

    for at, (text, script) in enumerate(members):
        write(folder, f"p{at}.ts", text)
        write(folder, f"s{at}.json", json.dumps(script))
    for name, lost in (("c.json", lose), ("all.json", [])):
        write(folder, name, json.dumps({"end": end, "boards": [{"program": f"p{at}.ts", "script": f"s{at}.json"} for at in range(len(members))], "lose": lost}))
    status, out = call("class", "c.json", f"--budget={LONGEST}")
    seen[f"status {status}"] += 1
    if status == 10:
        checked = [call("check", f"p{at}.ts") for at in range(len(members))]
        refused = next((at for at, it in enumerate(checked) if it[0] != 0), None)
        if refused is not None and out == f"{refused} {checked[refused][1]}":
            return []
        return [f"class: {status}, {out[-60:]!r}, and check says {checked}"]
    seen[f"{len(members)} boards"] += 1
    whole = read(members, end, lose, LONGEST)
    if whole is None:
        seen["not read in time"] += 1
        return []
    found, lines = [], out.split("\n")[:-1]
    if status == 4:
        wrong = whole.fault(lines, LONGEST)
        if wrong:
            found.append(f"class: {wrong}: {out[-90:]!r}")
    else:
        wanted = whole.boards.transcript()
        stopped = any(world.is_stopped for world in whole.boards.worlds)
        if whole.cut or lines != wanted or status != (3 if stopped else 0):
            found.append(f"class: {status}, {out[-120:]!r}, and the rules give {wanted[-3:]}")
        seen["by the script"] += any(" end " in it and it.endswith(" script") for it in lines)
        seen["with a panic"] += stopped
    if lose:
        seen["changed by losses"] += call("class", "all.json", f"--budget={LONGEST}") != (status, out)
    most = max(world.steps for world in whole.boards.worlds)
    budget = chance.choice([chance.randrange(1, 400), chance.randrange(1, 4 * most + 2), int(10 ** chance.uniform(0, 5)), chance.randrange(most, 10 * most + 1000)])
    budget = min(budget, LONGEST) if whole.cut else budget
    cut, part = call("class", "c.json", f"--budget={budget}")
    if cut == 4:
        wrong = whole.fault(part.split("\n")[:-1], budget)
        if wrong:
            found.append(f"class --budget {budget}: {wrong}: {part[-90:]!r}")
        seen["cut"] += 1
        seen["cut behind a first moment"] += not part.endswith(" budget 0\n")
        seen["cut behind board 0"] += not part.split("\n")[-2].startswith("0 ")
    elif (cut, part) != (status, out):
        found.append(f"class --budget {budget}: {cut}, {part[-60:]!r}")
    seen["lines"] += len(lines)
    seen["heard"] += sum(1 for it in lines if it.split(" ")[2:3] == ["radio"])
    return found


def work(order):
    program, first, count = order
    folder = tempfile.mkdtemp()
    seen, wrong = collections.Counter(), []
    for seed in range(first, first + count):
        found = faults(program, seed, folder, seen)
        if found:
            kept = os.path.join(KEPT, str(seed))
            shutil.copytree(folder, kept, dirs_exist_ok=True)
            wrong.append(f"class {seed} (in {kept}): " + "; ".join(found))
    shutil.rmtree(folder)
    return seen, wrong


def main():
    program, first, count = os.path.abspath(sys.argv[1]), int(sys.argv[2]), int(sys.argv[3])
    processes = int(sys.argv[4]) if len(sys.argv) > 4 else os.cpu_count()
    step = max(1, min(25, -(-count // processes)))
    orders = [(program, at, min(step, first + count - at)) for at in range(first, first + count, step)]
    begun = time.monotonic()
    with multiprocessing.Pool(processes) as pool:
        results = pool.map(work, orders, 1)
    seen, wrong = sum((it[0] for it in results), collections.Counter()), [line for it in results for line in it[1]]
    for line in wrong[:20]:
        print(line)
    told = ", ".join(f"{key}: {n}" for key, n in sorted(seen.items(), key=str))
    print(f"classes: {count} from {first} on in {time.monotonic() - begun:.0f} s; {told}; {len(wrong)} wrong")
    sys.exit(1 if wrong else 0)


if __name__ == "__main__":
    main()
