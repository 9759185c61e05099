"""Lets each allocation, each opening and reading of a file, and each write of some runs fail in turn, one a run, until a run makes fewer calls.

`sts`: where memory is refused it ends with status 30 and has written nothing, or the line `big 1` alone. Where a file fails it writes `folder failed`, with status 20. Where standard
output fails it ends with status 22: what was written begins the output, and standard error has the raw bytes of the whole lines at the serial port. Where standard error fails, which is the
device at that port, the output stays, and no byte follows: what is written at once is the texts up to one that ends a line, or to the run's end. Calls that are interrupted, or move one byte,
change nothing.

By `class` standard error stays silent, and its lines at the serial port have no device.

`rows tool_rows` makes the top call over four devices in memory, each told a word before: where memory is refused it says that the call answered 30, that the sink took no more than that, and that the
devices are as they were.

usage: faults.py LIBRARY STS [ROWS]      LIBRARY is faults.c, compiled
"""
import concurrent.futures
import os
import subprocess
import sys
import tempfile

TOP = os.path.dirname(os.path.dirname(os.path.abspath(__file__)))
HANDLERS = """function deep(n: number): number {
    let k = n * 3
    basic.pause(5)
    return k
}
function mid(n: number): number {
    let m = n + 1
    let r = deep(m)
    return m * 100 + r
}
control.onEvent(50, 1, function () {
    serial.writeNumber(mid(6))
})
control.onEvent(50, 1, function () {
    let a = 11
    let b = 22
    let c = 33
    let d = 44
    serial.writeNumber(a + b + c + d)
})
control.raiseEvent(50, 1)
"""
FILES = {
    "toggles.ts": "basic.forever(function () { led.toggle(0, 0) })",
    "toggles.json": '{"end":50,"events":[]}',
    "handlers.ts": HANDLERS,
    "lines.ts": 'serial.writeLine("ab")\nserial.writeNumber(1)\nserial.writeLine("cd")\nserial.writeString("e\\nf")',
    "hears.ts": "control.onEvent(50, 0, function () { serial.writeNumber(control.eventValue()) })",
    "hears.json": '{"end":1000,"events":[]}',
    "arrivals.json": '{"arrivals":[{"after":1,"do":"raise","source":50,"value":7}]}',
    "ends.hex": ":0E000000803F00200D0000000D00000000DF1A\n:00000001FF\n",
    "sends.ts": "radio.sendNumber(5)",
    "radio.ts": "control.onEvent(200, 0, function () { serial.writeNumber(control.eventValue()) })",
    "two.json": '{"end":1000,"boards":[{"program":"sends.ts","script":"hears.json"},{"program":"radio.ts","script":"hears.json"}],"lose":[]}',
    "counts.ts": "let n = 0\ncontrol.onEvent(200, 0, function () { n += control.eventValue() })\nradio.sendNumber(1)\nbasic.pause(2)\nserial.writeNumber(n)",
    "eight.json": '{"end":1000,"boards":[' + ",".join(['{"program":"counts.ts","script":"hears.json"}'] * 8) + '],"lose":[{"at":0,"from":0,"to":7}]}',
}
TOGGLED = "0 display #..../...../...../...../.....\n20 display ...../...../...../...../.....\n40 display #..../...../...../...../.....\nend 50 script\n"
HANDLED = "0 serial 313130\n5 serial 373231\nend 5 quiet\nstats spawned 1 blocked 1 words 25 seats 1\n"
HEARD = "0 serial 37\nend 0 quiet\n"
LINES = "0 serial 6162\n0 serial 0d0a\n0 serial 31\n0 serial 6364\n0 serial 0d0a\n0 serial 650a66\nend 0 quiet\n"
TWO = "0 0 radio 5\n1 1 serial 35\n0 end 1 quiet\n1 end 1 quiet\n"
EIGHT = "".join([*(f"{board} 0 radio 1\n" for board in range(8)), *(f"{board} 2 serial {'37' if board < 7 else '36'}\n" for board in range(8)), *(f"{board} end 2 quiet\n" for board in range(8))])
BIG = "big 1\n10 serial 333531\nend 10 quiet\nstats spawned 6 blocked 0 words 450 seats 6\n"
GAME_FRAMES = "0:4194304 0:4194305 80:1 80:2097153 100:2097152 100:2097184 150:32 150:1048608 200:1048576 200:1049600 300:1048576 300:1081344 400:1048576 400:14815428"


def read(name):
    with open(f"{TOP}/examples/{name}", encoding="ascii") as file:
        return file.read()


def commands():
    """Each command of `sts`, what it writes, and what it may have written where memory was refused. What `build` writes is any text."""
    return [
        ("run toggles.ts toggles.json", TOGGLED, [""]),
        ("run handlers.ts --stats", HANDLED, [""]),
        ("run lines.ts", LINES, [""]),
        ("run-hex ends.hex", "end 0 quiet\n", [""]),
        ("run-at hears.ts hears.json arrivals.json", HEARD, [""]),
        ("class two.json", TWO, [""]),
        ("class eight.json", EIGHT, [""]),
        ("big 1 --stats", BIG, ["", "big 1\n"]),
        ("build game.ts", None, [""]),
        ("run-hex game.hex game.json", read("game.txt"), [""]),
    ]


def devices(*words):
    return "".join(f" log 7:{port}" + (f" {words[port]}" if port < len(words) and words[port] else "") for port in range(4)) + "\n"


def calls():
    """The same of the rows of `tool_rows`."""
    stay = devices()
    return [
        ("toggles", f"0 |{TOGGLED}|" + devices("0:1 20:0 40:1"), [f"30 ||{stay}"]),
        ("handlers", f"0 |{HANDLED}|" + devices("", "0:49 0:49 0:48 5:55 5:50 5:49"), [f"30 ||{stay}"]),
        ("ends", f"0 |end 0 quiet\n|{stay}", [f"30 ||{stay}"]),
        ("arrivals", f"0 |{HEARD}|" + devices("", "0:55"), [f"30 ||{stay}"]),
        ("two", f"0 |{TWO}|{stay}", [f"30 ||{stay}"]),
        ("eight", f"0 |{EIGHT}|{stay}", [f"30 ||{stay}"]),
        ("big", f"0 |{BIG}|" + devices("", "10:51 10:53 10:49"), [f"30 ||{stay}", f"30 |big 1\n|{stay}"]),
        ("built", f"0 |{read('game.txt')}|" + devices(GAME_FRAMES), [f"30 ||{stay}", "built: 30, 0 bytes\n"]),
    ]


MOST_AT_ONCE = 64


class Faults:
    def __init__(self, library, folder):
        self.library, self.folder = library, folder
        self.runs = self.wrong = 0

    def run(self, program, words, fault):
        """Runs a program with that fault, and gives the status, both outputs and whether the fault was met."""
        met = os.path.join(self.folder, f"met {fault}")
        environment = {"LD_PRELOAD": self.library, "FAULT": fault, "FAULT_MET": met}
        ran = subprocess.run([program, *words.split()], cwd=self.folder, env=environment, stdin=subprocess.DEVNULL, capture_output=True, timeout=60)
        was_met = os.path.exists(met)
        if was_met:
            os.remove(met)
        return ran.returncode, ran.stdout.decode(), ran.stderr.decode(), was_met

    def each(self, program, words, call, way, is_right):
        """Lets each such call fail in turn, some at once, and gives how many there are. `is_right` judges a run by the call's number, which is 0 where no call failed."""
        first, at_once = 1, os.cpu_count()
        with concurrent.futures.ThreadPoolExecutor(os.cpu_count()) as pool:
            while True:
                numbers = range(first, first + at_once)
                first, at_once = numbers.stop, min(2 * at_once, MOST_AT_ONCE)
                for number, (status, out, err, met) in zip(numbers, pool.map(lambda it: self.run(program, words, f"{call} {it} {way}"), numbers)):
                    self.runs += 1
                    if not is_right(number if met else 0, status, out, err):
                        self.wrong += 1
                        print(f"faults: {os.path.basename(program)} {words}, {call} {number} {way}: status {status}, {out[-200:]!r}, {err[-200:]!r}")
                    if not met:
                        return number - 1

    def memory(self, program, words, is_whole, is_refused):
        """Refuses each allocation in turn."""
        count = self.each(program, words, "memory", "fails", lambda number, *came: (is_refused if number else is_whole)(*came))
        if not count:
            self.wrong += 1
            print(f"faults: {os.path.basename(program)} {words}: it asks for no memory")
        return count


def texts(out):
    """The texts at the serial port of the whole lines of an output."""
    lines = [line.split(" ") for line in out.split("\n")[:-1]]
    return [bytes.fromhex(line[2]).decode() for line in lines if line[1:2] == ["serial"]]


def raw(out):
    """The bytes of those texts."""
    return "".join(texts(out))


def gathered(out):
    """What is written to that port's device at once: the texts up to one that ends a line, and those that are left."""
    pieces = [""]
    for text in texts(out):
        pieces[-1] += text
        if text.endswith("\n"):
            pieces.append("")
    return [piece for piece in pieces if piece]


def commands_fail(faults, sts):
    """Each fault of each command."""
    told = {}
    for words, due, before in commands():
        status, out, err, _ = faults.run(sts, words, "none")
        whole = (0, out if due is None else due, raw(out) if words.startswith(("run", "big")) else "")
        if (status, out, err) != whole:
            faults.wrong += 1
            print(f"faults: {words}: status {status}, {out[-200:]!r}, {err[-200:]!r}")

        def stays(_, *came):
            return came == whole

        def folder_fails(number, *came):
            return came == ((20, "folder failed\n", "") if number else whole)

        def sink_fails(number, status, out, err):
            return status == 22 and whole[1].startswith(out) and out != whole[1] and err == (raw(out) if whole[2] else "") if number else (status, out, err) == whole

        def device_fails(number, *came):
            return came == (0, whole[1], "".join(gathered(whole[1])[: number - 1]) if number else whole[2])

        memory = faults.memory(sts, words, lambda *came: came == whole, lambda status, out, err: status == 30 and out in before and not err)
        told[words] = [memory] + [faults.each(sts, words, call, way, is_right) for call, way, is_right in (
            ("open", "fails", folder_fails), ("read", "fails", folder_fails), ("read", "interrupted", stays), ("read", "short", stays),
            ("out", "fails", sink_fails), ("out", "interrupted", stays), ("out", "short", stays),
            ("err", "fails", device_fails), ("err", "interrupted", stays), ("err", "short", stays))]
    return told


def calls_fail(faults, rows):
    """Each refused allocation of each row of `tool_rows`. What it takes beside the call, for its folder and the like, it misses itself: it then ends with status 1 and has said nothing."""
    return {f"tool_rows {words}": [faults.memory(rows, f"tool_rows {words}", lambda status, out, _: (status, out) == (0, due), lambda status, out, _: status == 0 and out in before or (status, out) == (1, ""))]
            for words, due, before in calls()}


def main():
    library, sts, *rows = map(os.path.abspath, sys.argv[1:])
    with tempfile.TemporaryDirectory() as folder:
        for name, text in [*FILES.items(), ("game.ts", read("game.ts")), ("game.json", read("game.json"))]:
            with open(os.path.join(folder, name), "w", encoding="ascii") as file:
                file.write(text)
        with open(os.path.join(folder, "game.hex"), "wb") as file:
            subprocess.run([sts, "build", "game.ts"], cwd=folder, stdout=file, check=True)
        faults = Faults(library, folder)
        told = commands_fail(faults, sts)
        for program in rows:
            told.update(calls_fail(faults, program))
    for words, counts in told.items():
        print(f"faults: {words}: {counts[0]} allocations" + (f", {counts[1]} files opened, {counts[2]} reads, {counts[5]} writes and {counts[8]} to the serial port" if counts[1:] else ""))
    print(f"faults: {faults.runs} runs, {faults.wrong} wrong")
    sys.exit(1 if faults.wrong else 0)


main()
