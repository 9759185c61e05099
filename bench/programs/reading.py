"""Runs a program on a script by the rules of docs/LANGUAGE.md and docs/WORLD.md, written from the rules alone, with no code of this repository, and
writes its transcript. It is an independent reading of the rules: programs that `sts` takes are compared with it. With --class it runs a class of boards, by
these rules and those of docs/FORMATS.md for class files, on a class file that keeps to its form.

usage: reading.py PROGRAM [SCRIPT] [--stats]
       reading.py --class CLASS
"""
import heapq
import json
import sys

from syntax import Reader, to_int32

LIBRARY = r"""
function $showLeds(f: number): void { $show(f); basic.pause(400) }
function $showNumber(n: number): void { let i = 0
let g = $numberGlyph(n, 0)
while (g >= 0) { $show(g); basic.pause(400); i += 1; g = $numberGlyph(n, i) } }
function $showString(s: string): void { let i = 0
let g = $textGlyph(s, 0)
while (g >= 0) { $show(g); basic.pause(400); i += 1; g = $textGlyph(s, i) } }
function $writeLine(s: string): void { serial.writeString(s); serial.writeString("\r\n") }
function $abs(n: number): number { return n < 0 ? 0 - n : n }
function $min(a: number, b: number): number { return a < b ? a : b }
function $max(a: number, b: number): number { return a > b ? a : b }
"""
IN_LIBRARY = {("basic", "showLeds"), ("basic", "showNumber"), ("basic", "showString"), ("serial", "writeLine"), ("Math", "abs"), ("Math", "min"), ("Math", "max")}
CONSTANTS = {("Button", "A"): 1, ("Button", "B"): 2, ("DigitalPin", "P0"): 0, ("DigitalPin", "P1"): 1, ("DigitalPin", "P2"): 2,
             ("EventFlags", "Reentrant"): 8, ("EventFlags", "QueueIfBusy"): 16, ("EventFlags", "DropIfBusy"): 32}
SPACES = {"basic", "led", "input", "control", "serial", "pins", "radio", "Math", "Button", "DigitalPin", "EventFlags"}
FONT = {
    "0": ".###./#..##/#.#.#/##..#/.###.", "1": "..#../.##../..#../..#../.###.", "2": "####./....#/.###./#..../#####", "3": "####./....#/.###./....#/####.",
    "4": "#..#./#..#./#####/...#./...#.", "5": "#####/#..../####./....#/####.", "6": ".###./#..../####./#...#/.###.", "7": "#####/....#/...#./..#../..#..",
    "8": ".###./#...#/.###./#...#/.###.", "9": ".###./#...#/.####/....#/.###.", "A": ".###./#...#/#####/#...#/#...#", "B": "####./#...#/####./#...#/####.",
    "C": ".####/#..../#..../#..../.####", "D": "####./#...#/#...#/#...#/####.", "E": "#####/#..../####./#..../#####", "F": "#####/#..../####./#..../#....",
    "G": ".####/#..../#..##/#...#/.####", "H": "#...#/#...#/#####/#...#/#...#", "I": ".###./..#../..#../..#../.###.", "J": "..###/...#./...#./#..#./.##..",
    "K": "#...#/#..#./###../#..#./#...#", "L": "#..../#..../#..../#..../#####", "M": "#...#/##.##/#.#.#/#...#/#...#", "N": "#...#/##..#/#.#.#/#..##/#...#",
    "O": ".###./#...#/#...#/#...#/.###.", "P": "####./#...#/####./#..../#....", "Q": ".###./#...#/#.#.#/#..#./.##.#", "R": "####./#...#/####./#..#./#...#",
    "S": ".####/#..../.###./....#/####.", "T": "#####/..#../..#../..#../..#..", "U": "#...#/#...#/#...#/#...#/.###.", "V": "#...#/#...#/#...#/.#.#./..#..",
    "W": "#...#/#...#/#.#.#/##.##/#...#", "X": "#...#/.#.#./..#../.#.#./#...#", "Y": "#...#/.#.#./..#../..#../..#..", "Z": "#####/...#./..#../.#.../#####",
    " ": "...../...../...../...../.....", "-": "...../...../.###./...../.....", "!": "..#../..#../..#../...../..#..", "?": ".###./#...#/...#./...../..#..",
    ".": "...../...../...../...../..#..",
}


def glyph(byte):
    rows = FONT.get(chr(byte).upper() if byte < 128 else "?", FONT["?"])
    return sum(1 << at for at, light in enumerate(rows.replace("/", "")) if light == "#")


class Panic(Exception):
    pass


class Cut(Exception):
    pass


class Thing:
    """An object with its class, or an array."""

    def __init__(self, kind):
        self.kind, self.fields, self.items, self.room = kind, {}, [], 0


class Leaves(Exception):
    """How a statement leaves: `break`, `continue`, or `return` with a value."""

    def __init__(self, how, value=0):
        self.how, self.value = how, value


class Function:
    def __init__(self, name, params, statements, owner=None, is_maker=False):
        self.name, self.params, self.statements, self.owner, self.is_maker = name, params, statements, owner, is_maker
        self.words = 0


# --- measures of a frame

class Measures:
    """Frame words: 5, the locals, what expressions hold at once, and the arguments of calls."""

    def __init__(self, program, function, is_main):
        self.program, self.outgoing, self.held, self.locals, self.known = program, 0, 1, 0, [set(name for name, _ in function.params)]
        for it in function.statements:
            self.statement(it, is_main)
        function.words = 5 + self.locals + self.held + self.outgoing

    def is_local(self, name):
        return any(name in scope for scope in self.known)

    def hold(self, e):
        self.held = max(self.held, self.of(e))

    def declare(self, each, is_global):
        for name, _, first in each:
            if first:
                self.hold(first)
            if not is_global:
                self.locals += 1
                self.known[-1].add(name)

    def statement(self, s, top=False):
        form = s[0]
        if form == "block":
            self.known.append(set())
            for it in s[1]:
                self.statement(it)
            self.known.pop()
        elif form == "let":
            self.declare(s[1], top)
        elif form in ("if", "while"):
            self.hold(s[1])
            for it in s[2:]:
                if it:
                    self.inner(it)
        elif form == "do":
            self.inner(s[1])
            self.hold(s[2])
        elif form == "for":
            self.known.append(set())
            if s[1]:
                self.statement(s[1])
            for it in s[2:4]:
                if it:
                    self.hold(it)
            self.inner(s[4])
            self.known.pop()
        elif form == "of":
            self.locals += 3
            self.hold(s[2])
            self.known.append({s[1]})
            self.inner(s[3])
            self.known.pop()
        elif form in ("return", "plain") and s[1]:
            self.hold(s[1])

    def inner(self, s):
        self.known.append(set())
        self.statement(s)
        self.known.pop()

    def called(self, args):
        return max([k + self.of(a) for k, a in enumerate(args)] + [1])

    def of(self, e):
        form = e[0]
        if form in ("number", "text", "name", "this", "handler"):
            return 1
        if form == "unary":
            return self.of(e[2])
        if form == "binary":
            return max(self.of(e[2]), 1 + self.of(e[3]))
        if form in ("both", "either"):
            return max(self.of(e[2]), self.of(e[3]))
        if form == "choice":
            return max(self.of(it) for it in e[1:])
        if form == "member":
            return 1 if self.program.space(e, self.is_local) else self.of(e[1])
        if form == "item":
            return max(self.of(e[1]), 1 + self.of(e[2]))
        if form == "items":
            return 1 + max([self.of(it) for it in e[1]] + [0])
        if form == "new":
            self.outgoing = max(self.outgoing, 1 + len(e[2]))
            return max(self.called(e[2]), len(e[2]) + 1)
        if form == "super":
            self.outgoing = max(self.outgoing, 1 + len(e[2]))
            return self.called([("this",), *e[2]])
        if form == "call":
            return self.call(e[1], e[2])
        if form == "set":
            more = 1 if e[1] else 0
            target, r = e[2], self.of(e[3])
            if target[0] == "name":
                return r + more
            if target[0] == "member":
                return max(self.of(target[1]), 1 + more + r)
            return max(self.of(target[1]), 1 + self.of(target[2]), 2 + more + r)
        target = e[1]
        if target[0] == "name":
            return 1
        if target[0] == "member":
            return max(self.of(target[1]), 2)
        return max(self.of(target[1]), 1 + self.of(target[2]), 3)

    def call(self, callee, args):
        space = self.program.space(callee, self.is_local)
        if space:
            args = self.program.board_args(space, args)
            if space in IN_LIBRARY:
                self.outgoing = max(self.outgoing, len(args))
            return self.called(args)
        if callee[0] == "name":
            if callee[1] not in ("$show", "$numberGlyph", "$textGlyph"):
                self.outgoing = max(self.outgoing, len(args))
            return self.called(args)
        if callee[2] == "pop" and not args:
            return self.of(callee[1])
        if callee[2] != "push":
            self.outgoing = max(self.outgoing, 1 + len(args))
        return self.called([callee[1], *args])


class Program:
    def __init__(self, text):
        self.functions, self.classes, self.globals, self.main = {}, {}, {}, []
        self.handlers = {}
        for source in (LIBRARY, text):
            for item in Reader(source).program():
                if item[0] == "function":
                    self.functions[item[1]] = Function(item[1], item[2][1], item[2][3])
                elif item[0] == "class":
                    self.classes[item[1]] = item
                else:
                    self.main.append(item)
        for item in self.main:
            if item[0] == "let":
                self.globals.update({name: 0 for name, _, _ in item[1]})
        self.names = set(self.functions) | set(self.classes) | set(self.globals)
        self.makers = {name: self.maker(name) for name in self.classes}
        self.methods = {name: {m[1]: Function(m[1], [("this", name), *m[2][1]], m[2][3], owner=name) for m in item[3] if m[0] == "method" and m[1] != "constructor"} for name, item in self.classes.items()}
        self.main = Function("main", [], self.main)
        Measures(self, self.main, True)
        for it in [*self.functions.values(), *self.makers.values(), *(m for all in self.methods.values() for m in all.values())]:
            Measures(self, it, False)

    def space(self, e, is_local):
        if e[0] == "member" and e[1][0] == "name" and e[1][1] in SPACES and not is_local(e[1][1]) and e[1][1] not in self.names:
            return (e[1][1], e[2])
        return None

    def board_args(self, space, args):
        """The arguments as the services take them."""
        if space == ("basic", "showLeds"):
            lights = "".join(args[0][1].decode().split())
            return [("number", sum(1 << at for at, it in enumerate(lights) if it == "#"))]
        if space[0] == "led":
            return [*args, ("number", ["unplot", "plot", "toggle"].index(space[1]))]
        if space == ("input", "onButtonPressed"):
            return [args[0], ("number", 3), args[1]]
        if space == ("basic", "clearScreen"):
            return [("number", 0)]
        return args

    def maker(self, name):
        _, _, base, members = self.classes[name]
        fields = [("plain", ("set", "", ("member", ("this",), m[1]), m[3])) for m in members if m[0] == "field" and m[3]]
        written = next((m[2] for m in members if m[0] == "method" and m[1] == "constructor"), None)
        if written:
            params, statements = written[1], list(written[3])
        else:
            params = self.maker(base).params[1:] if base else []
            statements = [("plain", ("super", None, [("name", it) for it, _ in params]))] if base else []
        first = [statements.pop(0)] if base else []
        return Function("constructor", [("this", name), *params], [*first, *fields, *statements], owner=name, is_maker=True)

    def method(self, name, member):
        while name:
            if member in self.methods[name]:
                return self.methods[name][member]
            name = self.classes[name][2]
        return None

    def field_names(self, name):
        _, _, base, members = self.classes[name]
        return (self.field_names(base) if base else []) + [m[1] for m in members if m[0] == "field"]


# --- the world

class Activity:
    def __init__(self, function, base, listener=None, value=0, seated=False):
        self.function, self.base, self.listener, self.value, self.seated = function, base, listener, value, seated
        self.depth, self.blocked, self.run, self.is_suspended = 0, False, None, False


class World:
    def __init__(self, program, end, entries, arrivals=(), most=None):
        self.program, self.end, self.entries, self.arrivals = program, end, list(entries), list(arrivals)
        self.steps, self.last, self.due, self.marks = 0, most, self.arrivals[0][0] if self.arrivals else -1, []
        self.clock, self.frame, self.used, self.out = 0, 0, 0, []
        self.ready, self.sleepers, self.waiters, self.queue, self.listeners = [], [], [], [], []
        self.down, self.seats, self.order = {}, 0, 0
        self.is_stopped, self.sent, self.trail = False, [], []
        self.spawned, self.blocks, self.words, self.most = 0, 0, 0, 0

    # activities
    def seat(self, activity):
        if self.seats == 24:
            raise Panic(101)
        self.seats += 1
        self.most = max(self.most, self.seats)
        activity.seated = True

    def spawn(self, function):
        activity = Activity(function, 0)
        self.seat(activity)
        self.spawned += 1
        self.ready.append(activity)

    def take(self, words):
        if self.used + words > 2816:
            raise Panic(20)
        self.used += words

    def say(self, line):
        self.out.append(f"{self.clock} {line}")
        self.left_trail()

    # where the run stands behind so many counted steps: its clock, and how many lines it wrote
    def left_trail(self):
        self.trail.append((self.steps, self.clock, len(self.out)))

    def show(self, frame):
        if frame != self.frame:
            self.frame = frame
            bits = "".join("#" if frame >> at & 1 else "." for at in range(25))
            self.say("display " + "/".join(bits[row:row + 5] for row in range(0, 25, 5)))

    def write(self, data):
        if data:
            self.say("serial " + data.hex())

    def raises(self, event):
        if len(self.queue) < 32:
            self.queue.append(event)

    @staticmethod
    def hears(source, value, event):
        return source in (0, event[0]) and value in (0, event[1])

    def is_busy(self, number):
        return any(it.listener == number for it in self.everybody())

    def everybody(self):
        yield from self.ready
        yield from (it[2] for it in self.sleepers)
        yield from (it[1] for it in self.waiters)

    def heard(self, event, base):
        """The handlers that an event begins; a busy listener holds it, or starts another, or drops it."""
        found = []
        for number, it in enumerate(self.listeners):
            if not self.hears(it["source"], it["value"], event):
                continue
            busy = self.is_busy(number) or any(a.listener == number for a in found)
            if busy and it["mode"] == 32:
                continue
            if busy and it["mode"] != 8:
                if len(it["held"]) < 10:
                    it["held"].append(event[1])
                continue
            found.append(Activity(it["handler"], base, number, event[1]))
        return found

    def woken(self, event):
        found = [it[1] for it in self.waiters if self.hears(it[0][0], it[0][1], event)]
        self.waiters = [it for it in self.waiters if not self.hears(it[0][0], it[0][1], event)]
        for it in found:
            it.value = event[1]
        return found

    def raise_now(self, event, activity):
        if sum(it.is_suspended for it in self.ready) >= 32 and self.begins_any(event):
            raise Panic(106)
        begun = self.heard(event, activity.base + activity.depth)
        activity.is_suspended = bool(begun)
        rest = self.ready[1:]
        self.ready = [*begun, activity, *rest, *self.woken(event)]

    def begins_any(self, event):
        return any(self.hears(it["source"], it["value"], event) and (it["mode"] == 8 or not self.is_busy(number)) for number, it in enumerate(self.listeners))

    # buttons
    def button(self, button, goes_down):
        if goes_down and button not in self.down:
            self.down[button] = self.clock
            self.raises((button, 1))
        elif not goes_down and button in self.down:
            held = self.clock - self.down.pop(button)
            self.raises((button, 2))
            self.raises((button, 3 if held < 1000 else 4))

    def arrive(self, entry):
        if entry["do"] in ("down", "up"):
            self.button({"A": 1, "B": 2}[entry["button"]], entry["do"] == "down")
        elif entry["do"] == "raise":
            self.raises((entry["source"], entry["value"]))

    # counted steps: what arrives behind the last comes before the next
    def counts(self, steps=1):
        if self.due >= 0:
            while self.arrivals and self.arrivals[0][0] < self.steps + steps:
                self.arrive(self.arrivals.pop(0)[1])
            self.due = self.arrivals[0][0] if self.arrivals else -1
        self.steps += steps
        if self.last is not None and self.steps > self.last:
            raise Cut()

    # which step asked what of the board
    def mark(self, what, args):
        self.marks.append((self.steps, what, args))

    # one request of the activity in front; what it gives is the answer
    def blocks_now(self, activity):
        self.words += activity.depth
        if activity.listener is not None and not activity.blocked:
            activity.blocked = True
            self.blocks += 1
        self.ready.pop(0)

    def asked(self, activity, request):
        what, *args = request
        if what == "pause":
            if not activity.seated:
                self.seat(activity)
            self.blocks_now(activity)
            self.order += 1
            heapq.heappush(self.sleepers, (self.clock + max(args[0], 1), self.order, activity))
        elif what == "wait":
            if not activity.seated:
                self.seat(activity)
            self.blocks_now(activity)
            self.waiters.append(((args[0], args[1]), activity))
        elif what == "now":
            self.raise_now((args[0], args[1]), activity)
        return 0

    def ends(self, activity):
        self.mark("ends", [])
        self.ready.pop(0)
        held = self.listeners[activity.listener]["held"] if activity.listener is not None else []
        if held:
            again = Activity(activity.function, activity.base, activity.listener, held.pop(0), activity.seated)
            again.blocked = activity.blocked
            self.ready.insert(0, again)
        elif activity.seated:
            self.seats -= 1

    def step(self):
        activity = self.ready[0]
        activity.is_suspended = False
        if activity.run is None:
            activity.run = Frame(self, activity).begins()
        try:
            request = next(activity.run)
        except StopIteration:
            self.ends(activity)
            return
        self.asked(activity, request)

    def begins(self):
        main = Activity(self.program.main, 0)
        self.seat(main)
        self.spawned += 1
        self.ready.append(main)
        self.left_trail()

    def settles(self):
        """Goes on until nobody is ready and no event waits."""
        while self.ready or self.queue:
            while self.ready:
                self.step()
            if self.queue:
                event = self.queue.pop(0)
                begun = self.heard(event, 0)
                self.ready = [*begun, *self.woken(event)]

    def next_due(self):
        """The next moment at which something comes, if there is one."""
        return min([it[0] for it in self.sleepers[:1]] + [it["at"] for it in self.entries[:1]], default=None)

    def comes_to(self, moment):
        self.clock = moment
        self.left_trail()
        while self.sleepers and self.sleepers[0][0] <= moment:
            self.ready.append(heapq.heappop(self.sleepers)[2])
        while self.entries and self.entries[0]["at"] <= moment:
            self.arrive(self.entries.pop(0))

    def stops(self, panic):
        self.is_stopped = True
        self.out.append(f"panic {self.clock} {panic.args[0]}")

    def runs(self):
        try:
            self.begins()
            while True:
                self.settles()
                moment = self.next_due()
                if moment is None:
                    self.say_end("quiet")
                    return
                if moment > self.end:
                    self.clock = self.end
                    self.say_end("script")
                    return
                self.comes_to(moment)
        except Cut:
            pass
        except Panic as panic:
            self.stops(panic)

    def say_end(self, how):
        self.out.append(f"end {self.clock} {how}")


# --- boards that hear one another

class CutClass(Exception):
    """The run of this board has made more counted steps than it may."""


class Boards:
    """A class: worlds that go through the moments together. A line is kept as its moment, its board and its text."""

    def __init__(self, members, end, lose, most=None):
        self.worlds = [World(Program(text), end, script["events"], (), most) for text, script in members]
        self.end, self.lost, self.lines = end, {(it["at"], it["from"], it["to"]) for it in lose}, []

    def goes(self, number, moment):
        """One board goes through a moment."""
        world = self.worlds[number]
        before = len(world.out)
        try:
            if moment == 0:
                world.begins()
                world.settles()
            if world.next_due() == moment:
                world.comes_to(moment)
                world.settles()
        except Panic as panic:
            world.stops(panic)
        except Cut as cut:
            raise CutClass(number) from cut
        finally:
            self.lines += [(moment, number, line) for line in world.out[before:]]

    def hear(self, moment):
        """What boards sent at a moment is heard at the next one, behind the entries of the hearer's own."""
        for j, hearer in enumerate(self.worlds):
            heard = [number for i, sender in enumerate(self.worlds) if i != j and (moment, i, j) not in self.lost for number in sender.sent]
            if moment < self.end:
                behind = next((at for at, it in enumerate(hearer.entries) if it["at"] > moment + 1), len(hearer.entries))
                hearer.entries[behind:behind] = [{"at": moment + 1, "do": "raise", "source": 200, "value": number} for number in heard]
        for sender in self.worlds:
            sender.sent = []

    def next_moment(self):
        return min((world.next_due() for world in self.worlds if not world.is_stopped and world.next_due() is not None), default=None)

    def runs(self, last=None, last_board=None):
        """Runs the class, or its moments up to the last one, and at that one the boards up to the last one."""
        moment, upto = 0, self.end if last is None else last
        while moment is not None and moment <= upto:
            for number, world in enumerate(self.worlds):
                if last is not None and moment == last and number > last_board:
                    return
                if moment == 0 or (not world.is_stopped and world.next_due() == moment):
                    self.goes(number, moment)
            self.hear(moment)
            moment = self.next_moment()

    def transcript(self):
        """All lines, with those that close the class."""
        going = [(number, world) for number, world in enumerate(self.worlds) if not world.is_stopped]
        by_script = any(world.next_due() is not None for _, world in going)
        closing = f"end {self.end} script" if by_script else f"end {max(world.clock for world in self.worlds)} quiet"
        return [f"{number} {line}" for _, number, line in self.lines] + [f"{number} {closing}" for number, _ in going]


# --- what an activity does: generators that yield what blocks

class Frame:
    """A running function: its names, by scope."""

    def __init__(self, world, activity):
        self.world, self.activity, self.program = world, activity, world.program
        self.scopes, self.this = [], None

    def begins(self):
        function = self.activity.function
        if isinstance(function, tuple):
            yield from self.repeats(function[1])
        else:
            self.world.counts()
            yield from self.invoke(function, [])

    def repeats(self, handler):
        self.world.counts()
        self.enter(6)
        while True:
            self.world.counts()
            yield from self.invoke(handler, [])
            self.world.counts(2)
            self.world.mark("pause", [20])
            yield ("pause", 20)
            self.world.counts()

    def enter(self, words):
        if self.activity.base + self.activity.depth + words > 960:
            raise Panic(102)
        self.activity.depth += words

    def invoke(self, function, args):
        self.enter(function.words)
        inner = Frame(self.world, self.activity)
        names = dict(zip((name for name, _ in function.params), args))
        inner.this = names.get("this") if function.owner else None
        inner.scopes = [names]
        inner.function = function
        value = 0
        try:
            for it in function.statements:
                yield from inner.does(it, function is self.program.main)
            self.world.counts(2)
        except Leaves as leaves:
            value = leaves.value
        self.activity.depth -= function.words
        return args[0] if function.is_maker else value

    # names
    def scope_of(self, name):
        for scope in reversed(self.scopes):
            if name in scope:
                return scope
        return self.program.globals if name in self.program.globals else None

    def is_local(self, name):
        return any(name in scope for scope in self.scopes)

    # statements
    def does(self, s, top=False):
        form = s[0]
        if form == "let":
            for name, _, first in s[1]:
                value = (yield from self.value(first)) if first else 0
                self.world.counts(1 if first else 2)
                (self.program.globals if top else self.scopes[-1])[name] = value
        elif form == "plain":
            yield from self.value(s[1])
        elif form == "block":
            yield from self.inside(s[1])
        elif form == "if":
            test = yield from self.value(s[1])
            self.world.counts()
            if test:
                yield from self.inside([s[2]])
            elif s[3]:
                yield from self.inside([s[3]])
        elif form == "while":
            yield from self.loops(s[1], None, s[2], False)
        elif form == "do":
            yield from self.loops(s[2], None, s[1], True)
        elif form == "for":
            self.scopes.append({})
            if s[1]:
                yield from self.does(s[1])
            yield from self.loops(s[2], s[3], s[4], False)
            self.scopes.pop()
        elif form == "of":
            yield from self.goes_through(s)
        elif form == "return":
            value = (yield from self.value(s[1])) if s[1] else 0
            self.world.counts(1 if s[1] and not self.function.is_maker else 2)
            raise Leaves("return", value)
        elif form in ("break", "continue"):
            self.world.counts()
            raise Leaves(form)

    def inside(self, statements):
        depth = len(self.scopes)
        self.scopes.append({})
        try:
            for it in statements:
                yield from self.does(it)
        finally:
            del self.scopes[depth:]

    def turn(self, body):
        """Whether the loop is left."""
        try:
            yield from self.inside([body])
        except Leaves as leaves:
            if leaves.how == "return":
                raise
            return leaves.how == "break"
        return False

    def loops(self, test, step, body, late):
        while late or test is None or (yield from self.tests(test)):
            late = False
            if (yield from self.turn(body)):
                return
            if step:
                yield from self.value(step)
            self.world.counts()

    def tests(self, test):
        value = yield from self.value(test)
        self.world.counts()
        return value

    def goes_through(self, s):
        array, at = (yield from self.value(s[2])), 0
        self.world.counts(3)
        while at < self.length(array):
            self.world.counts()
            self.scopes.append({s[1]: array.items[at]})
            at += 1
            left = yield from self.turn(s[3])
            self.scopes.pop()
            if left:
                return
        self.world.counts()

    # objects and arrays
    @staticmethod
    def there(thing):
        if thing == 0:
            raise Panic(105)
        return thing

    def length(self, array):
        return len(self.there(array).items)

    def index(self, array, at):
        if not 0 <= at < self.length(array):
            raise Panic(104)
        return at

    def push(self, array, item):
        self.there(array)
        if len(array.items) == array.room:
            grown = max(4, 2 * array.room)
            self.world.take(grown)
            array.room = grown
        array.items.append(item)

    def pop(self, array):
        if not self.length(array):
            raise Panic(104)
        return array.items.pop()

    # expressions
    def value(self, e):
        return (yield from getattr(self, "e_" + e[0])(e))

    def values(self, all):
        found = []
        for it in all:
            found.append((yield from self.value(it)))
        return found

    def e_number(self, e):
        self.world.counts()
        return e[1]
        yield

    e_text = e_number

    def e_this(self, e):
        self.world.counts()
        return self.this
        yield

    def e_name(self, e):
        self.world.counts()
        scope = self.scope_of(e[1])
        return self.program.functions[e[1]] if scope is None else scope[e[1]]
        yield

    def e_handler(self, e):
        self.world.counts()
        if id(e) not in self.program.handlers:
            function = Function("handler", [], e[1][3])
            Measures(self.program, function, False)
            self.program.handlers[id(e)] = function
        return self.program.handlers[id(e)]
        yield

    def e_unary(self, e):
        value = yield from self.value(e[2])
        self.world.counts()
        return {"-": lambda: to_int32(-value), "+": lambda: value, "~": lambda: ~value, "!": lambda: 0 if value else 1}[e[1]]()

    def e_binary(self, e):
        left = yield from self.value(e[2])
        right = yield from self.value(e[3])
        self.world.counts()
        return self.applied(e[1], left, right)

    @staticmethod
    def applied(op, a, b):
        if op in ("==", "!="):
            equal = a is b if isinstance(a, (Thing, Function)) or isinstance(b, (Thing, Function)) else type(a) is type(b) and a == b
            return int(equal == (op == "=="))
        if op in ("<", ">", "<=", ">="):
            return int({"<": a < b, ">": a > b, "<=": a <= b, ">=": a >= b}[op])
        if op in ("/", "%"):
            quotient = 0 if b == 0 else abs(a) // abs(b) * (1 if (a < 0) == (b < 0) else -1)
            return to_int32(quotient if op == "/" else 0 if b == 0 else a - quotient * b)
        shift = b % 32
        return to_int32({"+": a + b, "-": a - b, "*": a * b, "&": a & b, "|": a | b, "^": a ^ b, "<<": a << shift, ">>": a >> shift, ">>>": a % 2**32 >> shift}[op])

    def e_both(self, e):
        return (yield from self.value(e[3])) if (yield from self.tests(e[2])) else 0

    def e_either(self, e):
        return 1 if (yield from self.tests(e[2])) else (yield from self.value(e[3]))

    def e_choice(self, e):
        return (yield from self.value(e[2] if (yield from self.tests(e[1])) else e[3]))

    def e_items(self, e):
        self.world.counts()
        self.world.take(4 + len(e[1]))
        array = Thing(None)
        array.room = len(e[1])
        for it in e[1]:
            array.items.append((yield from self.value(it)))
            self.world.counts()
        return array

    def e_new(self, e):
        args = yield from self.values(e[2])
        fields = self.program.field_names(e[1])
        self.world.counts(2)
        self.world.take(1 + len(fields))
        made = Thing(e[1])
        made.fields = dict.fromkeys(fields, 0)
        yield from self.invoke(self.program.makers[e[1]], [made, *args])
        return made

    def e_super(self, e):
        args = yield from self.values(e[2])
        base = self.program.classes[self.function.owner][2]
        function = self.program.method(base, e[1]) if e[1] else self.program.makers[base]
        self.world.counts(2)
        return (yield from self.invoke(function, [self.this, *args]))

    def e_member(self, e):
        space = self.program.space(e, self.is_local)
        if space:
            self.world.counts()
            return CONSTANTS[space]
        thing = yield from self.value(e[1])
        self.world.counts()
        self.there(thing)
        return len(thing.items) if thing.kind is None else thing.fields[e[2]]

    def e_item(self, e):
        array = yield from self.value(e[1])
        at = yield from self.value(e[2])
        self.world.counts()
        return array.items[self.index(array, at)]

    # stores: what is read first where an operator stands, then the new value, then the store
    def reach(self, target):
        if target[0] == "name":
            return (self.scope_of(target[1]), target[1])
        thing = yield from self.value(target[1])
        return (thing, target[2] if target[0] == "member" else (yield from self.value(target[2])))

    def read(self, target, place):
        holder, at = place
        if target[0] == "name":
            return holder[at]
        if target[0] == "member":
            return self.there(holder).fields[at]
        return holder.items[self.index(holder, at)] if holder != 0 else self.there(holder)

    def store(self, target, place, value):
        holder, at = place
        if target[0] == "name":
            holder[at] = value
        elif target[0] == "member":
            self.there(holder).fields[at] = value
        else:
            self.there(holder).items[self.index(holder, at)] = value
        return value

    def e_set(self, e):
        _, op, target, new = e
        place = yield from self.reach(target)
        if not op:
            value = yield from self.value(new)
            self.world.counts()
            return self.store(target, place, value)
        self.world.counts()
        old = self.read(target, place)
        value = yield from self.value(new)
        self.world.counts(2)
        return self.store(target, place, self.applied(op, old, value))

    def e_bump(self, e):
        _, target, by, late = e
        place = yield from self.reach(target)
        self.world.counts()
        old = self.read(target, place)
        new = self.store(target, place, to_int32(old + by))
        return old if late else new

    # calls
    def e_call(self, e):
        _, callee, args = e
        space = self.program.space(callee, self.is_local)
        if space:
            args = yield from self.values(self.program.board_args(space, args))
            self.world.counts()
            if space in IN_LIBRARY:
                return (yield from self.invoke(self.program.functions["$" + space[1]], args))
            return (yield from self.board(space, args))
        if callee[0] == "name":
            args = yield from self.values(args)
            self.world.counts()
            if callee[1] in self.program.functions:
                return (yield from self.invoke(self.program.functions[callee[1]], args))
            return (yield from self.board(("", callee[1]), args))
        thing = yield from self.value(callee[1])
        args = yield from self.values(args)
        self.world.counts()
        self.there(thing)
        if thing.kind is None:
            return (self.push(thing, *args) or 0) if callee[2] == "push" else self.pop(thing)
        return (yield from self.invoke(self.program.method(thing.kind, callee[2]), [thing, *args]))

    def board(self, space, args):
        world, name = self.world, space[1]
        world.mark(name, args)
        if name in ("pause",):
            yield ("pause", args[0])
        elif name == "waitForEvent":
            yield ("wait", *args)
        elif name == "raiseNow":
            yield ("now", *args)
        elif name == "forever":
            world.spawn(("forever", args[0]))
        elif name == "inBackground":
            world.spawn(args[0])
        elif name in ("onEvent", "onButtonPressed", "onEventFlags"):
            if len(world.listeners) == 32:
                raise Panic(103)
            world.listeners.append({"source": args[0], "value": args[1], "handler": args[2], "mode": args[3] if len(args) > 3 else 16, "held": []})
        elif name == "raiseEvent":
            world.raises((args[0], args[1]))
        elif name == "eventValue":
            return self.activity.value
        elif name == "panic":
            raise Panic(args[0] % 256)
        elif name == "buttonIsPressed":
            return 1 if args[0] in world.down else 0
        elif name == "runningTime":
            return world.clock
        elif name in ("plot", "unplot", "toggle"):
            x, y, mode = args
            if 0 <= x <= 4 and 0 <= y <= 4:
                bit = 1 << 5 * y + x
                world.show(world.frame & ~bit if mode == 0 else world.frame | bit if mode == 1 else world.frame ^ bit)
        elif name in ("clearScreen", "$show"):
            world.show(args[0] % 2**25)
        elif name == "writeNumber":
            world.write(str(args[0]).encode())
        elif name == "writeString":
            world.write(self.there(args[0]))
        elif name == "digitalWritePin":
            if 0 <= args[0] <= 20:
                world.say(f"pin {args[0]} {1 if args[1] else 0}")
        elif name == "sendNumber":
            world.say(f"radio {args[0]}")
            world.sent.append(args[0])
        elif name in ("$numberGlyph", "$textGlyph"):
            text = str(args[0]).encode() if name == "$numberGlyph" else self.there(args[0])
            return glyph(text[args[1]]) if 0 <= args[1] < len(text) else -1
        else:
            raise KeyError(space)
        return 0


def run_of(text, script=None, arrivals=(), most=None):
    """Gives the world at the end of a run, or where it has made more than so many counted steps; these arrive, each with the number of counted steps behind which it comes."""
    sys.setrecursionlimit(100000)
    script = script or {"end": 1000, "events": []}
    world = World(Program(text), script["end"], script["events"], arrivals, most)
    world.runs()
    return world


def transcript(text, script=None, stats=False):
    world = run_of(text, script)
    if stats:
        world.out.append(f"stats spawned {world.spawned} blocked {world.blocks} words {world.words} seats {world.most}")
    return world.out


def class_transcript(name):
    """What the class of this file writes."""
    sys.setrecursionlimit(100000)
    with open(name, encoding="utf-8") as file:
        told = json.load(file)
    members = []
    for it in told["boards"]:
        with open(it["program"], encoding="utf-8", newline="") as program, open(it["script"], encoding="utf-8") as script:
            members.append((program.read(), json.load(script)))
    boards = Boards(members, told["end"], told["lose"])
    boards.runs()
    return boards.transcript()


if __name__ == "__main__":
    files = [it for it in sys.argv[1:] if not it.startswith("--")]
    if "--class" in sys.argv:
        print("\n".join(class_transcript(files[0])))
        sys.exit(0)
    with open(files[0], encoding="utf-8", newline="") as file:
        read = file.read()
    chosen = None
    if len(files) > 1:
        with open(files[1], encoding="utf-8") as file:
            chosen = json.load(file)
    print("\n".join(transcript(read, chosen, "--stats" in sys.argv)))
