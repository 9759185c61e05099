"""Makes programs with scripts by chance, all of them well typed and over all forms of the language; now and then one passes a limit of the board.

usage: generate.py SEED COUNT FOLDER      writes FOLDER/N.ts and FOLDER/N.json for N from 0
"""
import json
import random
import sys

ARITHMETIC = ["+", "-", "*", "/", "%", "&", "|", "^", "<<", ">>", ">>>"]
ORDER = ["<", ">", "<=", ">=", "==", "!=", "===", "!=="]
NUMBERS = [0, 1, 2, 3, 5, 7, 31, 32, 255, 256, 1000, 65535, 2147483647, 2147483648, 4294967295]


class Maker:
    """Writes one program. What is known is kept by type: names that are read, and of these the ones that are set."""

    def __init__(self, seed):
        self.r = random.Random(seed)
        self.lines, self.names = [], 0
        self.classes, self.functions, self.handlers = [], [], []
        self.globals, self.calls_left = {"number": [], "boolean": [], "string": [], "number[]": []}, 0
        self.in_loop, self.blocking = False, True

    def some(self, *all):
        return self.r.choice(all)

    def chance(self, percent):
        return self.r.randrange(100) < percent

    def name(self, letter):
        self.names += 1
        return f"{letter}{self.names}"

    # expressions; known: lists of names by type
    def number(self, known, depth):
        if depth <= 0 or self.chance(25):
            if known["number"] and self.chance(65):
                return self.some(*known["number"])
            n = self.some(*NUMBERS, self.r.randrange(100))
            return f"0x{n:x}" if self.chance(10) else str(n)
        pick = self.r.randrange(14)
        if pick < 5:
            return f"({self.number(known, depth - 1)} {self.some(*ARITHMETIC)} {self.number(known, depth - 1)})"
        if pick == 5:
            return f"({self.some('- ', '~', '+ ')}{self.number(known, depth - 1)})"
        if pick == 6:
            return f"({self.boolean(known, depth - 1)} ? {self.number(known, depth - 1)} : {self.number(known, depth - 1)})"
        if pick == 7 and known["number[]"]:
            array = self.some(*known["number[]"])
            at = self.number(known, 1) if self.chance(4) else self.some("0", f"{array}.length - 1", f"Math.abs({self.number(known, 1)} % {array}.length)")
            return self.some(f"{array}.length", f"({array}.length > 0 ? {array}[{at}] : {self.number(known, 0)})")
        if pick == 8 and self.functions and self.calls_left > 0:
            self.calls_left -= 1
            function, takes = self.some(*self.functions)
            return f"{function}({', '.join(self.value(known, it, depth - 2) for it in takes)})"
        if pick == 9 and known.get("object"):
            it, fields, methods = self.some(*known["object"])
            if methods and self.calls_left > 0 and self.chance(50):
                self.calls_left -= 1
                return f"{it}.{self.some(*methods)}({self.number(known, depth - 2)})"
            return f"{it}.{self.some(*fields)}"
        if pick == 10:
            return f"Math.{self.some('min', 'max')}({self.number(known, depth - 1)}, {self.number(known, depth - 1)})"
        if pick == 11:
            return self.some("input.runningTime()", "control.eventValue()", "Button.A", "DigitalPin.P2")
        settable = [it for it in known["number"] if it in known["settable"]]
        if settable and pick == 12:
            it = self.some(*settable)
            return self.some(f"({it} = {self.number(known, depth - 1)})", f"({it} {self.some(*ARITHMETIC)}= {self.number(known, depth - 1)})", f"{it}++", f"--{it}")
        return f"({self.number(known, depth - 1)} - {self.number(known, depth - 1)})"

    def boolean(self, known, depth):
        if depth <= 0:
            return self.some("true", "false", *known["boolean"])
        pick = self.r.randrange(6)
        if pick < 2:
            return f"({self.number(known, depth - 1)} {self.some(*ORDER)} {self.number(known, depth - 1)})"
        if pick < 4:
            return f"({self.boolean(known, depth - 1)} {self.some('&&', '||')} {self.boolean(known, depth - 1)})"
        if pick == 4:
            return f"(!{self.boolean(known, depth - 1)})"
        if known["string"] and self.chance(50):
            return f"({self.some(*known['string'])} {self.some('==', '!=')} {self.text(known)})"
        return self.some("input.buttonIsPressed(Button.A)", "input.buttonIsPressed(2)", f"({self.boolean(known, 0)} === {self.boolean(known, 0)})")

    def text(self, known):
        return self.some('"a"', "'ab'", '"hello"', "`x\ny`", '""', *known["string"])

    def array(self, known, depth):
        return f"[{', '.join(self.number(known, depth) for _ in range(self.r.randrange(1, 5)))}]"

    def value(self, known, kind, depth):
        return {"number": lambda: self.number(known, depth), "boolean": lambda: self.boolean(known, depth), "string": lambda: self.text(known), "number[]": lambda: self.array(known, 1)}[kind]()

    # statements
    @staticmethod
    def inside(known):
        return {key: list(all) for key, all in known.items()}

    def block(self, known, depth, indent):
        inner = self.inside(known)
        lines = [line for _ in range(self.r.randrange(1, 4)) for line in self.statement(inner, depth - 1, indent + "    ")]
        return ["{", *lines, indent + "}"]

    def head(self, first, block, indent):
        return [f"{indent}{first} {block[0]}", *block[1:]]

    def statement(self, known, depth, indent=""):
        pick = self.r.randrange(18)
        if pick < 3:
            kind = self.some("number", "number", "boolean", "string", "number[]")
            name, fixed = self.name("v"), self.chance(20)
            line = f"{indent}{'const' if fixed else 'let'} {name}{self.some('', ': ' + kind)} = {self.value(known, kind, 2)}"
            known[kind].append(name)
            if not fixed:
                known["settable"].append(name)
            return [line]
        if pick < 5:
            return [f"{indent}serial.writeNumber({self.number(known, 3)})"]
        if pick == 5:
            return [f"{indent}serial.{self.some('writeString', 'writeLine')}({self.text(known)})"]
        if pick == 6 and depth > 0:
            lines = self.head(f"if ({self.boolean(known, 2)})", self.block(known, depth, indent), indent)
            if self.chance(50):
                lines[-1:] = self.head("} else", self.block(known, depth, indent), indent)
            return lines
        if pick == 7 and depth > 0:
            return self.loop(known, depth, indent)
        if pick == 8 and known["number[]"] and depth > 0:
            item = self.name("x")
            inner = self.inside(known)
            inner["number"].append(item)
            return self.head(f"for (let {item} of {self.some(*known['number[]'])})", self.looped(inner, depth, indent), indent)
        if pick == 9 and self.blocking:
            return [f"{indent}basic.pause({self.r.randrange(-1, 30)})"]
        if pick == 10 and known["number[]"]:
            array = self.some(*known["number[]"])
            return [indent + self.some(f"{array}.push({self.number(known, 2)})", f"if ({array}.length > 0) {{ {array}.pop() }}", f"if ({array}.length > 1) {{ {array}[1] {self.some('', '+', '*', '>>')}= {self.number(known, 2)} }}", f"if ({array}.length > 0) {{ {array}[0]++ }}")]
        if pick == 11:
            return [indent + f"led.{self.some('plot', 'unplot', 'toggle')}({self.number(known, 1)} % 5, {self.number(known, 0)} % 6)"]
        if pick == 12:
            return [indent + self.some(f"pins.digitalWritePin({self.number(known, 1)} & 31, {self.number(known, 1)})", f"radio.sendNumber({self.number(known, 2)})", f"control.raiseEvent({self.r.randrange(40, 43)}, {self.number(known, 1)} & 3)")]
        if pick == 13 and known.get("object"):
            it, fields, _ = self.some(*known["object"])
            return [f"{indent}{it}.{self.some(*fields)} {self.some('', '+', '-', '^')}= {self.number(known, 2)}"]
        if pick == 14 and self.in_loop:
            return [f"{indent}if ({self.boolean(known, 1)}) {{ {self.some('break', 'continue')} }}"]
        if pick == 15 and self.chance(30) and self.blocking:
            return [indent + self.some("basic.showNumber(7)", 'basic.showString("A?")', "basic.showLeds(`\n.#.#.\n#####\n#####\n.###.\n..#..`)", "basic.clearScreen()")]
        settable = [it for it in known["number"] if it in known["settable"]]
        if settable:
            return [f"{indent}{self.some(*settable)} {self.some('', '+', '-', '*', '/', '%', '&', '<<')}= {self.number(known, 3)}"]
        return [f"{indent}serial.writeNumber({self.number(known, 2)})"]

    def looped(self, known, depth, indent):
        before, self.in_loop = self.in_loop, True
        block = self.block(known, depth, indent)
        self.in_loop = before
        return block

    def loop(self, known, depth, indent):
        i, most = self.name("i"), self.r.randrange(1, 6)
        inner = self.inside(known)
        inner["number"].append(i)
        if self.chance(60):
            return self.head(f"for (let {i} = 0; {i} < {most}; {i}{self.some('++', ' += 1', ' += 2')})", self.looped(inner, depth, indent), indent)
        known["number"].append(i)
        block = self.looped(inner, depth, indent)
        block.insert(1, f"{indent}    {i}++")
        if self.chance(50):
            return [f"{indent}let {i} = 0", *self.head(f"while ({i} < {most})", block, indent)]
        return [f"{indent}let {i} = 0", *self.head("do", block, indent)[:-1], f"{indent}}} while ({i} < {most})"]

    # parts of a program
    def fresh(self):
        known = {kind: list(all) for kind, all in self.globals.items()}
        known["settable"] = [it for all in self.globals.values() for it in all]
        known["object"] = list(self.globals_objects())
        self.calls_left = 3
        return known

    def globals_objects(self):
        return [(name, fields, methods) for name, (_, fields, methods) in self.objects]

    def function(self):
        takes = [self.some("number", "number", "boolean", "string") for _ in range(self.r.randrange(4))]
        name, params = self.name("f"), [self.name("p") for _ in takes]
        self.blocking = self.chance(15)
        known = self.fresh()
        for it, kind in zip(params, takes):
            known[kind].append(it)
            known["settable"].append(it)
        heading = f"function {name}({', '.join(f'{it}: {kind}' for it, kind in zip(params, takes))}){self.some('', ': number')}"
        lines = [line for _ in range(self.r.randrange(1, 5)) for line in self.statement(known, 2, "    ")]
        self.lines += [heading + " {", *lines, f"    return {self.number(known, 2)}", "}"]
        self.functions.append((name, takes))
        self.blocking = True

    def class_(self):
        base = self.some(None, *self.classes) if self.classes else None
        name = self.name("C")
        fields, methods = (list(base[1]), list(base[2])) if base else ([], [])
        self.lines.append(f"class {name}{f' extends {base[0]}' if base else ''} {{")
        own = [self.name("a") for _ in range(self.r.randrange(1, 4))]
        self.lines += [f"    {it}{self.some(': number', ' = 3', ': number = 1 + 2')}" for it in own]
        fields += own
        if self.chance(60):
            self.lines.append(f"    constructor(n: number) {{ {'super(' + ('n + 1' if base[3] else '') + '); ' if base else ''}this.{own[0]} = n }}")
            takes = True
        else:
            takes = base[3] if base else False
        made = [self.name("m")] + ([self.some(*methods)] if methods and self.chance(60) else [])
        for it in made:
            up = f" + super.{it}(d - 1)" if base and it in base[2] and self.chance(50) else ""
            self.lines.append(f"    {it}(d: number): number {{ this.{self.some(*fields)} {self.some('+', '-', '^', '*')}= d; return this.{self.some(*fields)}{up} }}")
        self.lines.append("}")
        methods += [it for it in made if it not in methods]
        self.classes.append((name, fields, methods, takes))

    def listener(self):
        self.in_loop = False
        known = self.fresh()
        lines = [line for _ in range(self.r.randrange(1, 4)) for line in self.statement(known, 1, "    ")]
        arrow = self.some("() => {", "function () {")
        call = self.some(f"control.onEvent({self.r.randrange(40, 43)}, {self.r.randrange(4)}, {arrow}", f"input.onButtonPressed({self.some('Button.A', 'Button.B')}, {arrow}", f"control.inBackground({arrow}", f"control.onEvent(1, 0, {arrow}")
        if self.chance(15):
            call, lines = f"basic.forever({arrow}", [*lines, "    basic.pause(100)"]
        self.lines += [call, *lines, "})"]

    def program(self):
        self.objects = []
        for kind in ("number", "boolean", "string", "number[]", "number"):
            name = self.name("g")
            known = self.fresh()
            self.lines.append(f"let {name} = {self.value(known, kind, 1)}")
            self.globals[kind].append(name)
        for _ in range(self.r.randrange(3)):
            self.class_()
        for it in self.classes:
            name, kind = self.name("o"), self.some(*[c for c in self.classes if self.is_under(c, it)])
            made = "null" if self.chance(3) else f"new {kind[0]}({'5' if kind[3] else ''})"
            self.lines.append(f"let {name}: {it[0]} = {made}")
            self.objects.append((name, (it[0], it[1], it[2])))
        for _ in range(self.r.randrange(4)):
            self.function()
        for _ in range(self.r.randrange(4)):
            self.listener()
        self.in_loop = False
        known = self.fresh()
        for _ in range(self.r.randrange(3, 9)):
            self.lines += self.statement(known, 3)
        if self.chance(6):
            self.lines += self.some(["function deep(n: number): number { return deep(n + 1) + 1 }", "serial.writeNumber(deep(0))"], ["let full = [1]", "while (true) { full.push(2) }"], ["let list: number[] = null", "serial.writeNumber(list.length)"],
                                    ["while (true) { control.inBackground(() => { basic.pause(50) }) }"], ["control.panic(300)"], ["let last = [1, 2]", "serial.writeNumber(last[2])"], ["for (let k = 0; k < 40; k++) { control.onEvent(9, k, () => { }) }"])
        return "\n".join(self.lines) + "\n"

    def is_under(self, c, base):
        return c is base or set(base[1]) < set(c[1])

    def script(self):
        at, events = 0, []
        for _ in range(self.r.randrange(8)):
            at += self.r.randrange(60)
            events.append(self.some({"at": at, "do": "raise", "source": self.r.randrange(40, 43), "value": self.r.randrange(4)},
                                    {"at": at, "do": "down", "button": "A"}, {"at": at, "do": "up", "button": "A"}, {"at": at, "do": "down", "button": "B"}, {"at": at, "do": "up", "button": "B"}))
        return {"end": at + self.r.randrange(300), "events": events}


def made(seed):
    maker = Maker(seed)
    return maker.program(), maker.script()


if __name__ == "__main__":
    first, count, folder = int(sys.argv[1]), int(sys.argv[2]), sys.argv[3]
    for number in range(count):
        text, script = made(first + number)
        with open(f"{folder}/{number}.ts", "w", encoding="utf-8") as file:
            file.write(text)
        with open(f"{folder}/{number}.json", "w", encoding="utf-8") as file:
            json.dump(script, file)
