"""Reads a text as a program by the rules of docs/LANGUAGE.md: tokens, then a tree of tuples. It is written from the rules alone, and takes more
than the language does: what it is given is a program already."""
import re

WORDS = set("""break class const continue do else extends false for function if let new null private protected public return super this true void while""".split())
MARKS = sorted("""{ } ( ) [ ] ; , . : ? => = += -= *= /= %= &= |= ^= <<= >>= >>>= == != === !== < > <= >= + - * / % & | ^ ~ ! && || << >> >>> ++ --""".split(), key=len, reverse=True)
SETS = {"=", "+=", "-=", "*=", "/=", "%=", "&=", "|=", "^=", "<<=", ">>=", ">>>="}
LEVELS = [["||"], ["&&"], ["|"], ["^"], ["&"], ["==", "===", "!=", "!=="], ["<", ">", "<=", ">="], ["<<", ">>", ">>>"], ["+", "-"], ["*", "/", "%"]]
ESCAPES = {"n": "\n", "r": "\r", "t": "\t", "\\": "\\", "'": "'", '"': '"', "`": "`"}


def to_int32(n):
    return (n + 2**31) % 2**32 - 2**31


class Token:
    def __init__(self, kind, value, broken):
        self.kind, self.value, self.broken = kind, value, broken


def tokens(text):
    """Gives the tokens of a text: kinds `name`, `word`, `number`, `text`, `mark`, `end`."""
    found, at, broken = [], 0, False
    while True:
        gap = re.compile(r"[ \t]+|(\r\n|\n|\r)|//[^\r\n]*|/\*.*?\*/", re.S).match(text, at)
        if gap:
            broken = broken or "\n" in gap[0] or "\r" in gap[0]
            at = gap.end()
            continue
        if at == len(text):
            return [*found, Token("end", None, broken)]
        if m := re.compile(r"[A-Za-z_$][A-Za-z0-9_$]*").match(text, at):
            found.append(Token("word" if m[0] in WORDS else "name", m[0], broken))
        elif m := re.compile(r"0[xX][0-9a-fA-F]+|[0-9]+").match(text, at):
            found.append(Token("number", to_int32(int(m[0], 0)), broken))
        elif text[at] in "\"'`":
            m = re.compile(re.escape(text[at]) + r"((?:\\.|[^\\])*?)" + re.escape(text[at]), re.S).match(text, at)
            inside = m[1].replace("\r\n", "\n").replace("\r", "\n") if text[at] == "`" else m[1]
            found.append(Token("text", re.sub(r"\\(.)", lambda e: ESCAPES[e[1]], inside).encode(), broken))
        else:
            mark = next(it for it in MARKS if text.startswith(it, at))
            found.append(Token("mark", mark, broken))
            at, broken = at + len(mark), False
            continue
        at, broken = m.end(), False


class Reader:
    """Descends from left to right. Each tree is a tuple whose first part names its form."""

    def __init__(self, text):
        self.all, self.at = tokens(text), 0

    def next(self):
        return self.all[self.at]

    def is_here(self, *values):
        return self.next().kind in ("mark", "word") and self.next().value in values

    def takes(self, *values):
        if self.is_here(*values):
            self.at += 1
            return self.all[self.at - 1].value
        return None

    def wants(self, *values):
        found = self.takes(*values)
        assert found is not None, (values, self.next().kind, self.next().value)
        return found

    def name(self):
        self.at += 1
        assert self.all[self.at - 1].kind in ("name", "word")
        return self.all[self.at - 1].value

    def semicolon(self):
        if not self.takes(";"):
            assert self.is_here("}") or self.next().kind == "end" or self.next().broken, self.next().value

    # whole texts
    def program(self):
        items = []
        while self.next().kind != "end":
            if self.takes("class"):
                items.append(self.class_behind())
            elif self.takes("function"):
                name = self.name()
                items.append(("function", name, self.body()))
            else:
                items.append(self.statement())
        return items

    def class_behind(self):
        name = self.name()
        base = self.name() if self.takes("extends") else None
        members = []
        self.wants("{")
        while not self.takes("}"):
            if self.takes(";"):
                continue
            if self.is_here("public", "private", "protected") and self.all[self.at + 1].kind in ("name", "word"):
                self.at += 1
            member = self.name()
            if self.is_here("("):
                members.append(("method", member, self.body()))
            else:
                shape = self.type() if self.takes(":") else None
                first = self.expression() if self.takes("=") else None
                self.semicolon()
                members.append(("field", member, shape, first))
        return ("class", name, base, members)

    def type(self):
        name = self.name()
        while self.is_here("[") and not self.next().broken:
            self.at += 1
            self.wants("]")
            name += "[]"
        return name

    def params(self):
        self.wants("(")
        found = []
        while not self.takes(")"):
            name = self.name()
            found.append((name, self.type() if self.takes(":") else None))
            self.takes(",")
        return found

    def body(self):
        params = self.params()
        gives = self.type() if self.takes(":") else None
        return ("body", params, gives, self.block())

    def block(self):
        self.wants("{")
        found = []
        while not self.takes("}"):
            found.append(self.statement())
        return found

    def declaration(self):
        self.wants("let", "const")
        each = []
        while True:
            name = self.name()
            shape = self.type() if self.takes(":") else None
            each.append((name, shape, self.expression() if self.takes("=") else None))
            if not self.takes(","):
                return ("let", each)

    def statement(self):
        if self.is_here("{"):
            return ("block", self.block())
        if self.is_here("let", "const"):
            found = self.declaration()
            self.semicolon()
            return found
        if self.takes("if"):
            test = self.wrapped()
            then = self.statement()
            return ("if", test, then, self.statement() if self.takes("else") else None)
        if self.takes("while"):
            test = self.wrapped()
            return ("while", test, self.statement())
        if self.takes("do"):
            inside = self.statement()
            self.wants("while")
            test = self.wrapped()
            self.takes(";")
            return ("do", inside, test)
        if self.takes("for"):
            return self.loop()
        if self.takes("return"):
            bare = self.is_here(";", "}") or self.next().kind == "end" or self.next().broken
            value = None if bare else self.expression()
            self.semicolon()
            return ("return", value)
        if word := self.takes("break", "continue"):
            self.semicolon()
            return (word,)
        if self.takes(";"):
            return ("empty",)
        value = self.expression()
        self.semicolon()
        return ("plain", value)

    def loop(self):
        self.wants("(")
        if self.is_here("let", "const") and self.all[self.at + 2].kind == "name" and self.all[self.at + 2].value == "of":
            self.at += 1
            name = self.name()
            self.at += 1
            items = self.expression()
            self.wants(")")
            return ("of", name, items, self.statement())
        first = None
        if not self.is_here(";"):
            first = self.declaration() if self.is_here("let", "const") else ("plain", self.expression())
        self.wants(";")
        test = None if self.is_here(";") else self.expression()
        self.wants(";")
        step = None if self.is_here(")") else self.expression()
        self.wants(")")
        return ("for", first, test, step, self.statement())

    def wrapped(self):
        self.wants("(")
        found = self.expression()
        self.wants(")")
        return found

    # expressions
    def expression(self):
        left = self.infix(0)
        if self.takes("?"):
            then = self.expression()
            self.wants(":")
            return ("choice", left, then, self.expression())
        if self.is_here(*SETS):
            mark = self.takes(*SETS)
            return ("set", mark[:-1], left, self.expression())
        return left

    def infix(self, level):
        if level == len(LEVELS):
            return self.prefix()
        left = self.infix(level + 1)
        while self.is_here(*LEVELS[level]):
            op = self.takes(*LEVELS[level])
            left = ("both" if op == "&&" else "either" if op == "||" else "binary", {"===": "==", "!==": "!="}.get(op, op), left, self.infix(level + 1))
        return left

    def prefix(self):
        if op := self.takes("-", "+", "!", "~"):
            return ("unary", op, self.prefix())
        if op := self.takes("++", "--"):
            return ("bump", self.prefix(), 1 if op == "++" else -1, False)
        found = self.chain()
        if self.is_here("++", "--") and not self.next().broken:
            return ("bump", found, 1 if self.takes("++", "--") == "++" else -1, True)
        return found

    def args(self, close):
        found = []
        while not self.takes(close):
            found.append(self.expression())
            self.takes(",")
        return found

    def chain(self):
        found = self.primary()
        while True:
            if self.takes("."):
                found = ("member", found, self.name())
            elif self.takes("["):
                found = ("item", found, self.expression())
                self.wants("]")
            elif self.takes("("):
                found = ("call", found, self.args(")"))
            else:
                return found

    def opens_arrow(self):
        depth, at = 0, self.at
        while True:
            it = self.all[at]
            depth += {"(": 1, "[": 1, "{": 1, ")": -1, "]": -1, "}": -1}.get(it.value if it.kind == "mark" else None, 0)
            at += 1
            if depth == 0:
                break
        behind = self.all[at]
        if behind.kind == "mark" and behind.value == ":":
            at += 2
            while self.all[at].value == "[":
                at += 2
            behind = self.all[at]
        return behind.kind == "mark" and behind.value == "=>"

    def primary(self):
        token = self.next()
        if token.kind in ("number", "text"):
            self.at += 1
            return (token.kind, token.value)
        if word := self.takes("true", "false"):
            return ("number", 1 if word == "true" else 0)
        if self.takes("null"):
            return ("number", 0)
        if self.takes("this"):
            return ("this",)
        if self.takes("["):
            return ("items", self.args("]"))
        if self.takes("new"):
            name = self.name()
            self.wants("(")
            return ("new", name, self.args(")"))
        if self.takes("super"):
            name = self.name() if self.takes(".") else None
            self.wants("(")
            return ("super", name, self.args(")"))
        if self.takes("function"):
            return ("handler", self.body())
        if self.is_here("("):
            if self.opens_arrow():
                params = self.params()
                gives = self.type() if self.takes(":") else None
                self.wants("=>")
                return ("handler", ("body", params, gives, self.block()))
            return self.wrapped()
        return ("name", self.name())
