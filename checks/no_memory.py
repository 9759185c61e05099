"""Looks for code that answers want of memory where no allocation was refused.

    checks/no_memory.sh            all code of crates/
    checks/no_memory.sh --tests    the wrong forms of checks/no_memory.txt, of which it must find each, and the right ones

It is a search for words in code as rt fmt lays it out, and no proof. A place that makes such an answer (`NoMemory`, a variant of that name, `AllocError`, `OutOfMemory`, `NotMounted`, or
`None` in a function whose clause says that this is for want of memory) must be decided by an allocation's answer and by nothing else: the innermost of what decides it is

- an arm `Err(_)` of a match, an `else` of `let Ok(..)` or `if let Ok(..)`, an `if let Err(_)`, an `if` of `is_err()`, or a `map_err`, over a call that takes memory or that gives no other
  error than want of memory;
- an arm whose pattern names want of memory, over any call, whose own places are looked at as well;
- nothing, in a function that gets such an answer as a parameter (as `From<NoMemory>`).

No arm has a guard, no condition has more than that, and the call takes no `MAX` and no number of 2^20 and more. A call is known by its name alone.
"""
import re
import sys

from repository import code, read

# Types whose only value is want of memory, and words that name it.
ALONE = {"NoMemory", "AllocError", "TryReserveError", "NotMounted"}
NAMES = ALONE | {"OutOfMemory"}
# Calls of the library that take memory.
TAKES = {
    "push", "insert", "append", "extend_from_slice", "push_str", "try_reserve", "reserve", "reserve_exact", "clone", "with_capacity", "from_slice", "from_str", "from_array", "to_vec",
    "to_string", "push_back", "push_front", "resize", "collect", "write_str", "entry", "grow", "new", "new_in", "from_vec", "into_boxed_slice",
}  # fmt: skip
# Those of them that are asked for room.
ROOM = {"try_reserve", "reserve", "reserve_exact", "with_capacity", "resize"}
MACROS = {"vec", "format", "write", "writeln"}
CLAUSES = ("FoundNoMemory", "IsSomeOrNoMemory")
TOKEN = re.compile(r'"(?:[^"\\]|\\.)*"|b?\'(?:[^\'\\]|\\.)\'|\'\w+|\w+|=>|->|::|==|!=|<=|>=|&&|\|\||\.\.=|\.\.|[^\s\w]')
OPEN, CLOSE = "([{", ")]}"


class Group(list):
    """The tokens between two brackets."""

    def __init__(self, kind, line):
        super().__init__()
        self.kind, self.line = kind, line


class Word(str):
    line = 0


def tree_of(text, first):
    """Gives the tokens of a text whose first line has that number, with those between brackets as groups."""
    stack = [Group("", first)]
    for number, line in enumerate(text.split("\n"), first):
        for found in TOKEN.findall(re.sub(r'//.*|("(?:[^"\\]|\\.)*")', lambda it: it[1] or "", line)):
            if found in OPEN:
                stack.append(Group(found, number))
                stack[-2].append(stack[-1])
            elif found in CLOSE:
                if len(stack) > 1:
                    stack.pop()
            else:
                word = Word(found)
                word.line = number
                stack[-1].append(word)
    return stack[0]


def words_in(tokens):
    """Gives all words of tokens, those within brackets as well."""
    for it in tokens:
        if isinstance(it, Group):
            yield from words_in(it)
        else:
            yield it


FUNCTION = re.compile(r"^( *)(?:pub(?:\(\w+\))? )?(?:const )?fn (\w+)")


class Function:
    """A function by its name, its head up to its clauses, its clauses, and its body's tokens."""

    def __init__(self, name, line, head, clauses, body, owner):
        self.name, self.line, self.head, self.clauses, self.body, self.owner = name, line, head, clauses, body, owner
        result = head.rpartition("->")[2].strip() if "->" in head else ""
        found = re.fullmatch(r"(?:io::)?Result<(.*)>", re.sub(r"\s+", " ", result).strip())
        self.error = re.sub(r"<.*>", "", re.sub(r"<[^<>]*>", "", found[1]).rpartition(",")[2]).strip().split("::")[-1] if found else None

    def gets_want(self):
        """Whether a parameter is want of memory."""
        if re.search(r"requires \{[^}]*≡ ErrorKind\.OutOfMemory \}", self.clauses):
            return True
        return bool(re.search(rf"\w+: &?(?:{'|'.join(ALONE)})\b", self.head.partition("->")[0]) or re.search(rf"impl(?:<[^>]*>)? From<(?:{'|'.join(ALONE)})> for ", self.owner))


def functions_of(text):
    """Gives the functions of a file as rt fmt lays it out."""
    lines = text.split("\n")
    at, owner = 0, ""
    while at < len(lines):
        if lines[at].startswith(("impl", "trait", "pub trait", "}")):
            owner = lines[at]
        found = FUNCTION.match(lines[at])
        if not found:
            at += 1
            continue
        indent, begin = found[1], at
        head, clauses, is_head, depth = [], [], True, 0
        while at < len(lines):
            line = lines[at]
            is_head = is_head and not re.match(r"\s*(ensures|requires|where)\b", line)
            (head if is_head else clauses).append(line)
            depth += 0 if is_head else line.count("{") - line.count("}")
            # (a trait's method has no body: its clauses end with a semicolon)
            if line == f"{indent}{{" or is_head and line.endswith(" {") or line.endswith(";") and (is_head or not depth) or line.endswith("}") and is_head:
                break
            at += 1
        end = at
        if not lines[min(at, len(lines) - 1)].endswith((";", "}")):
            while end + 1 < len(lines) and lines[end] != f"{indent}}}":
                end += 1
        body = "\n".join(lines[at + 1 : end])
        yield Function(found[2], begin + 1, "\n".join(head).rstrip(" {"), "\n".join(clauses), tree_of(body, at + 2), owner)
        at = max(end, at) + 1


def split(tokens, mark):
    parts = [[]]
    for it in tokens:
        if it == mark and not isinstance(it, Group):
            parts.append([])
        else:
            parts[-1].append(it)
    return parts


class Search:
    """The places of one function that make an answer of want of memory, and what decides them."""

    def __init__(self, function, errors, path):
        self.function, self.errors, self.path, self.places, self.wrong = function, errors, path, 0, []
        self.none_too = any(re.search(rf"\b{it}\b", function.clauses) for it in CLAUSES) and "Option<" in function.head.rpartition("->")[2]
        self.bound = {}
        if not function.gets_want():
            self.block(function.body, False)

    def is_call(self, tokens, pure):
        """Whether tokens are one call, and, where `pure`, one whose only error is want of memory."""
        tokens = [it for it in tokens if it not in ("&", "mut", "*")]
        if any(it in ("&&", "||", "==", "!=", "<", ">", "<=", ">=", "!", "?", "if", "match") for it in tokens if not isinstance(it, Group)):
            tokens = self.last_of(tokens)
        if len(tokens) == 1 and not isinstance(tokens[0], Group):
            return self.bound.get(tokens[0], not pure)
        if len(tokens) < 2 or not isinstance(tokens[-1], Group):
            return False
        if self.is_huge(tokens[-1]):
            return False
        if tokens[-2] == "!" and len(tokens) > 2:
            return tokens[-3] in MACROS
        name = tokens[-2]
        if isinstance(name, Group) or tokens[-1].kind != "(":
            return False
        if not pure:
            return True
        crate = "/".join(self.path.split("/")[:2])
        # (those of this file, else of this crate, else of all)
        found = self.errors.get((self.path, name)) or self.errors.get((crate, name)) or self.errors.get(name)
        return name in TAKES or bool(found) and found <= ALONE

    def last_of(self, tokens):
        """Gives the last call of a chain with `?` before it; nothing where the tokens are no chain."""
        if any(it in ("&&", "||", "==", "!=", "<", ">", "<=", ">=", "!", "if", "match") for it in tokens if not isinstance(it, Group) and not (it == "!" and self.is_macro(tokens))):
            return []
        return tokens

    @staticmethod
    def is_macro(tokens):
        return any(it == "!" and at and tokens[at - 1] in MACROS for at, it in enumerate(tokens))

    @staticmethod
    def is_huge(tokens):
        """Whether a call takes a number that no machine has memory for."""
        for it in words_in(tokens):
            if it == "MAX" or re.fullmatch(r"\d[\d_]*(?:u\d+|usize)?", it) and int(re.match(r"[\d_]+", it)[0].replace("_", "")) >= 1 << 20:
                return True
        return False

    @staticmethod
    def names_want(pattern):
        """Whether each alternative of a pattern names want of memory."""
        return all(any(word in NAMES for word in words_in(it)) for it in split(pattern, "|"))

    @staticmethod
    def is_error(pattern):
        """Whether a pattern is `Err(..)` and takes any error."""
        return len(pattern) == 2 and pattern[0] == "Err" and isinstance(pattern[1], Group) and len(pattern[1]) == 1 and re.fullmatch(r"_|[a-z]\w*", str(pattern[1][0])) is not None

    def arm(self, scrutinee, pattern, guard):
        """Whether an arm is that of a refused allocation."""
        if guard:
            return self.is_memory_test(guard)
        if self.names_want(pattern):
            return True
        return self.is_error(pattern) and self.is_call(scrutinee, True)

    @staticmethod
    def is_memory_test(condition):
        """Whether a condition asks an error whether it is want of memory, and nothing else."""
        words = "".join(words_in(condition))
        return re.fullmatch(r"\w+(\.\w+)*\.is_memory|\w+\.kind==(io::)?ErrorKind::OutOfMemory", words) is not None

    def condition(self, tokens):
        """Gives whether the condition of an `if` is a refused allocation where it holds, and whether it is where it doesn't."""
        if tokens and tokens[0] == "let":
            at = tokens.index("=")
            pattern, over = tokens[1:at], tokens[at + 1 :]
            is_ok = len(pattern) == 2 and pattern[0] == "Ok"
            return self.arm(over, pattern, []), is_ok and self.is_call(over, True)
        if self.is_memory_test(tokens):
            return True, False
        if len(tokens) > 3 and tokens[-2] in ("is_err", "is_ok") and tokens[-3] == ".":
            pure = tokens[0] != "!" and self.is_call(tokens[:-3], True)
            return pure and tokens[-2] == "is_err", pure and tokens[-2] == "is_ok"
        return False, False

    def block(self, tokens, allowed):
        """Looks at the tokens of a block or an expression; `allowed` says whether the innermost of what decides it is a refused allocation."""
        at = 0
        while at < len(tokens):
            at = self.step(tokens, at, allowed)

    def until_block(self, tokens, at):
        end = at
        while end < len(tokens) and not (isinstance(tokens[end], Group) and tokens[end].kind == "{"):
            end += 1
        return end

    def step(self, tokens, at, allowed):
        it = tokens[at]
        if isinstance(it, Group):
            self.group(tokens, at, allowed)
            return at + 1
        if it == "match":
            end = self.until_block(tokens, at + 1)
            self.block(tokens[at + 1 : end], allowed)
            if end < len(tokens):
                self.arms(tokens[at + 1 : end], tokens[end])
            return end + 1
        if it == "if":
            return self.branches(tokens, at, allowed)
        if it in ("while", "for"):
            end = self.until_block(tokens, at + 1)
            self.block(tokens[at + 1 : end], allowed)
            if end < len(tokens):
                # (what comes while a condition holds is decided by that)
                self.block(tokens[end], False)
            return end + 1
        if it == "let":
            return self.binding(tokens, at, allowed)
        if it in ("prove", "const") and at + 1 < len(tokens) and tokens[at + 1] == "!":
            return at + 3
        if it in NAMES and not self.is_type(tokens, at):
            self.made(it, allowed)
        elif it == "None" and self.none_too:
            self.made(it, allowed)
        return at + 1

    @staticmethod
    def is_type(tokens, at):
        """Whether a name is a path's beginning, as `NoMemory::new`, or of a type."""
        return at + 1 < len(tokens) and tokens[at + 1] == "::" or at > 0 and tokens[at - 1] in (":", "->", "<", "as")

    def made(self, word, allowed):
        self.places += 1
        if not allowed:
            self.wrong.append((word.line, word))

    def binding(self, tokens, at, allowed):
        """A `let`, up to its end, with what its `else` is decided by."""
        end = at
        while end < len(tokens) and tokens[end] != ";":
            end += 1
        statement = tokens[at + 1 : end]
        if "=" not in statement:
            return end
        equals = statement.index("=")
        pattern, value = statement[:equals], statement[equals + 1 :]
        if "else" in value and value[-2:-1] == ["else"] and "if" not in value:
            over = value[:-2]
            self.block(over, allowed)
            self.block(value[-1], self.all_ok(pattern, over))
            return end
        if len(pattern) == 1 and not isinstance(pattern[0], Group):
            name = pattern[0]
            self.bound[name] = self.bound.get(name, True) and self.is_call(value, True)
        self.block(value, allowed)
        return end

    def all_ok(self, pattern, over):
        """Whether the `else` of `let` is that of refused allocations: of one, or of each in a tuple."""
        if len(pattern) == len(over) == 1 and isinstance(pattern[0], Group) and isinstance(over[0], Group):
            pairs = list(zip(split(pattern[0], ","), split(over[0], ",")))
            return len(pairs) > 1 and all(self.all_ok(*it) for it in pairs)
        return len(pattern) == 2 and pattern[0] == "Ok" and self.is_call(over, True)

    def branches(self, tokens, at, allowed):
        """An `if` with all that is `else` of it."""
        otherwise = []
        while True:
            end = self.until_block(tokens, at + 1)
            if end >= len(tokens):
                return end
            condition = tokens[at + 1 : end]
            if not self.is_memory_test(condition):
                self.block(condition[condition.index("=") + 1 :] if condition[:1] == ["let"] and "=" in condition else condition, allowed)
            holds, not_so = self.condition(condition)
            self.block(tokens[end], holds)
            otherwise.append(not_so)
            if tokens[end + 1 : end + 2] != ["else"]:
                return end + 1
            if tokens[end + 2 : end + 3] == ["if"]:
                at = end + 2
                continue
            self.block(tokens[end + 2], len(otherwise) == 1 and otherwise[0])
            return end + 3

    def arms(self, scrutinee, group):
        at = 0
        while at < len(group):
            begin = at
            while at < len(group) and group[at] != "=>":
                at += 1
            head = group[begin:at]
            guard = head[head.index("if") + 1 :] if "if" in head else []
            pattern = head[: head.index("if")] if "if" in head else head
            begin = at = at + 1
            if at < len(group) and isinstance(group[at], Group) and group[at].kind == "{":
                at += 1
            else:
                while at < len(group) and group[at] != ",":
                    if group[at] in ("match", "if"):
                        at = self.until_block(group, at)
                    at += 1
            is_refused = self.arm(scrutinee, pattern, guard)
            if not self.is_memory_test(guard):
                self.block(guard, False)
            self.block(group[begin:at], is_refused)
            if at < len(group) and group[at] == ",":
                at += 1

    def group(self, tokens, at, allowed):
        """What is between brackets: what `map_err` has is decided by what it is called on, what other calls that choose have by nothing that counts."""
        group = tokens[at]
        if at and str(tokens[at - 1]) in ROOM and self.is_huge(group) or at > 1 and tokens[at - 1] == "!" and tokens[at - 2] == "vec" and self.is_huge(group):
            self.wrong.append((group.line, "MAX"))
        if group.kind == "(" and at >= 2 and tokens[at - 2] == ".":
            name = tokens[at - 1]
            if name == "map_err":
                begin = at - 2
                while begin > 0 and not (tokens[begin - 1] in (";", "=", "return", "=>", ",", "else") or isinstance(tokens[begin - 1], Group) and tokens[begin - 1].kind == "{"):
                    begin -= 1
                self.block(group, self.is_call(tokens[begin : at - 2], True))
                return
            if name in ("ok_or", "ok_or_else", "or", "or_else", "unwrap_or", "unwrap_or_else", "and_then", "map_or", "filter", "then", "then_some"):
                self.block(group, False)
                return
        self.block(group, allowed)


def errors_of(files):
    """Gives for each name of a function the types of the errors that functions of that name give, in one file, in one crate, and in all."""
    found = {}
    for path, text in files.items():
        for it in functions_of(text):
            if it.error:
                for key in (path, it.name), ("/".join(path.split("/")[:2]), it.name), it.name:
                    found.setdefault(key, set()).add(it.error)
    return found


def wrong_in(files, errors):
    """Gives the places that answer want of memory where no allocation was refused, and how many functions and places were looked at."""
    wrong, functions, places = [], 0, 0
    for path, text in files.items():
        for function in functions_of(text):
            found = Search(function, errors, path)
            functions, places = functions + 1, places + found.places
            wrong += [(path, line, function.name, word) for line, word in found.wrong]
    return wrong, functions, places


def forms_of(path):
    """Gives the forms of the check's own test: a name, whether it is right, and its text."""
    return [(name, kind == "right", text) for kind, name, text in re.findall(r"(?m)^-- (right|wrong): (.*)\n((?:(?!-- ).*\n)*)", read(path))]


def tests(errors):
    forms = forms_of("checks/no_memory.txt")
    wrong = [f"{name}: {'refused' if right else 'passed'}" for name, right, text in forms if bool(wrong_in({name: text}, errors)[0]) == right]
    for it in wrong:
        print(f"no_memory: {it}")
    count = sum(not right for _, right, _ in forms)
    print(f"no_memory: {count} wrong forms and {len(forms) - count} right ones, {len(wrong)} of them not known as such")
    return not wrong and count >= 17


def main(words):
    files = code()
    errors = errors_of(files)
    is_right = tests(errors)
    if words == ["--tests"]:
        return 0 if is_right else 1
    found, functions, places = wrong_in(files, errors)
    for path, line, name, word in found:
        print(f"{path}:{line}: {name}: {f'answers {word}' if word != 'MAX' else 'asks for more than there is'}, and no allocation was refused")
    print(f"no_memory: {functions} functions, {places} places, {len(found)} wrong")
    return 0 if is_right and not found and functions > 1000 and places > 100 else 1


if __name__ == "__main__":
    sys.exit(main(sys.argv[1:]))
