#!/bin/sh
# Times of `check` of texts of 16, 32 and 64 KB with as many declarations, uses of names or `[]` as fit, the least of RUNS runs each (3 if not given), in milliseconds, and the
# last over the middle one: 2 is linear, 4 quadratic. What takes more than 20 s of the processor is cut off. The verdict on the longest text stands behind: most pass a counted limit, which is asked last.
# usage: bench/names/run.sh [RUNS]
set -eu
top=$(cd "$(dirname "$0")/../.." && pwd)
runs=${1:-3}
folder=$(mktemp -d)
trap 'rm -rf "$folder"' EXIT

python3 - "$folder" "$("$top/bin/program")" "$runs" <<'PYTHON'
import resource
import subprocess
import sys

folder, program, runs = sys.argv[1], sys.argv[2], int(sys.argv[3])
LETTERS = "abcdefghijklmnopqrstuvwxyzABCDEFGHIJKLMNOPQRSTUVWXYZ"
DIGITS = "0123456789"


def name(i):
    """a short name for each number, which no reserved word is"""
    text = LETTERS[i % 52]
    i //= 52
    while True:
        text += DIGITS[i % 10]
        i //= 10
        if i == 0:
            return text


def filled(size, head, make, tail=""):
    """a head, as many parts as fit, and a tail; the number of parts beside it"""
    parts, length, i = [], len(head) + len(tail), 0
    while length + len(make(i)) <= size:
        parts.append(make(i))
        length += len(parts[i])
        i += 1
    return head + "".join(parts) + tail, i


def halves(size, head, make, between, use, tail=""):
    """declarations in the first half, and uses of the last fifty of them in the second"""
    first, count = filled(size // 2, head, make, between(0))
    first = first[: len(first) - len(between(0))] + between(count)
    rest, _ = filled(size - len(first) - 40, "", lambda i: use(count - 1 - i % 50), tail)
    return first + rest


def extends(i):
    return f" extends {name(i - 1)}" if i else ""


nothing = lambda count: ""
kinds = {
    "functions": lambda s: filled(s, "", lambda i: f"function {name(i)}(){{}}\n")[0],
    "functions of one name": lambda s: filled(s, "", lambda i: "function a(){}\n")[0],
    "globals": lambda s: filled(s, "", lambda i: f"let {name(i)}=1\n")[0],
    "globals of one `let`": lambda s: filled(s, "let q=1", lambda i: f",{name(i)}=1")[0],
    "globals, each used by the next": lambda s: filled(s, "", lambda i: f"let {name(i)}={name(i - 1) if i else 1}\n")[0],
    "calls of late functions": lambda s: halves(s, "", lambda i: f"function {name(i)}(){{}}\n", nothing, lambda i: f"{name(i)}()\n"),
    "results, each the next one's": lambda s: chained(s, ""),
    "results that wait in a circle": lambda s: chained(s, "function h(){let a=a0();return k()}\nfunction k(){return 1}\n"),
    "fields": lambda s: filled(s, "class A{", lambda i: f"{name(i)}=1\n", "}")[0],
    "fields, used": lambda s: halves(s, "class A{", lambda i: f"{name(i)}=1\n", lambda n: "z(){", lambda i: f"this.{name(i)}\n", "}}"),
    "methods": lambda s: filled(s, "class A{", lambda i: f"{name(i)}(){{}}\n", "}")[0],
    "methods, used": lambda s: halves(s, "class A{", lambda i: f"{name(i)}(){{}}\n", lambda n: "z(){", lambda i: f"this.{name(i)}()\n", "}}"),
    "classes": lambda s: filled(s, "", lambda i: f"class {name(i)}{{}}\n")[0],
    "classes with a field of one name": lambda s: filled(s, "", lambda i: f"class {name(i)}{{a=1}}\n")[0],
    "a chain of classes": lambda s: filled(s, "", lambda i: f"class {name(i)}{extends(i)}{{}}\n")[0],
    "a chain of classes with methods": lambda s: filled(s, "", lambda i: f"class {name(i)}{extends(i)}{{{name(i)}(){{}}}}\n")[0],
    "a chain of classes, a field of the first used": lambda s: halves(
        s, "", lambda i: f"class {name(i)}{extends(i)}{{{'' if i else 'f=1'}}}\n", lambda n: f"let z:{name(max(n - 1, 0))}=null\n", lambda i: "z.f\n"
    ),
    "a chain of classes, the last goes to the first": lambda s: halves(
        s, "", lambda i: f"class {name(i)}{extends(i)}{{}}\n", lambda n: f"let y:{name(0)}=null\nlet z:{name(max(n - 1, 0))}=null\n", lambda i: "y=z\n"
    ),
    "a chain of classes, the first's constructor called": lambda s: halves(
        s, "", lambda i: f"class {name(i)}{extends(i)}{{{'' if i else 'constructor(a:number){}'}}}\n", lambda n: f"let y:{name(0)}=null\n", lambda i: f"y=new {name(i)}(1)\n"
    ),
    "a chain of classes that comes back": lambda s: circle(s),
    "locals": lambda s: filled(s, "function f(){", lambda i: f"let {name(i)}=1\n", "}")[0],
    "locals, used": lambda s: halves(s, "function f(){", lambda i: f"let {name(i)}=1\n", nothing, lambda i: f"{name(i)}\n", "}"),
    "locals in blocks": lambda s: filled(s, "function f(){", lambda i: f"{{let {name(i)}=1}}\n", "}")[0],
    "locals around handlers": lambda s: halves(s, "function f(){", lambda i: f"let {name(i)}=1\n", nothing, lambda i: "control.inBackground(()=>{})\n", "}"),
    "a global, used in handlers of handlers": lambda s: filled(
        s, "let g=1\n" + "control.inBackground(()=>{let a=1;a\n" * 30, lambda i: "g\n", "})" * 30
    )[0],
    "parameters": lambda s: filled(s, "function f(a:number", lambda i: f",{name(i)}:number", "){}")[0],
    "handlers": lambda s: filled(s, "", lambda i: f"control.onEvent({i % 30 + 1},{i},()=>{{}})\n")[0],
    "names that aren't known": lambda s: filled(s, "", lambda i: f"let {name(i)}=1\n", "zz9")[0],
    "a type with many `[]`, used in the main program": lambda s: filled(s, "let a:number" + "[]" * (s // 4) + "=null\n", lambda i: "a=" * 50 + "a\n")[0],
    "a type with more `[]`, used in functions": lambda s: bracketed(s),
    "locals, each an array of the one before": lambda s: filled(s, "function f(){let a0=[1]\n", lambda i: f"let a{i + 1}=[a{i}]\n", "}")[0],
    "assignments in a row, in handlers of handlers": lambda s: filled(
        s, "let a=[1]\nlet g=1\n" + ("control.inBackground(()=>{let q=1" + "".join(f",b{i}=1" for i in range(20)) + "\n") * 28 + "a=" * 130 + "[g", lambda i: ",g", "]\n" + "})" * 28
    )[0],
}


def chained(size, head):
    text, count = filled(size - 60, head, lambda i: f"function {name(i)}(){{return {name(i + 1)}()}}\n")
    return text + f"function {name(count)}(){{return {'h()' if head else '1'}}}\n"


def bracketed(size):
    uses = "".join(f"function f{k}(){{" + ("a=" * 199 + "a\n") * 2 + "a=" * 149 + "a\n}\n" for k in range(3))
    return "let a:number" + "[]" * ((size - len(uses) - 18) // 2) + "=null\n" + uses


def circle(size):
    text, count = filled(size - 60, "class q extends a0{}\n", lambda i: f"class {name(i)} extends {name(i + 1)}{{}}\n")
    return text + f"class {name(count)} extends q{{}}\n"


def seconds(path):
    """the least time of some runs, in seconds of the processor, and the verdict"""
    least = None
    for _ in range(runs):
        before = resource.getrusage(resource.RUSAGE_CHILDREN)
        ended = subprocess.run([program, "check", path], capture_output=True, preexec_fn=lambda: resource.setrlimit(resource.RLIMIT_CPU, (20, 20)))
        if ended.returncode < 0:
            return None, "cut off"
        verdict = ended.stdout.decode().strip()
        after = resource.getrusage(resource.RUSAGE_CHILDREN)
        took = after.ru_utime - before.ru_utime + after.ru_stime - before.ru_stime
        least = took if least is None else min(least, took)
    return least, verdict


print(f"{'text':46}{'16 KB':>10}{'32 KB':>10}{'64 KB':>10}   grows")
for kind, make in kinds.items():
    times = []
    for size in (16384, 32768, 65536):
        path = f"{folder}/text.ts"
        text = make(size)
        assert size - 200 < len(text) <= size, (kind, size, len(text))
        with open(path, "w", encoding="ascii") as file:
            file.write(text)
        took, verdict = seconds(path)
        times.append(took)
        if took is None:
            break
    shown = "".join(f"{'over 20 s' if t is None else format(t * 1000, '.1f'):>10}" for t in times)
    grows = f"{times[2] / times[1]:8.1f}" if len(times) == 3 and times[2] is not None and times[1] > 0 else " " * 8
    print(f"{kind:46}{shown:30}{grows}   {verdict}", flush=True)
PYTHON
