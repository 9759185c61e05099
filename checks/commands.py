"""Runs each row of checks/commands.txt through a program and compares the status and the output with those that are due.

    commands.py PROGRAM ROWS..

A line of rows is one of these. A name of a file stands from its line on.

    file NAME TEXT                          a file with this text
    image NAME WORD.. | HALFWORD..          a file with the HEX text of an image: words, halfwords and again words, in hexadecimal, between bars
    bytes NAME BYTE..                       the same of single bytes
    folder NAME                             a folder of that name
    pieces NAME TEXT..                      a pipe of that name, into which the next row's program is given these texts with a pause between them
    each FROM UPTO                          the lines up to the next empty one stand once for each number, written in them as {} or {:02x}
    WORD.. -> STATUS TEXT                   a row: the words behind the program's name, the status and the output that are due
    WORD.. -> STATUS full                   the same where standard output is a device that takes nothing
    little WORD.. -> STATUS TEXT            the same in little memory, more from run to run: status 30 and no output until there is enough

A TEXT is in double quotes with escapes as in Python; texts are joined by + and repeated by *. A WORD * NUMBER in an image is that many. Words with
spaces stand in quotes, and so do words with an escape, as '\\xff'.
"""
import ast
import os
import re
import resource
import shlex
import subprocess
import sys
import tempfile
import threading
import time


def text_of(source):
    """Gives the bytes of a text."""
    def value(node):
        if isinstance(node, ast.BinOp) and isinstance(node.op, ast.Add):
            return value(node.left) + value(node.right)
        if isinstance(node, ast.BinOp) and isinstance(node.op, ast.Mult):
            return value(node.left) * node.right.value
        return node.value.encode("latin-1")
    return value(ast.parse(source.strip(), mode="eval").body)


def record(kind, offset, payload):
    line = bytes([len(payload), offset // 256, offset % 256, kind]) + payload
    return f":{(line + bytes([-sum(line) % 256])).hex().upper()}\n"


def hex_text(image):
    """Gives the HEX text of an image, written anew here: records of 16 bytes, behind a record of type 04 where 64 KB begin."""
    lines = []
    for at in range(0, len(image), 16):
        if at % 65536 == 0:
            lines.append(record(4, 0, (at // 65536).to_bytes(2, "big")))
        lines.append(record(0, at % 65536, image[at : at + 16]))
    return "".join([*lines, record(1, 0, b"")]).encode("ascii")


def image_of(source):
    """Gives the bytes of an image's words and halfwords, low byte first."""
    image = b""
    for place, part in enumerate(source.split("|")):
        size = 2 if place % 2 else 4
        for number, times in re.findall(r"([0-9a-f]+)(?: \* ([0-9]+))?", part):
            image += int(number, 16).to_bytes(size, "little") * int(times or 1)
    return image


MOST_WRONG = 20


class Rows:
    def __init__(self, program, folder):
        self.program, self.folder = program, folder
        self.rows = self.wrong = 0
        self.pieces = None

    def write(self, name, content):
        with open(f"{self.folder}/{name}", "wb") as it:
            it.write(content)

    def feed(self, name, pieces):
        """Puts the pieces into the pipe, each after a pause."""
        with open(f"{self.folder}/{name}", "wb", buffering=0) as it:
            for piece in pieces:
                it.write(piece)
                time.sleep(0.05)

    def pipe(self, rest):
        name, _, pieces = rest.partition(" ")
        os.mkfifo(f"{self.folder}/{name}")
        self.pieces = threading.Thread(target=self.feed, args=(name, [text_of(it) for it in re.findall(r'"(?:[^"\\]|\\.)*"', pieces)]), daemon=True)

    def run(self, words, due, where):
        words = [it.encode("latin-1").decode("unicode_escape").encode("latin-1") if "\\" in it else it for it in words]
        status, _, output = due.strip().partition(" ")
        self.rows += 1
        if self.pieces:
            self.pieces.start()
            self.pieces = None
        if output.strip() == "full":
            with open("/dev/full", "wb") as full:
                ran = subprocess.run([self.program, *words], cwd=self.folder, stdin=subprocess.DEVNULL, stdout=full, timeout=100)
            right, written = ran.returncode == int(status), None
        else:
            ran = subprocess.run([self.program, *words], cwd=self.folder, stdin=subprocess.DEVNULL, stdout=subprocess.PIPE, timeout=100)
            written = ran.stdout
            right = (ran.returncode, written) == (int(status), text_of(output))
        if not right:
            self.wrong += 1
            print(f"commands: {where}: {words}: {ran.returncode} {written!r} where {due.strip()[:200]} is due")
        if self.wrong > MOST_WRONG:
            sys.exit("commands: too many wrong, the rest isn't tried")

    def run_within(self, words, limit):
        ran = subprocess.run([self.program, *words], cwd=self.folder, stdin=subprocess.DEVNULL, stdout=subprocess.PIPE, stderr=subprocess.DEVNULL,
                             preexec_fn=lambda: resource.setrlimit(resource.RLIMIT_AS, (limit, limit)), timeout=100)
        return ran.returncode, ran.stdout

    def run_in_little(self, words, due, where):
        """Runs the words in more and more memory, from a megabyte beside the program's own size, where it can't be loaded yet (the status is 127), to where there is enough."""
        status, _, output = due.strip().partition(" ")
        enough, wanting = (int(status), text_of(output)), 0
        self.rows += 1
        for limit in range(os.path.getsize(self.program) + (1 << 20), 64 << 20, 1 << 15):
            ran = self.run_within(words, limit)
            if ran == enough:
                break
            if ran == (30, b""):
                wanting += 1
            elif ran[0] != 127:
                self.wrong += 1
                print(f"commands: {where}: {words}: {ran[0]} {ran[1]!r} in {limit} bytes, where 30 and nothing is due")
        if ran != enough or not wanting:
            self.wrong += 1
            print(f"commands: {where}: {words}: {ran[0]} {ran[1]!r} in the end, and {wanting} runs wanted memory")

    def line(self, line, where):
        first, _, rest = line.partition(" ")
        name, _, content = rest.partition(" ")
        if " -> " in line:
            words, _, due = line.partition(" -> ")
            if first == "little":
                self.run_in_little(shlex.split(words)[1:], due, where)
            else:
                self.run(shlex.split(words), due, where)
        elif line.startswith("-> "):
            self.run([], line[3:], where)
        elif first == "file":
            self.write(name, text_of(content))
        elif first == "image":
            self.write(name, hex_text(image_of(content)))
        elif first == "bytes":
            self.write(name, hex_text(bytes.fromhex(content)))
        elif first == "folder":
            os.mkdir(f"{self.folder}/{name}")
        elif first == "pieces":
            self.pipe(rest)
        else:
            sys.exit(f"commands: {where}: {line!r} is no line of rows")

    def read(self, path):
        """Takes the lines of a file of rows."""
        each, block = None, []
        with open(path, encoding="ascii") as it:
            lines = [*enumerate(it.read().splitlines(), 1), (0, "")]
        for number, line in lines:
            where = f"{os.path.basename(path)}:{number}"
            if each is not None and not line:
                for n in each:
                    for at, template in block:
                        self.line(template.format(n), at)
                each, block = None, []
            elif line.startswith("each "):
                each = range(int(line.split()[1]), int(line.split()[2]) + 1)
            elif each is not None:
                block.append((where, line))
            elif line and not line.startswith("#"):
                self.line(line, where)


def main():
    program = os.path.abspath(sys.argv[1])
    with tempfile.TemporaryDirectory() as folder:
        rows = Rows(program, folder)
        for path in sys.argv[2:]:
            rows.read(path)
    print(f"commands: {rows.rows} rows, {rows.wrong} wrong")
    sys.exit(1 if rows.wrong or not rows.rows else 0)


if __name__ == "__main__":
    main()
