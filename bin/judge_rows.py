"""What bin/judge compares: the lines of a transcript, or by meaning the text at the serial port and the last picture of each moment."""
from __future__ import annotations

import dataclasses
import difflib
import io
import os
import re
from typing import BinaryIO, Callable, Iterable

PIECE = 65536  # bytes of a line that are looked at together
WIDTH = 240  # letters of a line that are shown
MOST_TO_COUNT = 2000  # rows of each side of which it is counted how many are the same
MOST_OF_MEANING = 16_777_216  # bytes of text, and bytes of pictures, that are compared by meaning
MODES = ("text", "pictures")
AT_MOMENT = re.compile(rb"((?:\d )?(?:end |panic |budget |fault )?)(\d{1,10})((?: .*)?\n?)", re.S)
SERIAL = re.compile(rb"(?:\d )?\d{1,10} serial ((?:[0-9a-f]{2})*)\n?")
DISPLAY = re.compile(rb"(?:\d )?(\d{1,10}) display ([.#]{5}(?:/[.#]{5}){4})\n?")
CLOSING = re.compile(rb"(?:\d )?(end|panic|budget|fault|refused|script refused|class refused|arrivals refused)\b(?: \d+)?(.*)\n?")
BOARD = re.compile(rb"(\d) (?=\d{1,10} |(?:end|panic|budget|fault|refused|script refused) )")


@dataclasses.dataclass(frozen=True)
class Wish:
    """How outputs are compared: by which meanings, or as lines where there is none, and with times that differ by so many milliseconds at most."""

    modes: tuple[str, ...] = ()
    within: int | None = None

    def is_exact(self) -> bool:
        return not self.modes and self.within is None


@dataclasses.dataclass(frozen=True)
class Difference:
    """The first row in which an output differs from what is wanted; an empty one is the end. What follows tells a missing row from one too many. How many rows are the same, of how many, where it was counted."""

    row: int
    wanted: bytes
    came: bytes
    next_wanted: bytes
    next_came: bytes
    kind: str = "line"
    same: int | None = None
    rows: int | None = None
    board: bytes = b""

    def says(self) -> str:
        if self.wanted and (not self.came or self.came == self.next_wanted):
            what = "is missing"
        elif self.came and (not self.wanted or self.wanted == self.next_came):
            what = "is one too many"
        else:
            what = "differs"
        of = f" of board {self.board.decode()}" if self.board else ""
        return f"{self.kind}{of} {what}" if self.kind == "the closing line" else f"{self.kind} {self.row}{of} {what}"


@dataclasses.dataclass
class Kept:
    """The first rows of an output, and whether it has more."""

    rows: list[bytes] = dataclasses.field(default_factory=list)
    size: int = 0
    is_whole: bool = True

    def add(self, row: bytes) -> None:
        if len(self.rows) >= MOST_TO_COUNT or self.size > 1_048_576:
            self.is_whole = False
            return
        self.rows.append(row)
        self.size += len(row)


def count_same(wanted: list[bytes], came: list[bytes]) -> int:
    """Gives how many rows of the first come in the second too, in their order."""
    return sum(it.size for it in difflib.SequenceMatcher(None, wanted, came, autojunk=False).get_matching_blocks())


def wanted_line(file: BinaryIO) -> bytes:
    """Gives the next line of a wanted transcript, with the line's end that the program writes, or nothing at the file's end."""
    line = file.readline(PIECE)
    if line.endswith(b"\r\n"):
        return line[:-2] + b"\n"
    return line if line.endswith(b"\n") or not line or len(line) == PIECE else line + b"\n"


def compare_lines(output: io.BufferedReader, wanted: BinaryIO) -> tuple[Difference | None, bytes]:
    """Reads an output to its end. Gives where its lines differ first from those that are wanted, if they do, and its last line."""
    number, last, found, kept = 1, b"", None, (Kept(), Kept())
    while not found:
        due, came = wanted_line(wanted), output.readline(PIECE)
        last = came or last
        if due != came:
            found = Difference(number, due, came, wanted_line(wanted), output.readline(PIECE))
            last = found.next_came or last
        elif not came:
            return None, last
        kept[0].add(due)
        kept[1].add(came)
        number += came.endswith(b"\n")
    for it, rest, first in ((kept[0], lambda: wanted_line(wanted), found.next_wanted), (kept[1], lambda: output.readline(PIECE), found.next_came)):
        row = first
        while row and it.is_whole:
            it.add(row)
            last = row if it is kept[1] else last
            row = rest()
        if it is kept[1] and row:
            last = row
    return with_count(found, *kept), last_line(output) or last


def with_count(found: Difference, wanted: Kept, came: Kept) -> Difference:
    """Gives a difference with the count of rows that are the same, where both sides are short enough to be counted."""
    if not (wanted.is_whole and came.is_whole):
        return found
    rows = [[row for row in it.rows if row] for it in (wanted, came)]
    return dataclasses.replace(found, same=count_same(*rows), rows=max(len(it) for it in rows))


def last_line(output: io.BufferedReader) -> bytes:
    """Reads an output to its end, and gives its last line, or nothing where it has none."""
    tail = b""
    for part in iter(lambda: output.read1(PIECE), b""):
        tail = (tail + part)[-PIECE:]
    return tail[tail.rfind(b"\n", 0, -1) + 1 :]


# By meaning.


def board_of(line: bytes) -> bytes:
    """Gives the number of the board with which a line of a class begins, or nothing."""
    found = BOARD.match(line)
    return found[1] if found else b""


def bare(line: bytes) -> bytes:
    """Gives a line without the number of its board."""
    return line[len(found[0]):] if (found := BOARD.match(line)) else line


@dataclasses.dataclass
class Meaning:
    """What the lines of a board mean: the bytes at the serial port, the last picture of each moment, how the run closed, and its last line."""

    text: bytearray = dataclasses.field(default_factory=bytearray)
    pictures: list[tuple[int, bytes]] = dataclasses.field(default_factory=list)
    lines: list[bytes] = dataclasses.field(default_factory=list)
    closing: bytes = b""
    last: bytes = b""

    def take(self, line: bytes, wish: Wish) -> None:
        if not wish.modes:
            self.lines.append(line)
        elif found := SERIAL.fullmatch(line):
            self.text += bytes.fromhex(found[1].decode())
        elif found := DISPLAY.fullmatch(line):
            moment = int(found[1])
            if self.pictures and self.pictures[-1][0] == moment:
                self.pictures.pop()
            self.pictures.append((moment, found[2]))
        if found := CLOSING.match(line):
            self.closing = found[1]
            self.last = line


@dataclasses.dataclass
class Meanings:
    """What an output means, by boards, and its last line. A run of one board has one, without a number."""

    boards: dict[bytes, Meaning] = dataclasses.field(default_factory=dict)
    size: int = 0
    last: bytes = b""
    is_whole: bool = True

    def take(self, line: bytes, wish: Wish) -> None:
        self.last = line
        self.size += len(line)
        if self.size > MOST_OF_MEANING:
            self.is_whole = False
            return
        self.boards.setdefault(board_of(line), Meaning()).take(line, wish)

    def of(self, board: bytes) -> Meaning:
        return self.boards.get(board) or Meaning()


def meanings_of(lines: Iterable[bytes], wish: Wish) -> Meanings:
    meanings = Meanings()
    for line in lines:
        meanings.take(line, wish)
    return meanings


def rows_of(meaning: Meaning, mode: str) -> list[bytes]:
    """Gives the rows that are compared in a mode, each as it is shown."""
    if mode == "text":
        return [b"text " + row for row in bytes(meaning.text).replace(b"\r\n", b"\n").split(b"\n")] if meaning.text else []
    if mode == "pictures":
        return [b"%d display %s" % it for it in meaning.pictures]
    return [it.rstrip(b"\r\n") for it in meaning.lines]


def moment_of(row: bytes) -> tuple[bytes, int | None]:
    """Gives a row without its moment, and the moment."""
    found = AT_MOMENT.fullmatch(row)
    return (found[1] + found[3], int(found[2])) if found else (row, None)


def is_same(within: int | None) -> Callable[[bytes, bytes], bool]:
    """Gives the test of two rows."""
    def test(a: bytes, b: bytes) -> bool:
        if a == b or within is None:
            return a == b
        (what, at), (other, when) = moment_of(a), moment_of(b)
        return what == other and at is not None and when is not None and abs(at - when) <= within
    return test


def counted(wanted: list[bytes], came: list[bytes], test: Callable[[bytes, bytes], bool]) -> tuple[int, int] | None:
    """Gives how many rows are the same, of how many, where both sides are short enough to be counted."""
    if max(len(wanted), len(came)) > MOST_TO_COUNT:
        return None
    # (rows that are the same by the test are counted as if they were equal)
    stand = [wanted[i] if i < len(wanted) and test(wanted[i], row) else row for i, row in enumerate(came)]
    return count_same(wanted, stand), max(len(wanted), len(came))


def difference(wanted: list[bytes], came: list[bytes], mode: str, test: Callable[[bytes, bytes], bool]) -> Difference | None:
    """Gives where rows differ first, if they do."""
    at = next((i for i, (a, b) in enumerate(zip(wanted, came)) if not test(a, b)), min(len(wanted), len(came)))
    if at == len(wanted) == len(came):
        return None
    kind = {"text": "line of text", "pictures": "picture"}.get(mode, "line")
    parts = [(rows[at : at + 2] + [b"", b""])[:2] for rows in (wanted, came)]
    return Difference(at + 1, parts[0][0], parts[1][0], parts[0][1], parts[1][1], kind)


def difference_of(wanted: Meanings, came: Meanings, mode: str, within: int | None) -> Difference | None:
    """Gives where the rows of a board differ first, if they do, with the count of those of all boards that are the same."""
    test = is_same(None if mode == "text" else within)
    rows = {board: (rows_of(wanted.of(board), mode), rows_of(came.of(board), mode)) for board in sorted({*wanted.boards, *came.boards})}
    for board, pair in rows.items():
        if found := difference(*pair, mode, test):
            counts = [counted(*it, test) for it in rows.values()]
            same, whole = (None, None) if None in counts else (sum(it) for it in zip(*counts))
            return dataclasses.replace(found, same=same, rows=whole, board=board)
    return None


def compare_meaning(output: io.BufferedReader, wanted: BinaryIO, wish: Wish) -> tuple[Difference | None, bytes]:
    """Reads an output to its end. Gives where it differs first by meaning from what is wanted, if it does, and its last line."""
    due = meanings_of(iter(lambda: wanted_line(wanted), b""), wish)
    came = meanings_of(iter(lambda: output.readline(PIECE), b""), wish)
    if not (due.is_whole and came.is_whole):
        return Difference(1, b"", b"more than is compared by meaning", b"", b""), came.last
    for mode in wish.modes or ("lines",):
        if found := difference_of(due, came, mode, wish.within):
            return found, came.last
    for board in sorted({*due.boards, *came.boards}):
        if due.of(board).closing != came.of(board).closing:
            return Difference(1, due.of(board).last or due.last, came.of(board).last or came.last, b"", b"", "the closing line", board=board), came.last
    return None, came.last


def compare(output: io.BufferedReader, wanted: BinaryIO | None, wish: Wish) -> tuple[Difference | None, bytes]:
    """Reads an output to its end. Gives where it differs first from what is wanted, if that is told and it does, and its last line."""
    if wanted is None:
        return None, last_line(output)
    return compare_lines(output, wanted) if wish.is_exact() else compare_meaning(output, wanted, wish)


# What is shown of rows.


def printable(text: str) -> str:
    """Gives a text with \\x and hexadecimal digits in place of each byte of what isn't printable."""
    return "".join(it if it.isprintable() else "".join(f"\\x{byte:02x}" for byte in it.encode("utf-8", "surrogateescape")) for it in text)


def decoded(line: bytes) -> str:
    return line.decode("utf-8", "surrogateescape")


def shown_lines(wanted: bytes, came: bytes) -> tuple[str | None, str | None]:
    """Gives two lines as they are shown, None for an end: of long ones what lies around the first difference."""
    at = len(os.path.commonprefix([wanted, came]))
    shown = []
    for line in (wanted, came):
        text = printable(decoded(line.removesuffix(b"\n")))
        if len(text) > WIDTH:
            begin = max(0, min(at, len(text)) - WIDTH // 2)
            text = f"{'.. ' if begin else ''}{text[begin:begin + WIDTH]} .. ({len(line)} bytes, different from byte {at + 1} on)"
        shown.append(text if line else None)
    return shown[0], shown[1]


def picture(line: str | None) -> list[str]:
    """Gives the five rows of a display line as squares, or nothing for another line."""
    frame = re.fullmatch(r"(?:\d+ )?\d+ display ([.#]{5}(?:/[.#]{5}){4})", line or "")
    return [row.replace("#", "██").replace(".", "··") for row in frame[1].split("/")] if frame else []


def with_text(line: str | None) -> str:
    """Gives a line as it is told, with its text where it has serial bytes."""
    serial = re.fullmatch(r"(?:\d+ )?\d+ serial ((?:[0-9a-f]{2})+)", line or "")
    text = f'    "{printable(decoded(bytes.fromhex(serial[1])))}"' if serial else ""
    return "nothing more" if line is None else line + text
