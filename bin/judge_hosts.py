"""Runs cases of bin/judge on other machines: one connection by ssh to each, over which the program, the cases and what came of them go."""
from __future__ import annotations

import concurrent.futures
import contextlib
import dataclasses
import io
import json
import os
import queue
import re
import select
import shlex
import shutil
import subprocess
import tarfile
import threading
from typing import Callable, Iterator

WAIT = 60  # seconds beyond those of a run in which a machine may be silent
OPTIONS = ("-o", "BatchMode=yes", "-o", "ConnectTimeout=10", "-T")
FILES = ("judge", "judge_folder.py", "judge_hosts.py", "judge_page.py", "judge_rows.py", "printable.py")
# What runs there first: it reads a size of 20 digits and as many bytes of a tar file, unpacks it, and becomes the judge that it finds there.
FIRST = (
    "import io,os,sys,tarfile,tempfile\n"
    "f=open(0,'rb',0,closefd=False)\n"
    "def r(n):\n"
    " b=b''\n"
    " while len(b)<n:\n"
    "  p=f.read(n-len(b))\n"
    "  if not p: sys.exit(1)\n"
    "  b+=p\n"
    " return b\n"
    "d=tempfile.mkdtemp(prefix='judge-')\n"
    "t=tarfile.open(fileobj=io.BytesIO(r(int(r(20)))))\n"
    "t.extractall(d,**({'filter':'data'} if hasattr(tarfile,'data_filter') else {}))\n"
    "os.execvp('python3',['python3',d+'/judge','--serve',d,*sys.argv[1:]])\n"
)


@dataclasses.dataclass(frozen=True)
class Host:
    """A machine: how many runs at once, if that is said, and the words of ssh that reach it; none for this one."""

    name: str
    jobs: int | None
    words: tuple[str, ...]


def hosts_of(path: str) -> list[Host]:
    """Gives the machines of a file, a line for each: `8/room12` for eight runs at once on room12, `ssh -p 2222 anna@room12` for ssh with words of its own, `:` for this one. Raises ValueError for another line."""
    hosts = []
    with open(path, encoding="utf-8") as file:
        for number, line in enumerate(file, 1):
            text = line.partition("#")[0].strip()
            found = re.fullmatch(r"(?:(\d{1,3})/)?(\S.*)", text)
            if not text:
                continue
            words = shlex.split(found[2]) if found else []
            if not words or words[0].startswith("-") or words[0].endswith("/"):
                raise ValueError(f"line {number} names no machine")
            words = words[1:] if words[0] == "ssh" and len(words) > 1 else words
            hosts.append(Host(words[-1], int(found[1]) if found[1] else None, () if words == [":"] else tuple(words)))
    if not hosts:
        raise ValueError("it names no machine")
    return hosts


def packed(program: str) -> bytes:
    """Gives this judge and the program sts as a tar file, behind its size."""
    with io.BytesIO() as whole:
        with tarfile.open(fileobj=whole, mode="w:gz", compresslevel=1, dereference=True) as batch:
            folder = os.path.dirname(os.path.realpath(__file__))
            for path, name in ((program, "sts"), *((os.path.join(folder, it), it) for it in FILES)):
                batch.add(path, name, recursive=False)
        text = whole.getvalue()
    return b"%020d" % len(text) + text


def frame(case) -> bytes | None:
    """Gives a case with its files as they go to a machine: a line of JSON with their sizes, and the files; nothing where one can't be read."""
    parts = {}
    for part in ("text", "script", "wanted", "arrivals"):
        path = getattr(case, part)
        if path:
            if not os.path.isfile(path):
                return None
            try:
                with open(path, "rb") as file:
                    parts[part] = file.read()
            except OSError:
                return None
    head = {"number": case.number, "name": case.name(), "sizes": {part: len(it) for part, it in parts.items()}}
    return json.dumps(head).encode() + b"\n" + b"".join(parts.values())


class Lines:
    """Reads lines from a pipe, none later than so many seconds after the one before."""

    def __init__(self, file: int, seconds: float):
        self.file, self.seconds, self.rest = file, seconds, b""

    def next(self) -> bytes:
        """Gives the next line, or nothing at the end, or where it is too late."""
        while b"\n" not in self.rest:
            if not select.select([self.file], [], [], self.seconds)[0]:
                return b""
            piece = os.read(self.file, 65536)
            if not piece:
                return b""
            self.rest += piece
        line, _, self.rest = self.rest.partition(b"\n")
        return line


class Elsewhere:
    """Runs cases on the machines of a file."""

    def __init__(self, here, hosts: list[Host], jobs: int | None, words: list[str], tell: Callable[[str], None]):
        self.here, self.hosts, self.jobs, self.words, self.tell = here, hosts, jobs, words, tell
        self.waiting: queue.SimpleQueue = queue.SimpleQueue()
        self.came: queue.SimpleQueue = queue.SimpleQueue()
        self.children: set[subprocess.Popen] = set()
        self.lock, self.is_stopped = threading.Lock(), False

    def start(self, host: Host) -> subprocess.Popen:
        told = " ".join(shlex.quote(it) for it in ("python3", "-c", FIRST, *self.words))
        with self.lock:
            if self.is_stopped:
                raise OSError("stopped")
            child = subprocess.Popen(["ssh", *OPTIONS, *host.words, told], stdin=subprocess.PIPE, stdout=subprocess.PIPE, stderr=subprocess.DEVNULL, bufsize=0, start_new_session=True)
            self.children.add(child)
            return child

    def stop(self) -> None:
        with self.lock:
            self.is_stopped = True
            for child in self.children:
                if child.poll() is None:
                    child.kill()

    def feed(self, child: subprocess.Popen, given: dict, most: int) -> None:
        """Gives a machine cases until so many are with it."""
        while len(given) < most:
            try:
                case = self.waiting.get_nowait()
            except queue.Empty:
                return
            whole = frame(case)
            if whole is None:
                self.came.put((case, None))
                continue
            given[case.number] = case
            write_all(child.stdin, whole)

    def serve(self, host: Host, given: dict) -> None:
        """Has a machine run cases as long as there are some."""
        child = self.start(host)
        lines = Lines(child.stdout.fileno(), self.here.seconds + WAIT)
        try:
            write_all(child.stdin, self.whole)
            ready = json.loads(lines.next() or b"{}").get("jobs")
            if not ready:
                return
            most = 2 * (host.jobs or self.jobs or ready)
            self.feed(child, given, most)
            while given:
                line = lines.next()
                outcome = json.loads(line) if line else None
                if outcome is None:
                    return
                case = given.pop(outcome["number"], None)
                if case:
                    self.came.put((case, outcome))
                self.feed(child, given, most)
            write_all(child.stdin, b"\n")
            child.stdin.close()
            child.wait(WAIT)
        finally:
            if child.poll() is None:
                child.kill()
            child.wait()
            for it in (child.stdin, child.stdout):
                with contextlib.suppress(OSError):
                    it.close()

    def work(self, host: Host) -> None:
        """Does what a machine's thread does; what it didn't bring to an end goes to the others."""
        given: dict = {}
        try:
            if host.words:
                self.serve(host, given)
            else:
                self.work_here(host)
        except (OSError, ValueError, subprocess.TimeoutExpired):
            pass
        finally:
            if host.words and given and not self.is_stopped:
                self.tell(f"{host.name} is gone")
            for case in given.values():
                self.waiting.put(case)
            self.came.put((None, None))

    def work_here(self, host: Host) -> None:
        def turns() -> None:
            while not self.is_stopped:
                try:
                    case = self.waiting.get_nowait()
                except queue.Empty:
                    return
                with contextlib.suppress(Exception):
                    self.came.put((case, dataclasses.asdict(self.here.judge(case))))
        threads = [threading.Thread(target=turns, daemon=True) for _ in range(host.jobs or self.jobs or self.here.jobs)]
        for it in threads:
            it.start()
        for it in threads:
            it.join()

    def outcomes(self, cases: list) -> Iterator[dict]:
        """Gives what came of cases, as it comes: first from the machines, then of classes and of what didn't come to an end there."""
        # (a class names files of this machine)
        here = [case for case in cases if case.lacks or case.is_class]
        left = {case.number: case for case in cases if not (case.lacks or case.is_class)}
        for case in left.values():
            self.waiting.put(case)
        self.whole = packed(self.here.program)
        threads = [threading.Thread(target=self.work, args=(it,), daemon=True) for it in self.hosts]
        try:
            for it in threads:
                it.start()
            at_work = len(threads)
            while at_work:
                case, outcome = self.came.get()
                at_work -= case is None
                # (what couldn't be run there is tried here, and one that was given twice counts once)
                if case and outcome and outcome["verdict"] != "not run" and left.pop(case.number, None):
                    yield outcome
        finally:
            self.stop()
        if left:
            self.tell(f"{len(left)} runs came to no end on the other machines, and are done here")
        for it in self.here.outcomes([*here, *left.values()]):
            yield dataclasses.asdict(it)

def write_all(file, text: bytes) -> None:
    """Writes a text whole to a pipe."""
    view = memoryview(text)
    while view:
        view = view[file.write(view):]


# What runs there.


def exactly(file, size: int) -> bytes:
    text = b""
    while len(text) < size:
        piece = file.read(size - len(text))
        if not piece:
            raise EOFError
        text += piece
    return text


def case_of(file, line: bytes, folder: str, make):
    """Reads a case, whose files go into a folder."""
    head = json.loads(line)
    paths = {}
    for part, size in head["sizes"].items():
        paths[part] = os.path.join(folder, f"{head['number']}.{part}")
        with open(paths[part], "wb") as out:
            out.write(exactly(file, size))
    return make(head["number"], paths["text"], paths.get("script"), paths.get("wanted"), arrivals=paths.get("arrivals"))


def serve(folder: str, runner, make) -> int:
    """Judges the cases that are read, and writes what comes of each as a line of JSON. An empty line is the end; where the connection ends before, all ends."""
    lock = threading.Lock()

    def told(outcome) -> None:
        with lock:
            os.write(1, json.dumps(outcome).encode() + b"\n")

    def judge(case) -> None:
        told(dataclasses.asdict(runner.judge(case)))
        for path in filter(None, (case.text, case.script, case.wanted, case.arrivals)):
            os.unlink(path)

    try:
        os.write(1, json.dumps({"jobs": runner.jobs}).encode() + b"\n")
        with open(0, "rb", closefd=False) as file, concurrent.futures.ThreadPoolExecutor(runner.jobs) as pool:
            for line in iter(file.readline, b"\n"):
                if not line:
                    runner.stop()
                    pool.shutdown(wait=False, cancel_futures=True)
                    break
                pool.submit(judge, case_of(file, line, folder, make))
    except (OSError, EOFError):
        runner.stop()
    finally:
        shutil.rmtree(folder, ignore_errors=True)
    return 0
