"""Runs of gsnap in which the system refuses memory or threads, or fails to read or write, by the library of failures.c."""
import itertools
import os
import subprocess
import tempfile
from concurrent.futures import ThreadPoolExecutor
from typing import NamedTuple

from program import PATIENCE, ROOT, binary, end_without

SOURCE = f"{ROOT}/tests/failures.c"
COMPILE = ["gcc", "-O2", "-Wall", "-Wextra", "-Werror", "-shared", "-fPIC", SOURCE, "-ldl"]


class Calls(NamedTuple):
    """The last line of a run's report: who made the first refused request for memory, the place in the program from which starts
    of threads ask for memory, the counts of calls, and the live bytes at the end and at their peak."""

    refused: str
    place: int
    requests: int
    starts: int
    reads: int
    writes: int
    live: int
    peak: int


class Ran(NamedTuple):
    """The end of a run: its status, standard output and standard error, its calls, or None if it has no report, and the live
    bytes at each write to standard output."""

    status: int
    out: bytes
    err: bytes
    calls: Calls
    live: list

    @property
    def answer(self):
        return self.status, self.out, self.err


class Failures:
    """The preloaded library, in a folder that is removed at the end."""

    def __init__(self):
        self.folder = tempfile.TemporaryDirectory(prefix="gsnap-failures-")
        self.room = self.folder.name
        self.library = f"{self.room}/failures.so"
        self.numbers = itertools.count(1)

    def __enter__(self):
        try:
            ran = subprocess.run([*COMPILE, "-o", self.library], capture_output=True, text=True, check=False)
        except FileNotFoundError:
            end_without("gcc is missing: Debian has it in the package gcc")
        if ran.returncode != 0:
            end_without(f"failures.c cannot be compiled: {ran.stderr}")
        self.look()
        return self

    def __exit__(self, *_):
        self.folder.cleanup()

    def look(self):
        """Looks that the library is preloaded: a program that does not take it would pass each check."""
        if self.run([], given=b"vertices 1\n").calls is None:
            end_without(f"{binary()} does not load the library of failures.c, or does not end by _exit")

    def run(self, words, given=b"", folder=None, **failing):
        """Runs gsnap with these words, on these bytes of standard input. `failing` has variables of failures.c, in small letters."""
        report = f"{self.room}/{os.getpid()}-{next(self.numbers)}"
        chosen = {name.upper(): str(value) for name, value in failing.items()}
        env = {**os.environ, "LD_PRELOAD": self.library, "REPORT": report, **chosen}
        how = {"cwd": folder, "env": env, "timeout": PATIENCE} | ({"input": given} if given else {"stdin": subprocess.DEVNULL})
        try:
            ran = subprocess.run([binary(), *words], capture_output=True, check=False, **how)
        except subprocess.TimeoutExpired:
            return Ran(None, b"", b"it did not end", None, [])
        return Ran(ran.returncode, ran.stdout, ran.stderr, *report_of(report))


def report_of(path):
    """Reads a report and removes it. Returns the calls, or None, and the live bytes at each write."""
    try:
        with open(path, encoding="ascii") as file:
            lines = [line.split() for line in file]
    except FileNotFoundError:
        return None, []
    os.remove(path)
    live = [int(words[1]) for words in lines if words[0] == "write"]
    if not lines or lines[-1][0] != "end":
        return None, live
    return Calls(lines[-1][1], *map(int, lines[-1][2:])), live


def is_out_of_memory(ran, outs):
    """Whether a run was refused by 900 after a beginning of one of these outputs."""
    return (ran.status, ran.err) == (4, b"refused 900\n") and any(out.startswith(ran.out) for out in outs)


def workers():
    """Returns a pool of threads, one for each processor."""
    return ThreadPoolExecutor(len(os.sched_getaffinity(0)))


def short(ran):
    """Returns a line that shows how a run ended."""
    return f"status {ran.status}, {len(ran.out)} bytes ending in {ran.out[-60:]!r}, {ran.err[:120]!r}, {ran.calls and ran.calls.refused}"
