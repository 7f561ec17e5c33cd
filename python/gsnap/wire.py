"""A process of gsnap that answers a script, line by line."""
from __future__ import annotations

import os
import subprocess
import tempfile
import threading
import weakref
from collections.abc import Iterable, Sequence
from itertools import islice
from pathlib import Path
from typing import IO, Any, NoReturn

from . import data
from .errors import Ended, NoProgram, OutOfStep, Refused
from .refusals import row_of
from .replies import (
    Committed,
    Listed,
    Opened,
    ReadNumbers,
    RefusedLine,
    Released,
    Reply,
    RunReply,
    Ticketed,
    first_line,
    list_of,
    take_vector,
)

# A line that is no command. It is refused by 801 and changes nothing, so that the reply to the line before it has ended there.
MARK = "?"
REPLY_TO_MARK = b"refused 801\n"

# A line behind that one, which is refused by 122 once a graph is open: no line of a script that was done without a refusal has
# both replies.
SECOND_MARK = "release 0"
REPLY_TO_SECOND_MARK = b"refused 122\n"

# How many bytes are read from the program, and wait to be written to it, at a time.
BUFFER = 1 << 20

# How many bytes of its last words are shown.
MOST_WORDS = 2000

# The reply that each line is due, by the line's first word.
DUE: dict[str, tuple[type[Any], str]] = {
    "vertices": (Opened, "open N"),
    "commit": (Committed, "version K"),
    "hold": (Ticketed, "ticket T version K"),
    "release": (Released, "released T"),
    "edges": (Listed, "edges M"),
    "run": (RunReply, "end .."),
}


def refused(number: int, line: str, entry: str | None = None) -> Refused:
    """Makes the exception for a line that was refused, with what the table of refusals says of the number."""
    row = row_of(number)
    return Refused(number, line, row.means if row else "", row.cure if row else "", entry)


def start(words: list[str], said: IO[bytes]) -> subprocess.Popen[bytes]:
    """Starts gsnap, in a session of its own, so that a terminal's Ctrl-C ends no graph. Raises NoProgram if it cannot."""
    try:
        return subprocess.Popen(
            words, bufsize=BUFFER, stdin=subprocess.PIPE, stdout=subprocess.PIPE, stderr=said, start_new_session=True
        )
    except OSError as error:
        said.close()
        raise NoProgram(f"{words[0]}: {error.strerror}") from None


def end_process(process: subprocess.Popen[bytes], said: IO[bytes]) -> None:
    """Ends a process that nobody asks any more."""
    process.kill()
    process.wait()
    for stream in (process.stdin, process.stdout, said):
        try:
            if stream:
                stream.close()
        except OSError:
            pass


class Wire:
    """A process of gsnap that does a script, with programs, numbered from 1. No graph is open yet.

    Each line that is due a reply is answered before the call returns. If a reply is not of the kind that the line is due, the
    process is ended and OutOfStep raised; if the process ended by itself, Ended.
    """

    def __init__(self, programs: Sequence[str | os.PathLike[str]] = (), gsnap: str | Path | None = None) -> None:
        words = [os.fspath(gsnap or data.program()), "script", "-", *(os.fspath(it) for it in programs)]
        self._said = tempfile.TemporaryFile()
        self._process = start(words, self._said)
        assert self._process.stdin and self._process.stdout
        self._out: IO[bytes] = self._process.stdin
        self._replies: IO[bytes] = self._process.stdout
        self._end = weakref.finalize(self, end_process, self._process, self._said)

    @property
    def pid(self) -> int:
        """The number of the process."""
        return self._process.pid

    def kill(self) -> None:
        """Ends the process at once."""
        self._end()

    def close(self) -> int:
        """Ends the script, waits for the process, and returns its exit status."""
        try:
            self._out.close()
        except OSError:
            pass
        self._replies.close()
        status = self._process.wait()
        self._end()
        return status

    def send(self, lines: bytes) -> None:
        """Sends lines that are due no reply; they may wait until something is asked."""
        try:
            self._out.write(lines)
        except (OSError, ValueError):
            self.fail()

    def ask(self, line: str) -> Reply:
        """Sends a line that is due a reply of one line, and returns it, or raises Refused."""
        self._ask(line)
        first = self._read_line()
        found = self._first_reply(line, first, [])
        if isinstance(found, RefusedLine):
            raise refused(found.number, line)
        kind, wanted = DUE[line.partition(" ")[0]]
        is_due = isinstance(found, kind)
        if found is None or not is_due:
            self.out_of_step(line, wanted, first)
        return found

    def list_edges(self, line: str) -> list[bytes]:
        """Sends a line `edges`, and returns the lines of the edges, or raises Refused."""
        found = self.ask(line)
        assert isinstance(found, Listed)
        lines = list(islice(self._replies, found.count))
        if len(lines) < found.count:
            self.fail()
        return lines

    def run(self, line: str, read: ReadNumbers = list_of, only: frozenset[str] | None = None) -> RunReply:
        """Sends a line `run`, and returns the reply, or raises Refused. Numbers of names that are not in `only` are passed over."""
        self._ask(f"{line}\n{MARK}")
        printed: list[str] = []
        first = self._read_line()
        while not first.startswith((b"end ", b"refused ")):
            printed.append(first.decode().rstrip("\n"))
            first = self._read_line()
        reply = self._first_reply(line, first, printed)
        if isinstance(reply, RefusedLine):
            self._read_mark(line)
            raise refused(reply.number, line)
        if not isinstance(reply, RunReply):
            self.out_of_step(line, "end ..", first)
        while (more := self._read_line()) != REPLY_TO_MARK:
            self._take_vector(reply, line, more, read, only)
        return reply

    def replay(self, lines: Iterable[bytes]) -> list[Reply]:
        """Sends pieces of a script's text, and returns all replies, which must be of one line each.

        If a line is refused by 801 and the next one that has a reply by 122, the replies end there. Whoever did not send as many
        lines as there are replies then sees that by their number.
        """
        writer = threading.Thread(target=self._write_all, args=(lines,), daemon=True)
        writer.start()
        found: list[Reply] = []
        last = b""
        end = REPLY_TO_MARK
        while (last, line := self._read_line()) != (REPLY_TO_MARK, end):
            reply = first_line(line, [])
            if reply is None:
                self.out_of_step("a line of the script", "a reply", line)
            if isinstance(reply, Opened):
                end = REPLY_TO_SECOND_MARK
            found.append(reply)
            last = line
        writer.join()
        return found[:-1]

    def _write_all(self, pieces: Iterable[bytes]) -> None:
        """Writes a script and the mark behind it."""
        try:
            for piece in pieces:
                self._out.write(piece)
            self._out.write(f"{MARK}\n{SECOND_MARK}\n".encode())
            self._out.flush()
        except (OSError, ValueError):
            pass  # the reader sees that the replies end

    def _ask(self, line: str) -> None:
        self.send(line.encode() + b"\n")
        try:
            self._out.flush()
        except (OSError, ValueError):
            self.fail()

    def _first_reply(self, line: str, first: bytes, printed: list[str]) -> Reply | None:
        """Returns the reply that the line `first` begins."""
        try:
            return first_line(first, printed)
        except (ValueError, IndexError):
            self.out_of_step(line, DUE[line.partition(" ")[0]][1], first)

    def _take_vector(self, reply: RunReply, line: str, more: bytes, read: ReadNumbers, only: frozenset[str] | None) -> None:
        """Adds a line to the reply of a run."""
        try:
            is_taken = take_vector(reply, more, read, only)
        except ValueError:
            is_taken = False
        if not is_taken:
            self.out_of_step(line, "vector or set", more)

    def _read_mark(self, line: str) -> None:
        found = self._read_line()
        if found != REPLY_TO_MARK:
            self.out_of_step(line, REPLY_TO_MARK.decode().rstrip(), found)

    def _read_line(self) -> bytes:
        try:
            line = self._replies.readline()
        except ValueError:
            line = b""
        if not line.endswith(b"\n"):
            self.fail()
        return line

    def out_of_step(self, line: str, wanted: str, reply: bytes) -> NoReturn:
        """Ends the process, and raises OutOfStep."""
        self._end()
        raise OutOfStep(line, wanted, reply.decode(errors="replace").rstrip()[:200])

    def fail(self) -> NoReturn:
        """Raises Ended for a process that ended by itself."""
        status = self._process.wait()
        words = ""
        if not self._said.closed:
            self._said.seek(0)
            words = self._said.read(MOST_WORDS).decode(errors="replace").strip()
        self._end()
        raise Ended(status, words)
