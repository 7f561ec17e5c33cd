"""A graph's script with a process that has done it: what makes every answer belong to the version that it names.

The script is kept in a journal. A program that the process does not have, and a call that was interrupted, end the process; the
next call starts one that has all programs, and does the journal again. So an interrupted call leaves the graph as it was.
"""
from __future__ import annotations

import functools
from collections.abc import Callable, Iterable, Iterator
from dataclasses import dataclass, replace
from typing import TypeVar

from .errors import Closed, Ended, Mistake, OutOfStep, Refused
from .journal import Journal
from .numbers import Integers, columns_of, integers
from .program import Program
from .replies import Committed, Opened, RefusedLine, Released, Reply, RunReply, Ticketed
from .saving import Kept, checkpoint
from .wire import Wire, refused

Answer = TypeVar("Answer")

# How many programs a process has at most beside those of the last call.
MOST_PROGRAMS = 1024

# With what a line of a saved graph begins.
SAVED = (b"vertices", b"add", b"del", b"grow", b"commit", b"hold", b"release")

# A journal of so many bytes, and of four times as many as a new one would have, is made anew.
MOST_JOURNAL = 1 << 28


@dataclass
class Batch:
    """What is pending: how many entries, and the one that names the greatest vertex."""

    entries: int = 0
    farthest: int = -1
    position: int = 0
    line: str = ""
    vertices: int = 0

    def note(self, count: int, farthest: int, offset: int, line: str) -> None:
        """Notes so many more entries, of which the one at `offset` names the greatest vertex."""
        if farthest > self.farthest:
            self.farthest, self.position, self.line = farthest, self.entries + offset + 1, line
        self.entries += count

    def cause(self, vertices: int) -> str | None:
        """Says which entry names a vertex that is not below `vertices`, or returns None."""
        if self.farthest < vertices:
            return None
        which = f"entry {self.position} of the batch, `{self.line}`"
        return f"vertex {self.farthest} of {which}: the vertices are 0 to {vertices - 1}"


@dataclass
class Ticket:
    """An open ticket: its number in the process, and the version that it holds."""

    number: int
    version: int
    vertices: int


class Session:
    """A graph with `vertices` vertices and no edges, as version 0, and programs that can be run on it."""

    def __init__(self, vertices: int, journal: Journal | None = None) -> None:
        self._programs: dict[Program, int] = {}
        self._journal = journal or Journal()
        if journal is None:
            self._journal.append(b"vertices %d\n" % vertices)
        self._least_journal = MOST_JOURNAL
        self._wire: Wire | None = None
        self._is_closed = False
        self._issued = 0
        self._opened = 0
        self.tickets: dict[int, Ticket] = {}
        self.batch = Batch()
        self.version = 0
        self.vertices = vertices
        if journal is None:
            self._live()

    @classmethod
    def of_script(cls, journal: Journal, commands: list[bytes], pending: int, name: str) -> Session:
        """Does a script, whose lines that neither add nor take away an edge are `commands`, and continues from there.

        `pending` is the number of edits after its last commit.

        Raises Mistake if a line is refused, or if one runs a program or lists edges.
        """
        wrong = [it for it in commands if it.split(b" ")[0] not in SAVED]
        if wrong:
            raise Mistake(f"{name}: {wrong[0].decode(errors='replace')[:60]!r} is no line of a graph that was saved")
        session = cls(0, journal)
        wire = Wire()
        try:
            replies = iter(wire.replay(journal.pieces()))
            for line in commands:
                session._take(line.decode(), replies, name)
            session._take_end(replies, name)
            session.batch.entries = pending
        except BaseException:
            wire.kill()
            raise
        session._wire = wire
        return session

    def _take(self, line: str, replies: Iterator[Reply], name: str) -> None:
        """Notes what a line of a script did, by its reply."""
        word, *numbers = line.split(" ")
        if word == "grow":
            self.batch.vertices = max(self.batch.vertices, int(numbers[0]))
            return
        match next(replies, None):
            case Opened(vertices):
                self.vertices = vertices
            case Committed(version):
                self.version, self.vertices = version, max(self.vertices, self.batch.vertices)
                self.batch = Batch()
            case Ticketed(ticket, version):
                self._opened = self._issued = ticket
                self.tickets[ticket] = Ticket(ticket, version, self._vertices_of(version))
            case Released(ticket):
                del self.tickets[ticket]
            case RefusedLine(number):
                raise Mistake(f"{name}: a line, at the latest `{line}`, is refused by {number}")
            case reply:
                raise Mistake(f"{name}: `{line}` is answered by {reply}")

    def _take_end(self, replies: Iterator[Reply], name: str) -> None:
        """Looks that a script opened a graph, and that no line was refused besides."""
        for it in replies:
            raise Mistake(f"{name}: a line after the last commit is answered by {it}")
        if not self.vertices:
            raise Mistake(f"{name}: the script opens no graph: its first line is `vertices N`")

    @property
    def is_closed(self) -> bool:
        """Whether the session was closed."""
        return self._is_closed

    @property
    def pid(self) -> int:
        """The number of the process."""
        return self._live().pid

    def close(self) -> None:
        """Ends the process. Nothing can be asked any more."""
        if not self._is_closed:
            self._is_closed = True
            wire, self._wire = self._wire, None
            if wire is not None:
                wire.close()
            self._journal.close()

    def prepare(self, programs: Iterable[Program]) -> None:
        """Sees to it that programs can be run. If one of them is new, the next call starts another process.

        That one has the last 1,024 programs that were new, and all of the call's.
        """
        self.want_open()
        given = list(dict.fromkeys(programs))
        new = [it for it in given if it not in self._programs]
        if new:
            before = [it for it in self._programs if it not in given]
            kept = [*before[-MOST_PROGRAMS:], *given]
            self._drop()
            self._programs = {it: number for number, it in enumerate(kept, 1)}

    def want_open(self) -> None:
        """Raises Closed if the graph is closed."""
        if self._is_closed:
            raise Closed("the graph is closed")

    def edit(self, lines: bytes, count: int, farthest: int, offset: int, line: str) -> None:
        """Adds so many lines `add` or `del` to the pending batch, of which the one at `offset` names the greatest vertex."""
        self._append(lines)
        self.batch.note(count, farthest, offset, line)

    def grow(self, vertices: int) -> None:
        """Adds a line `grow` to the pending batch."""
        self._append(b"grow %d\n" % vertices)
        self.batch.vertices = max(self.batch.vertices, vertices)
        self.batch.entries += 1

    def mark(self) -> tuple[int, Batch]:
        """Returns how far the pending batch is, for `undo`. This is when a great journal is made anew."""
        if not self.batch.entries:
            self._compact()
        return self._journal.length, Batch(**vars(self.batch))

    def undo(self, mark: tuple[int, Batch]) -> None:
        """Makes the pending batch what it was at a mark."""
        length, batch = mark
        if self._journal.length > length:
            self._journal.cut(length)
            self._drop()
        self.batch = batch

    def commit(self) -> int:
        """Makes the next version by the pending batch, and returns its number. If Refused is raised, the batch is gone."""
        after = max(self.vertices, self.batch.vertices)
        try:
            reply = self._ask("commit")
        except Refused as error:
            cause = self.batch.cause(after) if error.number == 111 else None
            self._journal.append(b"commit\n")
            self.batch = Batch()
            raise refused(error.number, "commit", cause) from None
        self._want(reply == Committed(self.version + 1), "commit", f"version {self.version + 1}", reply)
        self._journal.append(b"commit\n")
        self.version += 1
        self.vertices = after
        self.batch = Batch()
        return self.version

    def hold(self, version: int | None = None) -> int:
        """Holds the newest version, or one that another ticket holds, and returns the new ticket's number."""
        line = "hold" if version is None else f"hold at {version}"
        wanted = Ticketed(self._opened + 1, self.version if version is None else version)
        reply = self._ask(line)
        self._want(reply == wanted, line, f"ticket {wanted.ticket} version {wanted.version}", reply)
        self._journal.append(line.encode() + b"\n")
        self._opened += 1
        self._issued += 1
        self.tickets[self._issued] = Ticket(wanted.ticket, wanted.version, self._vertices_of(wanted.version))
        return self._issued

    def release(self, ticket: int) -> None:
        """Closes a ticket."""
        number = self._ticket(ticket, f"release {ticket}")
        line = f"release {number}"
        reply = self._ask(line)
        self._want(reply == Released(number), line, f"released {number}", reply)
        self._journal.append(line.encode() + b"\n")
        del self.tickets[ticket]

    def edges(self, ticket: int | None = None) -> tuple[Integers, Integers, Integers]:
        """Returns the sources, destinations and weights of the newest version, or of the one that a ticket holds."""
        line = "edges" if ticket is None else f"edges {self._ticket(ticket, f'edges {ticket}')}"
        lines = self._interruptible(lambda wire: wire.list_edges(line))
        try:
            return columns_of(lines)
        except (ValueError, IndexError):
            self.close()
            raise OutOfStep(line, "edges", "lines that are none") from None

    def run(self, program: Program, turns: int, workers: int, ticket: int | None, only: frozenset[str] | None) -> RunReply:
        """Runs a program on the newest version, or on the one that a ticket holds."""
        self.prepare([program])
        line = f"run {self._programs[program]} {turns} {workers}"
        if ticket is not None:
            line += f" {self._ticket(ticket, f'{line} {ticket}')}"
        reply = self._interruptible(lambda wire: wire.run(line, integers, only))
        vertices = self.vertices if ticket is None else self.tickets[ticket].vertices
        for name, entries in reply.vectors.items():
            self._want(len(entries) == vertices, line, f"{vertices} entries of {name}", f"{len(entries)} entries")
        return reply

    def script(self) -> bytes:
        """Returns the lines of the script so far."""
        self.want_open()
        return b"".join(self._journal.pieces())

    def kept(self) -> list[Kept]:
        """Returns the versions that are kept, ascending: those that a ticket holds, and the newest."""
        by_version: dict[int, Kept] = {}
        for ticket, it in self.tickets.items():
            kept = by_version.setdefault(it.version, Kept(it.version, it.vertices, [], functools.partial(self.edges, ticket)))
            kept.tickets.append(ticket)
        by_version.setdefault(self.version, Kept(self.version, self.vertices, [], self.edges))
        return [by_version[version] for version in sorted(by_version)]

    def _vertices_of(self, version: int) -> int:
        """Returns how many vertices a kept version has."""
        if version == self.version:
            return self.vertices
        return next(it.vertices for it in self.tickets.values() if it.version == version)

    def _ticket(self, ticket: int, line: str) -> int:
        """Returns the number that an open ticket has in the process, or raises Refused by 122 of the line that names it."""
        self.want_open()
        if ticket not in self.tickets:
            raise refused(122, line)
        return self.tickets[ticket].number

    def _append(self, lines: bytes) -> None:
        """Sends lines that are due no reply."""
        self.want_open()
        self._journal.append(lines)
        if self._wire is not None:
            self._interruptible(lambda wire: wire.send(lines))

    def _ask(self, line: str) -> object:
        return self._interruptible(lambda wire: wire.ask(line))

    def _want(self, is_right: bool, line: str, wanted: str, reply: object) -> None:
        """Ends the graph if a reply has other numbers than the line is due."""
        if not is_right:
            self.close()
            raise OutOfStep(line, wanted, str(reply))

    def _interruptible(self, call: Callable[[Wire], Answer]) -> Answer:
        """Asks the process. If the call is interrupted the process is ended, and the next call starts another."""
        wire = self._live()
        try:
            return call(wire)
        except Refused:
            raise
        except (Ended, OutOfStep):
            self.close()
            raise
        except BaseException:
            self._drop()
            raise

    def _drop(self) -> None:
        """Ends the process. The next call starts another, which does the journal again."""
        wire, self._wire = self._wire, None
        if wire is not None:
            wire.kill()

    def _live(self) -> Wire:
        """Returns the process that has all programs and has done the journal."""
        self.want_open()
        if self._wire is None:
            wire = Wire([it.path for it in self._programs])
            try:
                self._check_replay(wire.replay(self._journal.pieces()))
            except BaseException:
                wire.kill()
                raise
            self._wire = wire
        return self._wire

    def _check_replay(self, replies: list[Reply]) -> None:
        """Looks that the journal, done again, came to the same version and the same tickets."""
        version = max((it.version for it in replies if isinstance(it, Committed)), default=0)
        opened = max((it.ticket for it in replies if isinstance(it, Ticketed)), default=0)
        if (version, opened) != (self.version, self._opened):
            raise OutOfStep("the script so far", f"version {self.version}", f"version {version}")

    def _compact(self) -> None:
        """Makes a great journal anew, by the versions that are kept, if it is much longer than it need be."""
        if self._is_closed or self._journal.length <= self._least_journal:
            return
        journal = Journal()
        kept = self.kept()
        for lines in checkpoint(kept):
            journal.append(lines)
        held = [ticket for it in kept for ticket in it.tickets]
        tickets = {ticket: replace(self.tickets[ticket], number=number) for number, ticket in enumerate(held, 1)}
        self._drop()
        self._journal, self.tickets, self._opened = journal, tickets, len(held)
        self._least_journal = max(MOST_JOURNAL, 4 * journal.length)
