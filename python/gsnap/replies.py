"""What gsnap replies to a script, as docs/SCRIPTS.md has it: a class for each kind of reply, and the one parser of them."""
from __future__ import annotations

from collections.abc import Callable, Iterable, Iterator, Sequence
from dataclasses import dataclass, field
from typing import Any, Union

from .errors import Mistake


@dataclass
class Opened:
    """`open N`: a graph with N vertices is open."""

    vertices: int


@dataclass
class Committed:
    """`version K`: a commit made version K."""

    version: int


@dataclass
class Ticketed:
    """`ticket T version K`: ticket T holds version K."""

    ticket: int
    version: int


@dataclass
class Released:
    """`released T`: ticket T is closed."""

    ticket: int


@dataclass
class RefusedLine:
    """`refused N`: the line was refused."""

    number: int


@dataclass
class RaceRun:
    """`early P version K` or `late P version K`: the run reply that follows is of program P on version K."""

    when: str
    program: int
    version: int


@dataclass
class Listed:
    """`edges M` and M lines: the edges, ascending, and in the same order their weights."""

    count: int
    edges: list[tuple[int, int]] = field(default_factory=list)
    weights: list[int] = field(default_factory=list)


@dataclass
class RunReply:
    """The reply to a run.

    `printed` has the lines that the program printed. `end` is `finished`, `turns-over` or `fault`; `turns` the turns that were
    used; `statement` the number of the statement that a fault is in, or None. `vectors` and `sets` have the numbers by name.
    """

    printed: list[str]
    end: str
    turns: int
    statement: int | None
    vectors: dict[str, Any] = field(default_factory=dict)
    sets: dict[str, Any] = field(default_factory=dict)


Reply = Union[Opened, Committed, Ticketed, Released, RefusedLine, RaceRun, Listed, RunReply]

# What makes numbers of a text such as b" 1 -2 3\n".
ReadNumbers = Callable[[bytes], Sequence[int]]


def list_of(text: bytes) -> list[int]:
    """Returns the numbers of a text, which has white space between them."""
    return [int(word) for word in text.split()]


def end_of_run(words: list[bytes], printed: list[str]) -> RunReply:
    """Makes the reply of a run by the words of its line `end` and by the lines that it printed."""
    match words:
        case [b"end", (b"finished" | b"turns-over") as end, b"turns", turns]:
            return RunReply(printed, end.decode(), int(turns), None)
        case [b"end", b"fault", b"401", b"statement", statement, b"turns", turns]:
            return RunReply(printed, "fault", int(turns), int(statement))
    raise ValueError


def simple_reply(words: list[bytes]) -> Reply | None:
    """Makes a reply of one line by its words, or returns None if the line is none."""
    match words:
        case [b"open", n]:
            return Opened(int(n))
        case [b"version", k]:
            return Committed(int(k))
        case [b"ticket", t, b"version", k]:
            return Ticketed(int(t), int(k))
        case [b"released", t]:
            return Released(int(t))
        case [b"refused", number]:
            return RefusedLine(int(number))
        case [(b"early" | b"late") as when, p, b"version", k]:
            return RaceRun(when.decode(), int(p), int(k))
    return None


def take_vector(run: RunReply, line: bytes, read: ReadNumbers, only: frozenset[str] | None = None) -> bool:
    """Adds a line behind the line `end` of a run to its reply, and says whether it belongs to it.

    Numbers of a vector or a set whose name is not in `only` are passed over.
    """
    head, colon, numbers = line.partition(b":")
    kind, _, name = head.partition(b" ")
    if not colon or kind not in (b"vector", b"set"):
        return False
    if only is None or name.decode() in only:
        (run.vectors if kind == b"vector" else run.sets)[name.decode()] = read(numbers)
    return True


def belongs(last: Reply | None, line: bytes, read: ReadNumbers) -> bool:
    """Adds a line to the reply that it continues, and says whether there is one."""
    if isinstance(last, Listed) and len(last.edges) < last.count:
        source, destination, *weight = line.split()
        last.edges.append((int(source), int(destination)))
        last.weights.append(int(weight[0]) if weight else 1)
        return True
    return isinstance(last, RunReply) and take_vector(last, line, read)


def first_line(line: bytes, printed: list[str]) -> Reply | None:
    """Returns the reply that a line begins, or None for what a run prints."""
    words = line.split()
    if words[0] == b"end":
        return end_of_run(words, printed)
    if words[0] == b"edges":
        return Listed(int(words[1]))
    return simple_reply(words)


def parse(lines: Iterable[bytes], read: ReadNumbers = list_of) -> Iterator[Reply]:
    """Yields each reply in the lines that gsnap wrote; `read` makes the numbers of a vector or a set.

    A line that is no reply is what a run prints, until its line `end`. Raises Mistake for a line that gsnap does not write.

    >>> list(parse([b"open 2\\n", b"7\\n", b"end finished turns 1\\n", b"vector x: 5 6\\n"]))[1].vectors
    {'x': [5, 6]}
    """
    printed: list[str] = []
    last: Reply | None = None
    for at, line in enumerate(lines, 1):
        try:
            if belongs(last, line, read):
                continue
            found = first_line(line, printed)
        except (ValueError, IndexError):
            shown = line.decode(errors="replace").rstrip()[:60]
            raise Mistake(f"line {at}, {shown!r}, is not a reply of gsnap") from None
        if found is None:
            printed.append(line.decode(errors="replace").rstrip("\n"))
            continue
        if isinstance(found, RunReply):
            printed = []
        if last is not None:
            yield last
        last = found
    if last is not None:
        yield last
