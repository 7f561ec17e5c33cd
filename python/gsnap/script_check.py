"""Which lines of a script gsnap will refuse, and why, before anything runs."""
from __future__ import annotations

import re
from collections.abc import Iterable, Iterator
from dataclasses import dataclass
from typing import NoReturn

MOST_VERTICES = MOST_HISTORY = 16_777_216
HOLD_TAKES = "takes no number, or `at` and 1 number"
EDIT = re.compile(rb"(?:add|del) ([0-9]{1,9}) ([0-9]{1,9})\n|add ([0-9]{1,9}) ([0-9]{1,9}) -?[0-9]{1,18}\n")
WORDS = {  # how many numbers follow, in digits and in words, and the least number that is too great
    b"vertices": ((1, 2), "takes 1 or 2 numbers", 1 << 32),
    b"add": ((2, 3), "takes 2 or 3 numbers", 1 << 32),
    b"del": ((2,), "takes 2 numbers", 1 << 32),
    b"grow": ((1,), "takes 1 number", 1 << 32),
    b"commit": ((0,), "takes no number", 0),
    b"hold": ((0,), HOLD_TAKES, 0),
    b"hold at": ((1,), HOLD_TAKES, 1 << 64),
    b"release": ((1,), "takes 1 number", 1 << 64),
    b"edges": ((0, 1), "takes no number or 1", 1 << 64),
    b"run": ((3, 4), "takes 3 or 4 numbers", 1 << 64),
}


@dataclass(frozen=True)
class Fault:
    """A line of a script, numbered from 1, that will be refused by a number, or, without one, never be committed; and why."""

    line: int
    number: int | None
    reason: str

    def __str__(self) -> str:
        return f"{self.line}: {self.reason}" if self.number is None else f"{self.line}: refused {self.number}: {self.reason}"


class LineRefused(Exception):
    """The number of a refusal, and its reason."""

    def __init__(self, number: int, reason: str) -> None:
        super().__init__(number, reason)
        self.number = number
        self.reason = reason


def refuse(number: int, reason: str) -> NoReturn:
    """Raises the exception for a line that will be refused."""
    raise LineRefused(number, reason)


def shown(word: bytes) -> str:
    """Returns a word as a message shows it."""
    return f"`{word[:40].decode(errors='backslashreplace')}`"


def spelling(line: bytes) -> str | None:
    """Returns why a line is not words with single spaces between them, or None. The program says it in the same words."""
    if line.startswith((b"#", b"//")):
        return "a script has no comments"
    if b"\t" in line:
        return "a tab is in it: words are separated by one space"
    if b"\r" in line:
        return "a carriage return is in it: a line ends with a line feed alone"
    if line.startswith(b" "):
        return "a space is before its first word"
    if line.endswith(b" "):
        return "a space is after its last word"
    return "two spaces are between two words" if b"  " in line else None


def command(line: bytes) -> tuple[bytes, list[int]]:
    """Returns the word and the numbers of a line."""
    reason = spelling(line)
    if reason:
        refuse(801, reason)
    word, *rest = line.split(b" ")
    name = word
    if word == b"hold" and rest:
        if rest[0] != b"at":
            refuse(801, f"{shown(rest[0])} is not `at`, as in `hold at 3`")
        word, rest = b"hold at", rest[1:]
    if word == b"element":
        refuse(801, "this is a program: `gsnap script SCRIPT PROGRAM` takes it after the script")
    if word not in WORDS:
        refuse(801, f"{shown(word)} is not a command")
    counts, takes, bound = WORDS[word]
    if len(rest) not in counts:
        refuse(801, f"{shown(name)} {takes}")
    weights = rest[2:] if word == b"add" else []
    for number in rest[: len(rest) - len(weights)]:
        want_number(number, bound)
    for weight in weights:
        want_weight(weight)
    return word, [value(number) for number in rest]


def value(word: bytes) -> int:
    """Returns the number that a word of digits is, perhaps after a `-`; one of more than 20 digits is only known to be too great."""
    sign, digits = (-1, word[1:]) if word.startswith(b"-") else (1, word)
    return sign * int(digits.lstrip(b"0")[:21] or b"0")


def want_weight(word: bytes) -> None:
    """Refuses a word that is no weight."""
    if not re.fullmatch(rb"-?[0-9]+", word) or not -(1 << 63) <= value(word) < 1 << 63:
        refuse(801, f"{shown(word)} is not a weight: decimal digits, perhaps after a `-`, from -2^63 to 2^63 - 1")


def want_number(word: bytes, bound: int) -> None:
    """Refuses a word that is no number below a bound."""
    if not re.fullmatch(rb"[0-9]+", word):
        refuse(801, f"{shown(word)} is not a number: decimal digits without a sign")
    if value(word) >= bound:
        refuse(801, f"{shown(word)} is above {bound - 1}")


class Script:
    """The state of a graph after the lines of a script so far; it knows versions and tickets, and no edges.

    `programs` is how many programs there are; if it is None, each `run` line finds its program.
    """

    def __init__(self, programs: int | None = None) -> None:
        self.programs = programs
        self.vertices: int | None = None
        self.newest = 0
        self.history = 0
        self.tickets: dict[int, int] = {}
        self.issued = 0
        self.pending = 0
        self.farthest = (-1, 0)
        self.asked = 0
        self.misgrown: tuple[int, int] | None = None

    def take(self, at: int, word: bytes, numbers: list[int]) -> None:
        """Takes the line number `at`, and raises LineRefused if gsnap will refuse it."""
        if word == b"vertices":
            if self.vertices is not None:
                refuse(801, "a graph is open already")
            self.open(*numbers)
        elif self.vertices is None:
            refuse(801, "`vertices N` has to come before it")
        elif word in (b"add", b"del"):
            self.edit(at, numbers[:2])
        elif word == b"grow":
            self.grow(at, numbers[0], self.vertices)
        elif word == b"commit":
            self.commit(self.vertices)
        elif word in (b"hold", b"hold at"):
            self.hold(numbers[0] if numbers else self.newest)
        elif word == b"release":
            self.want_ticket(numbers[0])
            del self.tickets[numbers[0]]
            self.history += 1
        elif word == b"run":
            self.run(*numbers)
        elif numbers:
            self.want_ticket(numbers[0])

    def open(self, vertices: int, chunk: int = 64) -> None:
        """Takes a line `vertices`."""
        if not 1 <= vertices <= MOST_VERTICES:
            refuse(111, f"`{vertices}` is not a number of vertices from 1 to {MOST_VERTICES}")
        if chunk not in (1, 2, 4, 8, 16, 32, 64, 128, 256):
            refuse(103, f"`{chunk}` is not a power of two from 1 to 256")
        self.vertices = vertices

    def edit(self, at: int, ends: list[int]) -> None:
        """Takes a line `add` or `del`."""
        self.pending = self.pending or at
        if max(ends) > self.farthest[0]:
            self.farthest = (max(ends), at)

    def grow(self, at: int, vertices: int, least: int) -> None:
        """Takes a line `grow` on a graph that has `least` vertices."""
        self.pending = self.pending or at
        self.asked = max(self.asked, vertices)
        if not least <= vertices <= MOST_VERTICES and not self.misgrown:
            self.misgrown = (at, vertices)

    def commit(self, vertices: int) -> None:
        """Takes a line `commit` on a graph that has so many vertices."""
        (vertex, line), misgrown = self.farthest, self.misgrown
        after = max(vertices, self.asked)
        self.pending, self.farthest, self.asked, self.misgrown = 0, (-1, 0), 0, None
        if misgrown:
            reason = f"line {misgrown[0]} asks for {misgrown[1]} vertices, and {vertices} to {MOST_VERTICES} are possible"
            refuse(111, f"{reason}; the whole batch is dropped")
        if vertex >= after:
            reason = f"line {line} names vertex {vertex}, and the vertices are 0 to {after - 1}"
            refuse(111, f"{reason}; the whole batch is dropped")
        self.want_room(1)
        self.vertices = after
        self.newest += 1
        self.history += 1

    def hold(self, version: int) -> None:
        """Takes a line `hold` or `hold at`."""
        if version != self.newest and version not in self.tickets.values():
            refuse(121, f"version {version} is neither the newest, which is {self.newest}, nor held")
        self.want_room(2)
        self.issued += 1
        self.history += 1
        self.tickets[self.issued] = version

    def want_room(self, entries: int) -> None:
        """Refuses a step that the history has no room for."""
        if self.history + len(self.tickets) + entries > MOST_HISTORY:
            refuse(123, "the history is full")

    def want_ticket(self, ticket: int) -> None:
        """Refuses a ticket that is not open."""
        if ticket not in self.tickets:
            last = f"the last one given is {self.issued}" if self.issued else "none was given"
            refuse(122, f"ticket {ticket} is not open: {'it was released' if 1 <= ticket <= self.issued else last}")

    def run(self, program: int, _turns: int, workers: int, ticket: int | None = None) -> None:
        """Takes a line `run`."""
        if program < 1 or self.programs is not None and program > self.programs:
            refuse(412, f"`{program}` is not the number of a program of the command line")
        if ticket is not None:
            self.want_ticket(ticket)
        if not 1 <= workers <= 64:
            refuse(411, f"`{workers}` is not a number of workers from 1 to 64")


def faults(lines: Iterable[bytes], script: Script) -> Iterator[Fault]:
    """Yields each line of a script that will be refused, in order, and at last the first line that is never committed.

    The lines end in line feeds; the last one may lack its own.
    """
    for at, line in enumerate(lines, 1):
        edit = EDIT.fullmatch(line)
        try:
            if edit and script.vertices:
                script.edit(at, [int(end) for end in edit.groups() if end])
            elif line != b"\n":
                script.take(at, *command(line.removesuffix(b"\n")))
        except LineRefused as refused:
            yield Fault(at, refused.number, refused.reason)
    if script.pending:
        yield Fault(script.pending, None, "this line and what follows is never committed: no `commit` comes after it")
