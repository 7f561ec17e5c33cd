"""Graphs as scripts: what makes the versions of a graph that are kept again."""
from __future__ import annotations

from collections.abc import Callable, Iterator
from dataclasses import dataclass
from typing import Any

from .numbers import Integers, lines_of, numpy

# A vertex is below this number.
MOST_VERTICES = 1 << 24

# How many edges are written at a time.
PIECE = 1 << 17

Columns = tuple[Integers, Integers, Integers]


@dataclass
class Kept:
    """A version that is kept: how many vertices it has, the open tickets that hold it, and what lists its edges."""

    version: int
    vertices: int
    tickets: list[int]
    columns: Callable[[], Columns]


def add_lines(sources: Any, destinations: Any, weights: Any) -> Iterator[bytes]:
    """Yields lines `add` for columns of edges, some at a time."""
    for at in range(0, len(sources), PIECE):
        to = at + PIECE
        yield lines_of(b"add", [sources[at:to], destinations[at:to], weights[at:to]])


def gone(before: Columns, after: Columns) -> tuple[Any, Any]:
    """Returns the sources and destinations of the edges that are in `before` and not in `after`."""
    if numpy is not None:
        kept = after[0] * MOST_VERTICES + after[1]
        keys = before[0] * MOST_VERTICES + before[1]
        lost = keys[~numpy.isin(keys, kept, assume_unique=True)]
        return lost // MOST_VERTICES, lost % MOST_VERTICES
    there = set(zip(after[0], after[1]))
    found = [edge for edge in zip(before[0], before[1]) if edge not in there]
    return [u for u, _ in found], [v for _, v in found]


def checkpoint(kept: list[Kept]) -> Iterator[bytes]:
    """Yields the text of a script that makes versions that are kept, with the same numbers, and holds them as often.

    The versions ascend. Those between are there too, with the edges of the kept one before. Tickets are numbered by ascending
    versions.
    """
    yield b"vertices %d\n" % kept[0].vertices
    at = 0
    before: Columns = ([], [], []) if numpy is None else (numpy.array([], int),) * 3
    for it in kept:
        if it.version:
            columns = it.columns()
            yield b"commit\n" * (it.version - at - 1)
            yield b"grow %d\n" % it.vertices
            lost = gone(before, columns)
            yield lines_of(b"del", lost)
            yield from add_lines(*columns)
            yield b"commit\n"
            at, before = it.version, columns
        yield b"hold\n" * len(it.tickets)
