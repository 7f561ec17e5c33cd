"""Tables for a terminal."""
from __future__ import annotations

from collections.abc import Iterable, Sequence
from typing import Any

from .run import Run

# How many rows a table has at most.
MOST_ROWS = 20


def spelled(entry: Any) -> str:
    """Returns an entry of a table as text; a truth value is yes or no."""
    if isinstance(entry, bool):
        return "yes" if entry else "no"
    return str(entry)


def table(head: Sequence[str], rows: Iterable[Sequence[Any]], total: int) -> list[str]:
    """Returns the lines of a table: its head, the rows, which are the first of `total`, and how many more there are.

    Columns of numbers are aligned to the right, others to the left.

    >>> for line in table(["vertex", "distance"], [["ann", 0], ["bob", 15]], 4):
    ...     print(line)
    vertex  distance
    ann            0
    bob           15
    2 rows more
    """
    entries = [list(row) for row in rows]
    texts = [list(head), *([spelled(it) for it in row] for row in entries)]
    lines: list[list[str]] = [[] for _ in texts]
    for at in range(len(head)):
        width = max(len(row[at]) for row in texts)
        is_number = bool(entries) and all(isinstance(row[at], int) and not isinstance(row[at], bool) for row in entries)
        for line, row in zip(lines, texts):
            line.append(row[at].rjust(width) if is_number else row[at].ljust(width))
    more = total - len(entries)
    return ["  ".join(line).rstrip() for line in lines] + ([f"{more} rows more"] if more > 0 else [])


def run_lines(run: Run) -> list[str]:
    """Returns lines that show a run: its version and its end, the numbers that it printed, and a table of the first vertices."""
    lines = [f"version {run.version}: {run.end}, {run.turns} turns"]
    if run.printed:
        printed = " ".join(map(spelled_as_printed, run.printed[:MOST_ROWS]))
        more = f", and {len(run.printed) - MOST_ROWS} more" if len(run.printed) > MOST_ROWS else ""
        lines.append(f"printed {printed}{more}")
    if len(run):
        lines += table(["vertex", *run], run.rows(MOST_ROWS), run.vertices)
    return lines


def spelled_as_printed(value: int | bool) -> str:
    """Returns a printed value as a program prints it."""
    return str(value).lower() if isinstance(value, bool) else str(value)
