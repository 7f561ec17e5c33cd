"""The table of refusals: for each number what it means and what to do, as docs/REFUSALS.md lists them."""
from __future__ import annotations

import functools
import re
from typing import NamedTuple

from .data import text_of

ROW = re.compile(r"\| (?P<number>[0-9]+) \| (?P<means>.*?) \| .* \| (?P<cure>.*?) \|")


class Row(NamedTuple):
    """What the table has of one number: what it means, and what to do."""

    number: int
    means: str
    cure: str


@functools.lru_cache(maxsize=None)
def rows() -> dict[int, Row]:
    """Returns all rows of the table, by their numbers."""
    found = filter(None, map(ROW.match, text_of("REFUSALS.md").splitlines()))
    return {int(it["number"]): Row(int(it["number"]), it["means"], it["cure"]) for it in found}


def row_of(number: int) -> Row | None:
    """Returns the row of a number, or None if the table does not have it."""
    return rows().get(number)
