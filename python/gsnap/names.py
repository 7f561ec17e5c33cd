"""Vertices by name: which number each name has, and the file of names that `from-edges --names` writes."""
from __future__ import annotations

import os
import re
from collections.abc import Hashable, Iterable

from .errors import Mistake


class Names:
    """Names of the vertices 0, 1, 2 .. of a graph, each a hashable that is not None, as they came."""

    def __init__(self, names: Iterable[Hashable] = ()) -> None:
        self._names: list[Hashable] = []
        self._numbers: dict[Hashable, int] = {}
        for name in names:
            self.number(name)

    def __len__(self) -> int:
        return len(self._names)

    def __contains__(self, name: Hashable) -> bool:
        return name in self._numbers

    def number(self, name: Hashable) -> int:
        """Returns the number of a name, which gets the next one if it is new. Raises TypeError for None or an unhashable."""
        if name is None:
            raise TypeError("a vertex is None, which is no name")
        found = self._numbers.setdefault(name, len(self._names))
        if found == len(self._names):
            self._names.append(name)
        return found

    def known(self, name: Hashable) -> int:
        """Returns the number of a name that is there, and raises KeyError if it is not."""
        try:
            return self._numbers[name]
        except KeyError:
            raise KeyError(f"no vertex is named {name!r}") from None

    def all_known(self, names: Iterable[Hashable]) -> list[int] | None:
        """Returns the numbers of names, or None if one of them is not there."""
        try:
            return list(map(self._numbers.__getitem__, names))
        except (KeyError, TypeError):
            return None

    def name(self, number: int) -> Hashable:
        """Returns the name of a vertex, or its number if it has none."""
        return self._names[number] if 0 <= number < len(self._names) else number

    def first(self, count: int) -> list[Hashable]:
        """Returns the names of the first `count` vertices; a vertex without a name is left out."""
        return self._names[:count]

    def cut(self, count: int) -> None:
        """Forgets all names but the first `count`."""
        for name in self._names[count:]:
            del self._numbers[name]
        del self._names[count:]


def read_table(path: str | os.PathLike[str]) -> dict[int, str]:
    """Returns the names in a file that has a line `NUMBER NAME` for each vertex, by number.

    Raises Mistake for a line of another form, and OSError if the file cannot be read.
    """
    names = {}
    with open(path, encoding="utf-8", errors="replace") as lines:
        for at, line in enumerate(lines, 1):
            number, _, word = line.rstrip("\n").partition(" ")
            if not re.fullmatch("[0-9]+", number) or not word:
                raise Mistake(f"{os.fspath(path)}:{at}: {line.rstrip()[:60]!r} is no number and a name, as in '0 ann'")
            names[int(number)] = word
    return names


def read_numbers(path: str | os.PathLike[str]) -> dict[bytes, int]:
    """Returns the numbers in a file of names, by name, of which each has one: the first line has 0, the next 1, and so on.

    Raises Mistake for another file, and OSError if it cannot be read.
    """
    numbers: dict[bytes, int] = {}
    with open(path, "rb") as lines:
        for at, line in enumerate(lines):
            number, _, word = line.rstrip(b"\n").partition(b" ")
            if number != b"%d" % at or not word or word in numbers:
                shown = line.rstrip()[:60].decode(errors="replace")
                reason = "has a name that an earlier line has" if number == b"%d" % at and word else f"is not {at} and a name"
                raise Mistake(f"{os.fspath(path)}:{at + 1}: {shown!r} {reason}")
            numbers[word] = at
    return numbers
