"""What a run of a program on one version gives."""
from __future__ import annotations

import html
from collections.abc import Hashable, Iterator, Mapping, Sequence
from typing import Any

from .replies import RunReply

# How many rows of a table a notebook shows.
MOST_ROWS = 20


class NamedVector(Mapping[Hashable, int]):
    """A number for each vertex, by the vertex's name; `array` has them by the vertex's number."""

    def __init__(self, names: Sequence[Hashable], array: Any) -> None:
        self.names = names
        self.array = array
        self._numbers: dict[Hashable, int] | None = None

    def __getitem__(self, name: Hashable) -> int:
        if self._numbers is None:
            self._numbers = {it: at for at, it in enumerate(self.names)}
        return int(self.array[self._numbers[name]])

    def __iter__(self) -> Iterator[Hashable]:
        return iter(self.names)

    def __len__(self) -> int:
        return len(self.names)

    def __repr__(self) -> str:
        return repr({name: int(number) for name, number in zip(self.names, self.array)})


def shown_value(line: str) -> int | bool:
    """Returns what a printed line says: a number or a truth value."""
    return line == "true" if line in ("true", "false") else int(line)


class Run(Mapping[str, Any]):
    """The outcome of a program on one version of a graph.

    `version` is the version that the answer belongs to. `end` is "finished", "turns-over" if the bound on turns was met, or
    "fault" if an index was no vertex; `turns` is how many turns were used, and `statement` the number of the faulty statement of
    `main`, or None. `printed` has the numbers and truth values that the program printed.

    Vectors and sets are items and attributes by their names: `run["distance"]`, `run.distance`; a name that the class has
    itself, such as `turns`, is an item alone. A vector is an array of a number for each vertex, and a set an array of its
    members, ascending; in a graph with names a vector is a mapping from names, and a set a frozenset of names.
    """

    def __init__(self, version: int, vertices: int, reply: RunReply, names: Sequence[Hashable] | None) -> None:
        self.version = version
        self.vertices = vertices
        self.end = reply.end
        self.turns = reply.turns
        self.statement = reply.statement
        self.printed = [shown_value(line) for line in reply.printed]
        self.names = names
        self._arrays = reply.vectors
        self._members = reply.sets

    @property
    def vectors(self) -> list[str]:
        """The names of the vectors, in the order of their declarations."""
        return list(self._arrays)

    @property
    def sets(self) -> list[str]:
        """The names of the sets: the constant ones, and then the variables that are visible where the run ended."""
        return list(self._members)

    def array(self, name: str) -> Any:
        """Returns a vector, or the members of a set, as an array by the vertices' numbers."""
        return self._arrays[name] if name in self._arrays else self._members[name]

    def __getitem__(self, name: str) -> Any:
        if name in self._arrays:
            return self._arrays[name] if self.names is None else NamedVector(self.names, self._arrays[name])
        members = self._members[name]
        return members if self.names is None else frozenset(self.names[v] for v in members if v < len(self.names))

    def __getattr__(self, name: str) -> Any:
        if not name.startswith("_") and (name in self._arrays or name in self._members):
            return self[name]
        raise AttributeError(f"the run has no vector or set {name!r}; it has: {' '.join(self)}")

    def __iter__(self) -> Iterator[str]:
        yield from self._arrays
        yield from self._members

    def __len__(self) -> int:
        return len(self._arrays) + len(self._members)

    def __dir__(self) -> list[str]:
        return [*super().__dir__(), *self]

    def index(self) -> list[Hashable]:
        """Returns the vertices of the version: their names, or their numbers."""
        return list(range(self.vertices)) if self.names is None else list(self.names)

    def rows(self, most: int | None = None) -> Iterator[list[Any]]:
        """Yields, for each vertex or the first `most`, itself, its entry of each vector, and whether it is in each set."""
        members = [set(map(int, it)) for it in self._members.values()]
        for v, name in enumerate(self.index()[:most]):
            entries = [int(it[v]) for it in self._arrays.values()]
            yield [name, *entries, *(v in it for it in members)]

    def to_pandas(self) -> Any:
        """Returns a pandas.DataFrame: a row for each vertex, a column of numbers for each vector and of bool for each set."""
        import numpy
        import pandas

        frame = pandas.DataFrame(index=pandas.Index(self.index(), name="vertex"))
        for name, numbers in self._arrays.items():
            frame[name] = numpy.asarray(numbers)[: len(frame)]
        for name, members in self._members.items():
            is_in = numpy.zeros(self.vertices, bool)
            is_in[numpy.asarray(members)] = True
            frame[name] = is_in[: len(frame)]
        return frame

    def __repr__(self) -> str:
        printed = f", printed {self.printed}" if self.printed else ""
        shown = f": {' '.join(self)}" if len(self) else ""
        return f"<gsnap.Run on version {self.version}: {self.end} after {self.turns} turns{printed}{shown}>"

    def _repr_html_(self) -> str:
        """Returns the table that a notebook shows, of the first rows."""
        head = "".join(f"<th>{html.escape(it)}</th>" for it in ["vertex", *self])
        rows = ["".join(f"<td>{html.escape(str(it))}</td>" for it in row) for row in self.rows(MOST_ROWS)]
        body = "".join(f"<tr>{row}</tr>" for row in rows)
        more = f"<p>{self.vertices - MOST_ROWS} rows more</p>" if self.vertices > MOST_ROWS else ""
        return f"<p>{html.escape(repr(self))}</p><table><tr>{head}</tr>{body}</table>{more}"
