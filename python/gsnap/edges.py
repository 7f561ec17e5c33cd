"""The edges of one version."""
from __future__ import annotations

from collections.abc import Hashable, Iterator, Sequence
from typing import Any

from .numbers import Integers


class Edges:
    """The edges of one version of a graph, ascending by their vertices' numbers.

    `version` is the version's number, `vertices` how many vertices it has. `sources`, `destinations` and `weights` are arrays of
    equal length; vertices are in them by number. Going through it gives a triple for each edge: its two vertices, by name if the
    graph has names, and its weight.
    """

    def __init__(
        self, version: int, vertices: int, columns: tuple[Integers, Integers, Integers], names: Sequence[Hashable] | None
    ) -> None:
        self.version = version
        self.vertices = vertices
        self.sources, self.destinations, self.weights = columns
        self.names = names

    def __len__(self) -> int:
        return len(self.sources)

    def __iter__(self) -> Iterator[tuple[Any, Any, int]]:
        columns = (map(int, it) for it in (self.sources, self.destinations, self.weights))
        for source, destination, weight in zip(*columns):
            yield self.name(source), self.name(destination), weight

    def name(self, vertex: int) -> Any:
        """Returns a vertex by its name, if the graph has names and it has one."""
        return vertex if self.names is None or vertex >= len(self.names) else self.names[vertex]

    def all_vertices(self) -> list[Any]:
        """Returns all vertices of the version, by name or number; one without a name is left out."""
        return list(range(self.vertices)) if self.names is None else list(self.names)

    def __repr__(self) -> str:
        return f"<gsnap.Edges of version {self.version}: {len(self)} edges of {self.vertices} vertices>"
