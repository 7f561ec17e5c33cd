"""Programs of the cookbook, ready to be run: each is the cookbook's text, with the constants that its maker was given."""
from __future__ import annotations

import functools
from collections.abc import Callable, Hashable
from dataclasses import dataclass

from . import checks, data
from .program import Program

# Gives the number of a vertex, whose part in the program has that name.
NumberOf = Callable[[Hashable, str], int]


@dataclass(frozen=True)
class Ready:
    """A program of the cookbook whose constants are known; vertices among them get their numbers in the graph that runs it."""

    recipe: str
    vertices: tuple[tuple[str, Hashable], ...] = ()
    numbers: tuple[tuple[str, int], ...] = ()

    def compiled(self, number_of: NumberOf) -> Program:
        """Returns the program for a graph, compiled."""
        found = [(name, number_of(vertex, name)) for name, vertex in self.vertices]
        return compiled(self.recipe, (*found, *self.numbers))

    @property
    def text(self) -> str:
        """The cookbook's text, in which the constants have the cookbook's values."""
        return data.text_of(f"{self.recipe}.program")


@functools.lru_cache(maxsize=1024)
def compiled(recipe: str, constants: tuple[tuple[str, int], ...]) -> Program:
    """Returns a program of the cookbook with its constants, which is compiled once."""
    return Program(data.text_of(f"{recipe}.program"), dict(constants))


def bfs(start: Hashable) -> Ready:
    """Breadth-first search: `parent` is the neighbour that a vertex is first reached from, its own number at `start`, or -1.

    Of several first neighbours it is the one with the greatest number.
    """
    return Ready("reachability", (("start", start),))


def reachable(source: Hashable, target: Hashable) -> Ready:
    """Whether one vertex is reached from another: prints that, and stops as soon as it is known; `reached` is 1 or 0."""
    return Ready("reachable", (("start", source), ("target", target)))


def distances(start: Hashable) -> Ready:
    """Distances in edges: `distance` is the number of edges of a shortest path from `start`, or -1 if there is no path."""
    return Ready("distances", (("start", start),))


def hops(start: Hashable, edges: int = 2) -> Ready:
    """Neighbourhood: the set `near` has the vertices that are reached by at most so many edges, from 0 on."""
    return Ready("hops", (("start", start),), (("hops", checks.whole(edges, "edges", 0, 1 << 63)),))


def shortest_paths(start: Hashable) -> Ready:
    """Shortest paths by weights: `distance` is the least sum of weights from `start`, or 1,000,000,000 if there is no path.

    No cycle may have a negative sum.
    """
    return Ready("shortest", (("start", start),))


def paths(start: Hashable) -> Ready:
    """Numbers of shortest paths: `level` is the distance in edges from `start`, `paths` how many paths are that short."""
    return Ready("paths", (("start", start),))


def widest_paths(start: Hashable) -> Ready:
    """Widest paths: `width` is the greatest width of a path from `start`, that of its narrowest edge, or 0 if there is none."""
    return Ready("widest", (("start", start),))


def levels() -> Ready:
    """Distances from several starts: `level` is that from the nearest of them, or -2 if there is no path.

    The vertex with the greatest number has edges to the starts; its own level is -1. Prints how many vertices are on each level.
    """
    return Ready("levels")


def components() -> Ready:
    """Connected components, of edges in both directions: `label` is the least vertex of each; prints how many there are."""
    return Ready("components")


def degrees() -> Ready:
    """Sources and sinks: `out_degree` and `in_degree`, and the sets of the vertices without the one or the other."""
    return Ready("ends")


def histogram() -> Ready:
    """Histogram of in-degrees: `in_degree`, and `count`, at a number how many vertices have that many edges to them."""
    return Ready("histogram")


def layers() -> Ready:
    """Layers of a graph without cycles: `layer` is the length of the longest path to a vertex."""
    return Ready("layers")


def triangles() -> Ready:
    """Triangles, of edges in both directions: `triangles` counts those of each vertex."""
    return Ready("triangles")


def k_core() -> Ready:
    """Core numbers, of edges in both directions: `core` is the greatest k of a k-core that has the vertex."""
    return Ready("cores")


def bipartite() -> Ready:
    """Two sides, of edges in both directions: `side` is 0 or 1, so that no edge joins vertices of one side, if that is possible."""
    return Ready("bipartite")


def pagerank(rounds: int = 20) -> Ready:
    """PageRank: `rank` in millionths of the mean, after so many rounds, with a damping of 85 in 100, by whole numbers."""
    return Ready("pagerank", (), (("rounds", checks.whole(rounds, "rounds", 0, 1 << 63)),))


def weighted_rank(rounds: int = 20) -> Ready:
    """PageRank by weights: an edge's weight is its part of its source's rank, in millionths."""
    return Ready("weighted_rank", (), (("rounds", checks.whole(rounds, "rounds", 0, 1 << 63)),))
