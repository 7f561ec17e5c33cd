"""Scripts of the edges in a file, and what such a file has two of."""
from __future__ import annotations

from collections.abc import Callable, Iterator
from itertools import groupby
from typing import IO, Any

from .edge_lists import Edges
from .numbers import lines_of, numpy

# How many edges are taken at a time.
PIECE = 1 << 16

# The number of a pair of vertices is that of the first times this, and the second.
PAIR = 1 << 24


def columns_of(edges: Edges) -> Iterator[tuple[Any, Any, Any]]:
    """Yields some edges at a time: their sources, their destinations, and their weights, or None if they have none.

    If the edges go both ways, each but a self-loop has the reversed one after it. Of two edges with the same ends the later one
    counts. A column is a NumPy array if NumPy is there, else a list.
    """
    for at in range(0, len(edges.ends) // 2, PIECE):
        to = at + PIECE
        ends = edges.ends[2 * at : 2 * to]
        weights = None if edges.weights is None else edges.weights[at:to]
        if numpy is not None:
            ends = numpy.array(ends, numpy.int64)
            weights = None if weights is None else numpy.array(weights, numpy.int64)
            columns = (ends[0::2], ends[1::2], weights)
            yield both_ways_at_once(edges, *columns) if edges.is_both_ways else columns
        else:
            lists = (ends[0::2].tolist(), ends[1::2].tolist(), None if weights is None else weights.tolist())
            yield both_ways(edges, *lists) if edges.is_both_ways else lists


def both_ways(edges: Edges, sources: list[int], destinations: list[int], weights: list[int] | None) -> tuple[Any, Any, Any]:
    """Returns the columns of edges with the reversed ones among them."""
    rows = []
    for u, v, w in zip(sources, destinations, weights or [1] * len(sources)):
        rows.append((u, v, w))
        if u != v:
            rows.append((v, u, edges.back(w)))
    found = list(zip(*rows))
    return found[0], found[1], None if weights is None else found[2]


def both_ways_at_once(edges: Edges, sources: Any, destinations: Any, weights: Any) -> tuple[Any, Any, Any]:
    """Returns what `both_ways` does, by NumPy."""
    assert numpy is not None
    is_kept = numpy.ones(2 * len(sources), bool)
    is_kept[1::2] = sources != destinations
    u = numpy.stack((sources, destinations), 1).ravel()[is_kept]
    v = numpy.stack((destinations, sources), 1).ravel()[is_kept]
    return u, v, None if weights is None else numpy.stack((weights, edges.back(weights)), 1).ravel()[is_kept]


def lines_to_commit(edges: Edges) -> Iterator[tuple[int, bytes]]:
    """Yields lines `add` and `del`, some at a time, each time with the number of edges of the file that are done then."""
    done = 0
    for sources, destinations, weights in columns_of(edges):
        done = min(done + PIECE, len(edges.ends) // 2)
        ends = [sources, destinations]
        if edges.removals is None or not any(edges.removals):
            yield done, lines_of(b"add", ends if weights is None else [*ends, weights])
            continue
        kinds = removals_of(edges, done)
        at = 0
        for is_removal, group in groupby(kinds):
            to = at + sum(1 for _ in group)
            some = ends if weights is None or is_removal else [*ends, weights]
            yield done, lines_of(b"del" if is_removal else b"add", [it[at:to] for it in some])
            at = to


def removals_of(edges: Edges, done: int) -> list[int]:
    """Returns 1 or 0 for each edge of the piece that ends at `done`, and again for each reversed one: whether it is removed."""
    assert edges.removals is not None
    begin = (done - 1) // PIECE * PIECE
    kinds = edges.removals[begin:done]
    if not edges.is_both_ways:
        return list(kinds)
    found = []
    for kind, u, v in zip(kinds, edges.ends[2 * begin : 2 * done : 2], edges.ends[2 * begin + 1 : 2 * done : 2]):
        found += [kind] if u == v else [kind, kind]
    return found


def write_script(out: IO[bytes], edges: Edges, count: int, note: Callable[[int], None] = lambda done: None) -> None:
    """Writes a script that commits the edges of a file; `note` is called with the number of edges that are written.

    It opens a graph with `count` vertices. If there are names of an earlier file, it adds the new vertices to that file's graph.
    """
    known = edges.options.known
    if known is None:
        out.write(b"vertices %d\n" % count)
    elif count > len(known):
        out.write(b"grow %d\n" % count)
    for done, lines in lines_to_commit(edges):
        out.write(lines)
        note(done)
    out.write(b"commit\n")


def write_names(out: IO[bytes], edges: Edges) -> None:
    """Writes a line for each vertex: its number, and its name."""
    out.writelines(map(b"%d %s\n".__mod__, enumerate(edges.numbers or ())))


def several_weights(edges: Edges) -> tuple[int, tuple[int, int, int, int]] | None:
    """Returns how many edges have several weights, and of the least of them the source, the destination and two weights.

    It is None if there is no such edge.
    """
    if edges.weights is None:
        return None
    found = weights_at_once(edges) if numpy is not None else weights_one_by_one(edges)
    if not found:
        return None
    pair = min(found)
    return len(found), (pair // PAIR, pair % PAIR, *found[pair])


def weights_one_by_one(edges: Edges) -> dict[int, tuple[int, int]]:
    """Returns the first two weights of each pair of vertices that has several."""
    last: dict[int, int] = {}
    found: dict[int, tuple[int, int]] = {}
    for u, v, weights in columns_of(edges):
        for source, destination, weight in zip(u, v, weights):
            pair = source * PAIR + destination
            before = last.setdefault(pair, weight)
            if before != weight:
                found.setdefault(pair, (before, weight))
                last[pair] = weight
    return found


def weights_at_once(edges: Edges) -> dict[int, tuple[int, int]]:
    """Returns what `weights_one_by_one` does, by NumPy, but two weights for the least pair alone."""
    assert numpy is not None
    pieces = [(u * PAIR + v, w) for u, v, w in columns_of(edges)]
    pairs = numpy.concatenate([it for it, _ in pieces])
    order = numpy.argsort(pairs, kind="stable")
    pairs, weights = pairs[order], numpy.concatenate([it for _, it in pieces])[order]
    at = numpy.flatnonzero((pairs[1:] == pairs[:-1]) & (weights[1:] != weights[:-1]))
    found = dict.fromkeys(pairs[at].tolist(), (0, 0))
    if len(at):
        found[int(pairs[at[0]])] = int(weights[at[0]]), int(weights[at[0] + 1])
    return found
