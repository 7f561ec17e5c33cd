"""Graphs from what other libraries hold, and back."""
from __future__ import annotations

from collections.abc import Hashable, Iterable
from typing import Any

from . import checks
from .edges import Edges
from .graph import Graph


def from_edges(edges: Iterable[Any], vertices: int = 1, names: bool | Iterable[Hashable] = False) -> Graph:
    """Makes a graph with edges as version 1.

    Edges are as `Graph.add_edges_from` takes them. The graph has as many vertices as the edges need, and at least `vertices`.

    >>> with from_edges([(0, 1), (1, 2, 5)]) as graph:
    ...     graph.version, graph.vertices, list(graph.edges())
    (1, 3, [(0, 1, 1), (1, 2, 5)])
    """
    return filled(Graph(vertices, names), lambda graph: graph.add_edges_from(edges))


def from_columns(sources: Any, destinations: Any, weights: Any = None, vertices: int = 1, names: bool = False) -> Graph:
    """Makes a graph with edges as version 1, by columns such as NumPy arrays, as `Graph.add_edges` takes them."""
    return filled(Graph(vertices, names), lambda graph: graph.add_edges(sources, destinations, weights))


def filled(graph: Graph, fill: Any) -> Graph:
    """Fills a new graph and commits it, or closes it if that fails."""
    try:
        fill(graph)
        graph.add_farthest()
        graph.commit()
    except BaseException:
        graph.close()
        raise
    return graph


def from_networkx(graph: Any, weight: str | None = "weight") -> Graph:
    """Makes a graph with names of a networkx graph, as version 1: its nodes are the names, also those without an edge.

    An undirected graph's edge becomes one in each direction. The attribute `weight` of an edge, a whole number, is its weight,
    and 1 if it has none; `weight=None` reads none. Raises TypeError for a multigraph, or a weight that is no whole number.
    """
    if graph.is_multigraph():
        raise TypeError("a multigraph may have an edge twice, and a graph of gsnap has it once: make a DiGraph of it")
    ends = [(u, v, 1 if weight is None else given.get(weight, 1)) for u, v, given in graph.edges(data=True)]
    if not graph.is_directed():
        ends += [(v, u, it) for u, v, it in ends]
    return from_edges(ends, names=list(graph.nodes))


def from_pandas_edgelist(
    frame: Any, source: str = "source", target: str = "target", weight: str | None = None, names: bool = True
) -> Graph:
    """Makes a graph of a pandas.DataFrame with a row for each edge, as version 1.

    The vertices are the values of the columns `source` and `target`, as names, or as numbers if `names` is False. `weight` names
    a column of whole numbers. Raises KeyError if a column is missing.
    """
    missing = [it for it in (source, target, weight) if it is not None and it not in frame.columns]
    if missing:
        raise KeyError(f"the table has no column {missing[0]!r}; it has: {', '.join(map(str, frame.columns))}")
    weights = None if weight is None else frame[weight].to_numpy()
    return from_columns(frame[source].to_numpy(), frame[target].to_numpy(), weights, names=names)


def from_scipy_sparse(matrix: Any, weights: bool = False) -> Graph:
    """Makes a graph of a square sparse matrix, as version 1: an entry in row u and column v is an edge from u to v.

    With `weights` the entries, whole numbers, are the weights. An entry that is stored and 0 is an edge too.
    """
    rows, columns = matrix.shape
    if rows != columns:
        raise ValueError(f"the matrix has {rows} rows and {columns} columns, and has to be square")
    entries = matrix.tocoo()
    return from_columns(entries.row, entries.col, entries.data if weights else None, checks.whole(rows, "rows", 1, checks.MOST_VERTICES + 1))


def to_networkx(edges: Edges) -> Any:
    """Returns a networkx.DiGraph of the edges of a version."""
    import networkx

    graph = networkx.DiGraph(version=edges.version)
    graph.add_nodes_from(edges.all_vertices())
    graph.add_weighted_edges_from(edges)
    return graph


def to_scipy_sparse(edges: Edges) -> Any:
    """Returns a scipy.sparse.csr_matrix of the edges of a version."""
    from scipy.sparse import csr_matrix

    return csr_matrix((edges.weights, (edges.sources, edges.destinations)), (edges.vertices, edges.vertices))
