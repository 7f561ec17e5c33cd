"""Programs for graphs, run on versions of a graph that is edited meanwhile; every answer names the version that it belongs to.

>>> import gsnap
>>> with gsnap.Graph(names=True) as graph:
...     graph.add_edges_from([("ann", "bob"), ("bob", "eve")])
...     graph.commit()
...     with graph.held() as held:
...         graph.remove_edge("bob", "eve")
...         graph.commit()
...         now, then = graph.run(gsnap.distances("ann")), graph.run(gsnap.distances("ann"), held=held)
...         now.version, now.distance["eve"], then.version, then.distance["eve"]
1
2
(2, -1, 1, 2)
"""
from .convert import from_columns, from_edges, from_networkx, from_pandas_edgelist, from_scipy_sparse
from .counts import Counts
from .edges import Edges
from .errors import Closed, Ended, GsnapError, Mistake, NoProgram, OutOfStep, ProgramRefused, Refused
from .files import open_graph as open
from .graph import Graph, Held
from .program import Program
from .ready import (
    Ready,
    bfs,
    bipartite,
    components,
    degrees,
    distances,
    histogram,
    hops,
    k_core,
    layers,
    levels,
    pagerank,
    paths,
    reachable,
    shortest_paths,
    triangles,
    weighted_rank,
    widest_paths,
)
from .run import NamedVector, Run

__all__ = [
    "Closed",
    "Counts",
    "Edges",
    "Ended",
    "Graph",
    "GsnapError",
    "Held",
    "Mistake",
    "NamedVector",
    "NoProgram",
    "OutOfStep",
    "Program",
    "ProgramRefused",
    "Ready",
    "Refused",
    "Run",
    "bfs",
    "bipartite",
    "components",
    "degrees",
    "distances",
    "from_columns",
    "from_edges",
    "from_networkx",
    "from_pandas_edgelist",
    "from_scipy_sparse",
    "histogram",
    "hops",
    "k_core",
    "layers",
    "levels",
    "open",
    "pagerank",
    "paths",
    "reachable",
    "shortest_paths",
    "triangles",
    "weighted_rank",
    "widest_paths",
]
