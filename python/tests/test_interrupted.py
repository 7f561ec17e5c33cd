"""An edit that is interrupted while it is sent leaves the pending batch as it was."""
from __future__ import annotations

from collections.abc import Callable

import pytest

import gsnap
from gsnap.wire import Wire

EDITS: dict[str, Callable[[gsnap.Graph], None]] = {
    "add_edge": lambda graph: graph.add_edge(2, 0),
    "add_edges": lambda graph: graph.add_edges([2], [0]),
    "add_edges_from": lambda graph: graph.add_edges_from([(2, 0)]),
    "remove_edge": lambda graph: graph.remove_edge(0, 1),
    "remove_edges_from": lambda graph: graph.remove_edges_from([(0, 1)]),
    "add_vertex": lambda graph: graph.add_vertex(8),
    "grow": lambda graph: graph.grow(9),
}


@pytest.mark.parametrize("name", EDITS)
def test_interrupted_edit(name: str, monkeypatch: pytest.MonkeyPatch) -> None:
    def send(wire: Wire, lines: bytes) -> None:
        raise KeyboardInterrupt

    with gsnap.from_edges([(0, 1), (1, 2)]) as graph:
        graph.add_edge(1, 1)
        with monkeypatch.context() as within:
            within.setattr(Wire, "send", send)
            with pytest.raises(KeyboardInterrupt):
                EDITS[name](graph)
        assert graph.pending == 1
        assert graph.commit() == 2 and graph.vertices == 3
        assert list(graph.edges()) == [(0, 1, 1), (1, 1, 1), (1, 2, 1)]
        assert len(graph.run(gsnap.components()).label) == 3
