"""Random edits and runs beside networkx, which keeps the same graphs for each version."""
import random

import pytest

import gsnap
from gsnap import session

networkx = pytest.importorskip("networkx")

STREAMS = 500
FAR = 1_000_000_000


def reached(graph, start):
    return networkx.single_source_shortest_path_length(graph, start)


def check_distances(run, graph, start):
    there = reached(graph, start)
    assert dict(run.distance) == {v: there.get(v, -1) for v in graph}


def check_bfs(run, graph, start):
    there = reached(graph, start)
    for v, parent in run.parent.items():
        if v == start or v not in there:
            assert parent == (graph.graph["numbers"][start] if v == start else -1)
        else:
            first = [graph.graph["numbers"][u] for u in graph.predecessors(v) if there.get(u) == there[v] - 1]
            assert parent == max(first)


def check_shortest(run, graph, start):
    there = networkx.single_source_bellman_ford_path_length(graph, start)
    assert dict(run.distance) == {v: there.get(v, FAR) for v in graph}


def check_components(run, graph, _):
    found = list(networkx.connected_components(graph.to_undirected()))
    assert run.printed == [len(found)]
    for members in found:
        assert {run.label[v] for v in members} == {min(graph.graph["numbers"][v] for v in members)}


def check_pagerank(run, graph, _):
    rank = {v: 1_000_000 for v in graph}
    for _ in range(5):
        share = {v: rank[v] // graph.out_degree(v) if graph.out_degree(v) else 0 for v in graph}
        rank = {v: 150_000 + sum(share[u] for u in graph.predecessors(v)) * 85 // 100 for v in graph}
    assert dict(run.rank) == rank


KINDS = [
    (gsnap.distances, check_distances, False),
    (gsnap.bfs, check_bfs, False),
    (gsnap.shortest_paths, check_shortest, False),
    (lambda start: gsnap.components(), check_components, True),
    (lambda start: gsnap.pagerank(5), check_pagerank, False),
]


def edit(chance, graph, model, names, both_ways):
    """Adds an edge or takes one away, in both."""
    u, v = chance.choice(names), chance.choice(names)
    weight = chance.choice([1, 1, 2, 5, 100])
    is_added = chance.random() < 0.65
    for a, b in dict.fromkeys([(u, v), (v, u)] if both_ways else [(u, v)]):
        if is_added:
            graph.add_edge(a, b, weight)
            model.add_edge(a, b, weight=weight)
        elif a in model and b in model:
            graph.remove_edge(a, b)
            if model.has_edge(a, b):
                model.remove_edge(a, b)


def numbered(graph, model, version):
    """Returns what the model is now, with the number of each vertex and that of the version."""
    now = model.copy()
    now.graph.update(numbers={it: at for at, it in enumerate(graph.names)}, version=version)
    return now


def is_equal(found, model):
    assert found.graph["version"] == model.graph["version"]
    assert set(found) == set(model)
    assert dict(found.edges) == dict(model.edges)


@pytest.mark.parametrize("block", range(10))
def test_random_edits(block, monkeypatch):
    for seed in range(block, STREAMS, 10):
        chance = random.Random(seed)
        monkeypatch.setattr(session, "MOST_JOURNAL", chance.choice([1 << 28, 100]))  # a journal is made anew, or never
        program, check, both_ways = KINDS[chance.randrange(len(KINDS))]
        names = chance.sample(range(1000), 3) + ["ann", "bob", ("a", "pair"), 2.5, frozenset([1])][: chance.randint(0, 5)]
        start = names[0]
        model = networkx.DiGraph()
        with gsnap.Graph(names=[start], programs=[]) as graph:
            model.add_node(start)
            graph.prepare([program(start)])
            kept = []
            for _ in range(chance.randint(1, 6)):
                for _ in range(chance.randint(0, 12)):
                    edit(chance, graph, model, names, both_ways)
                now = numbered(graph, model, graph.commit())
                check(graph.run(program(start), workers=chance.choice([1, 2, 3])), now, start)
                if chance.random() < 0.4:
                    kept.append((graph.held(), now))
                if kept and chance.random() < 0.3:
                    kept.pop(chance.randrange(len(kept)))[0].release()
            is_equal(graph.to_networkx(), now)
            for held, then in kept:
                assert held.version == then.graph["version"]
                is_equal(graph.to_networkx(held), then)
                run = graph.run(program(start), held=held)
                assert run.version == held.version
                check(run, then, start)
