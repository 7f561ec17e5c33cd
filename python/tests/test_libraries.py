"""Graphs from networkx, pandas, SciPy and NumPy, and back."""
import pytest

import gsnap


def list_of(edges):
    return [(u, v, int(w)) for u, v, w in edges]


def test_from_networkx():
    networkx = pytest.importorskip("networkx")
    given = networkx.DiGraph([("a", "b"), ("b", "c")])
    given.add_edge("c", "a", weight=5)
    given.add_node("alone")
    with gsnap.from_networkx(given) as graph:
        assert (graph.version, graph.names) == (1, ["a", "b", "c", "alone"])
        assert list_of(graph.edges()) == [("a", "b", 1), ("b", "c", 1), ("c", "a", 5)]
        back = graph.to_networkx()
        assert (set(back), dict(back.edges), back.graph) == (
            set(given),
            {("a", "b"): {"weight": 1}, ("b", "c"): {"weight": 1}, ("c", "a"): {"weight": 5}},
            {"version": 1},
        )
    with gsnap.from_networkx(given, weight=None) as graph:
        assert {w for _, _, w in list_of(graph.edges())} == {1}
    with gsnap.from_networkx(networkx.path_graph(3)) as graph:
        assert list_of(graph.edges()) == [(0, 1, 1), (1, 0, 1), (1, 2, 1), (2, 1, 1)]
    with pytest.raises(TypeError, match="multigraph"):
        gsnap.from_networkx(networkx.MultiGraph())
    with pytest.raises(TypeError, match="weight 0"):
        gsnap.from_networkx(networkx.DiGraph([(0, 1, {"weight": 0.5})]))


def test_numpy():
    numpy = pytest.importorskip("numpy")
    edges = numpy.array([[0, 1], [1, 2], [2, 0]], dtype="uint16")
    with gsnap.from_edges(edges) as graph:
        assert list_of(graph.edges()) == [(0, 1, 1), (1, 2, 1), (2, 0, 1)]
        graph.add_edges_from(numpy.array([[0, 1, -(1 << 63)], [0, 2, (1 << 63) - 1]]))
        graph.add_edge(numpy.int64(2), numpy.uint8(1), weight=numpy.int32(4))
        graph.commit()
        found = graph.edges()
        assert found.weights.dtype == numpy.int64
        assert list_of(found) == [(0, 1, -(1 << 63)), (0, 2, (1 << 63) - 1), (1, 2, 1), (2, 0, 1), (2, 1, 4)]
        run = graph.run(gsnap.distances(0))
        assert isinstance(run.distance, numpy.ndarray)
        assert run.distance.dtype == numpy.int64
        assert (run.distance + 1).tolist() == [1, 2, 2]
    with gsnap.from_columns(numpy.array([5, 6]), numpy.array([6, 7]), names=True) as graph:
        assert graph.names == [5, 6, 7]
        assert all(type(it) is int for it in graph.names)


def test_pandas():
    pandas = pytest.importorskip("pandas")
    frame = pandas.DataFrame({"source": ["a", "b"], "target": ["b", "c"], "cost": [3, 4]})
    with gsnap.from_pandas_edgelist(frame, weight="cost") as graph:
        assert list_of(graph.edges()) == [("a", "b", 3), ("b", "c", 4)]
        found = graph.run(gsnap.distances("a"), turns=1).to_pandas()
        assert list(found.index) == ["a", "b", "c"]
        assert found.distance.to_dict() == {"a": 0, "b": 1, "c": -1}
        assert found.frontier.to_dict() == {"a": False, "b": True, "c": False}
        counts = graph.counts(gsnap.components())
        graph.commit()
        assert counts.to_pandas().to_dict() == {1: 1, 2: 1}
    numbers = pandas.DataFrame({"u": [0, 1], "v": [1, 5]})
    with gsnap.from_pandas_edgelist(numbers, "u", "v", names=False) as graph:
        assert (graph.vertices, graph.names) == (6, None)
    with pytest.raises(TypeError, match=r"weights are float64 .* such as round\(1000 \* weight\)"):
        gsnap.from_pandas_edgelist(frame.assign(cost=[0.5, 1.0]), weight="cost")
    with pytest.raises(KeyError, match="no column 'lost'; it has: "):
        gsnap.from_pandas_edgelist(frame, target="lost")


def test_scipy():
    sparse = pytest.importorskip("scipy.sparse")
    matrix = sparse.coo_matrix(([2, 3], ([0, 2], [1, 0])), shape=(4, 4))
    with gsnap.from_scipy_sparse(matrix, weights=True) as graph:
        assert graph.vertices == 4
        assert list_of(graph.edges()) == [(0, 1, 2), (2, 0, 3)]
        back = graph.to_scipy_sparse()
        assert back.dtype == "int64"
        assert (back != matrix.tocsr()).nnz == 0
        held = graph.held()
        graph.remove_edge(0, 1)
        graph.commit()
        assert graph.to_scipy_sparse().nnz == 1
        assert graph.to_scipy_sparse(held).nnz == 2
    with gsnap.from_scipy_sparse(matrix) as graph:
        assert list_of(graph.edges()) == [(0, 1, 1), (2, 0, 1)]
    with pytest.raises(ValueError, match="square"):
        gsnap.from_scipy_sparse(sparse.coo_matrix((2, 3)))


def test_a_table_for_a_notebook():
    with gsnap.from_edges([(v, v + 1) for v in range(30)]) as graph:
        text = graph.run(gsnap.distances(0))._repr_html_()
        assert text.count("<tr>") == 21
        assert "11 rows more" in text
    with gsnap.from_edges([("<b>", "c")], names=True) as graph:
        assert "<b>" not in graph.run(gsnap.distances("c"))._repr_html_()
