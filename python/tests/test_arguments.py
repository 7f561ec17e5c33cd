"""What a graph is given that is wrong changes nothing, and the version that is named afterwards is right."""
import pytest

import gsnap
from gsnap.numbers import numpy

BAD_VERTICES = [1.0, 1.5, "ann", None, True, False, -1, 1 << 24, 1 << 64, b"1", (1,), [1], float("nan")]
BAD_WEIGHTS = [1.5, 1.0, "1", None, True, 1 << 63, -(1 << 63) - 1, [1]]


def list_of(edges):
    return [(int(u), int(v), w) for u, v, w in edges]


@pytest.fixture(name="graph")
def one_edge():
    with gsnap.Graph(6) as graph:
        graph.add_edge(0, 1)
        assert graph.commit() == 1
        yield graph


def is_as_before(graph):
    """Looks that nothing is pending, and that the next commit, hold, list and run name the right version."""
    assert graph.pending == 0
    graph.add_edge(0, 2)
    assert graph.commit() == 2
    graph.remove_edge(0, 1)
    assert graph.commit() == 3
    with graph.held() as held:
        assert (held.version, held.ticket, held.vertices) == (3, 1, 6)
        assert list_of(graph.edges(held)) == [(0, 2, 1)]
        run = graph.run(gsnap.distances(0), held=held)
        assert (run.version, list(run.distance)) == (3, [0, -1, 1, -1, -1, -1])
    assert graph.edges().version == 3


@pytest.mark.parametrize("bad", BAD_VERTICES)
@pytest.mark.parametrize("call", ["add_edge", "remove_edge"])
@pytest.mark.parametrize("place", [0, 1])
def test_bad_vertex(graph, bad, call, place):
    ends = [0, 2]
    ends[place] = bad
    with pytest.raises((TypeError, ValueError), match=["source", "destination"][place]):
        getattr(graph, call)(*ends)
    is_as_before(graph)


@pytest.mark.parametrize("bad", BAD_WEIGHTS)
def test_bad_weight(graph, bad):
    with pytest.raises((TypeError, ValueError), match="weight"):
        graph.add_edge(0, 2, weight=bad)
    is_as_before(graph)


@pytest.mark.parametrize("bad", [0, 5, (1 << 24) + 1, 6.0, None, True, "7"])
def test_bad_growth(graph, bad):
    with pytest.raises((TypeError, ValueError), match="vertices"):
        graph.grow(bad)
    is_as_before(graph)


@pytest.mark.parametrize(
    "edges, words",
    [
        ([(0, 2), (1, 2.5)], "destination 1"),
        ([(0, 2), (None, 2)], "source 1"),
        ([(0, 2), (0, 2, 1.5)], "weight 1"),
        ([(0, 2), (0, 2, {"weight": "x"})], "weight 1"),
        ([(0, 2), (0,)], "edge 1"),
        ([(0, 2), (0, 1, 2, 3)], "edge 1"),
        ([(0, 2), 7], "edge 1"),
        ([(0, 2), None], "edge 1"),
        ([(0, 2)] * 200_000 + [(0, -1)], "destination 200000"),
        ("ab", "edge 0"),
    ],
)
def test_bad_edges(graph, edges, words):
    with pytest.raises((TypeError, ValueError), match=words):
        graph.add_edges_from(edges)
    is_as_before(graph)


def test_an_iterable_that_fails(graph):
    def edges():
        yield from ((0, 3) for _ in range(200_000))
        raise RuntimeError("no more")

    with pytest.raises(RuntimeError, match="no more"):
        graph.add_edges_from(edges())
    is_as_before(graph)


def test_a_wrong_batch_leaves_what_was_pending(graph):
    graph.add_edge(4, 5)
    with pytest.raises(ValueError):
        graph.add_edges_from([(0, 2)] * 200_000 + [(0, -1)])
    with pytest.raises(ValueError):
        graph.remove_edges_from([(0, 1), (0, -1)])
    assert graph.pending == 1
    assert graph.commit() == 2
    assert list_of(graph.edges()) == [(0, 1, 1), (4, 5, 1)]


@pytest.mark.parametrize("columns", [([0], [2, 3]), ([0, 1], [2, 3], [1]), ([0, "a"], [2, 3]), ([0, 1], [2, 1 << 24])])
def test_bad_columns(graph, columns):
    with pytest.raises((TypeError, ValueError)):
        graph.add_edges(*columns)
    is_as_before(graph)


@pytest.mark.skipif(numpy is None, reason="without NumPy")
@pytest.mark.parametrize("dtype, ends", [("float64", [0, 2]), ("bool", [0, 1]), ("int64", [0, -1]), ("int64", [0, 1 << 24]), ("object", [0, 2])])
def test_bad_arrays(graph, dtype, ends):
    with pytest.raises((TypeError, ValueError)):
        graph.add_edges_from(numpy.array([ends], dtype))
    is_as_before(graph)


@pytest.mark.parametrize(
    "how",
    [
        {"turns": -1},
        {"turns": 1.5},
        {"turns": 1 << 64},
        {"turns": True},
        {"workers": 0},
        {"workers": 65},
        {"workers": "2"},
        {"held": 1},
        {"only": ["parent"]},
    ],
)
def test_bad_run(graph, how):
    with pytest.raises((TypeError, ValueError, KeyError)):
        graph.run(gsnap.distances(0), **how)
    is_as_before(graph)


@pytest.mark.parametrize("program", [7, None, 1.5, b"text"])
def test_no_program(graph, program):
    with pytest.raises(TypeError):
        graph.run(program)
    is_as_before(graph)


def test_a_start_that_is_not_there(graph):
    with pytest.raises(ValueError, match="start"):
        graph.run(gsnap.distances(6))
    with pytest.raises(TypeError, match="start"):
        graph.run(gsnap.distances(1.0))
    is_as_before(graph)


def test_a_vertex_too_many_is_named_by_the_commit(graph):
    graph.add_edge(0, 2)
    graph.add_edges_from([(1, 2), (3, 9), (0, 7)])
    graph.remove_edge(0, 8)
    with pytest.raises(gsnap.Refused) as refused:
        graph.commit()
    assert refused.value.number == 111
    assert refused.value.line == "commit"
    assert refused.value.entry == "vertex 9 of entry 3 of the batch, `add 3 9`: the vertices are 0 to 5"
    assert refused.value.entry in str(refused.value)
    assert "dropped" in refused.value.cure
    is_as_before(graph)


def test_growth_behind_an_edge(graph):
    graph.add_edge(0, 9)
    graph.grow(10)
    assert graph.commit() == 2
    assert graph.vertices == 10


def test_versions_that_are_not_kept(graph):
    for version in (0, 2, 7):
        with pytest.raises(gsnap.Refused) as refused:
            graph.held(version)
        assert refused.value.number == 121
    is_as_before(graph)


def test_a_released_version(graph):
    held = graph.held()
    held.release()
    held.release()
    for call in (lambda: graph.edges(held), lambda: graph.run(gsnap.distances(0), held=held)):
        with pytest.raises(gsnap.Closed):
            call()


def test_a_version_of_another_graph(graph):
    with gsnap.Graph(6) as other, other.held() as held:
        with pytest.raises(ValueError, match="another graph"):
            graph.edges(held)
    is_as_before(graph)


@pytest.mark.parametrize("vertices", [0, -1, (1 << 24) + 1, 1.0, "3", None, True])
def test_no_graph(vertices):
    with pytest.raises((TypeError, ValueError), match="vertices"):
        gsnap.Graph(vertices)


def test_a_program_that_does_not_compile(graph):
    text = "element Vertex end\nelement Edge end\nfunc main()\n  print 1 + true;\nend\n"
    with pytest.raises(gsnap.ProgramRefused) as refused:
        graph.run(text)
    assert refused.value.number == 223
    assert "4 |   print 1 + true;" in str(refused.value)
    assert "^" in str(refused.value)
    is_as_before(graph)


def test_a_text_of_one_line(graph):
    text = "element Vertex end element Edge end func main() print 7; end"
    assert graph.run(text).printed == [7] and gsnap.Program(text).text == text
    with pytest.raises(TypeError, match=r"not function; call it, as in gsnap.components\(\)"):
        graph.run(gsnap.distances)


def test_one_text_for_programs_is_one_program():
    text = "element Vertex end\nelement Edge end\nfunc main() print 5; end\n"
    with gsnap.Graph(2, programs=text) as graph:
        assert graph.run(text).printed == [5]
    with pytest.raises(OSError):
        gsnap.Graph(2, programs="no_such.program")
