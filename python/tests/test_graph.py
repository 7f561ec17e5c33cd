"""Edits, versions, runs and names of a graph."""
import gzip
import subprocess

import pytest

import gsnap
from conftest import ROOT

PRINTS = """element Vertex end
element Edge end
const edges : edgeset{Edge}(Vertex, Vertex) = load(argv[1]);
const vertices : vertexset{Vertex} = edges.getVertices();
const turns : vector{Vertex}(int) = 4;
func main()
  print vertices.getVertexSetSize();
  print 1 == 1;
  print -7;
end
"""
FAULT = """element Vertex end
element Edge end
const edges : edgeset{Edge}(Vertex, Vertex) = load(argv[1]);
const x : vector{Vertex}(int) = 0;
func main()
  print 1;
  x[99] = 1;
end
"""
ENDLESS = """element Vertex end
element Edge end
const edges : edgeset{Edge}(Vertex, Vertex) = load(argv[1]);
const x : vector{Vertex}(int) = 0;
func main()
  while 1 == 1
    x[0] += 1;
  end
end
"""


def list_of(edges):
    return [(u, v, int(w)) for u, v, w in edges]


def test_edits_and_versions():
    with gsnap.Graph(3) as graph:
        assert (graph.version, graph.vertices, graph.pending) == (0, 3, 0)
        graph.add_edge(0, 1, weight=-(1 << 63))
        graph.add_edge(0, 1, weight=(1 << 63) - 1)
        graph.add_edges_from([(1, 2), (2, 0, 5), (2, 1, {"weight": 6}), (2, 2, {})], weight=3)
        assert graph.pending == 6
        assert graph.commit() == 1
        assert list_of(graph.edges()) == [(0, 1, (1 << 63) - 1), (1, 2, 3), (2, 0, 5), (2, 1, 6), (2, 2, 3)]
        held = graph.held()
        graph.remove_edges_from([(2, 0), (2, 1, 6)])
        graph.remove_edge(1, 1)
        graph.add_vertex(1)
        graph.add_vertex(4)
        assert graph.commit() == 2
        assert (graph.vertices, held.vertices) == (5, 3)
        assert list_of(graph.edges()) == [(0, 1, (1 << 63) - 1), (1, 2, 3), (2, 2, 3)]
        assert len(graph.edges(held)) == 5
        again = graph.held(1)
        assert (again.ticket, again.version) == (2, 1)
        held.release()
        assert len(graph.edges(again)) == 5
        assert [it.ticket for it in graph.holds] == [2]


def test_columns():
    with gsnap.Graph(4) as graph:
        graph.add_edges([0, 1, 2], (1, 2, 3))
        graph.add_edges(iter([3]), iter([0]), iter([9]))
        graph.commit()
        assert list_of(graph.edges()) == [(0, 1, 1), (1, 2, 1), (2, 3, 1), (3, 0, 9)]
        assert list(map(int, graph.edges().weights)) == [1, 1, 1, 9]


def test_a_run_and_its_parts():
    with gsnap.from_edges([(0, 1), (1, 2), (0, 3)], vertices=5) as graph:
        run = graph.run(PRINTS)
        assert (run.end, run.turns, run.version, run.printed) == ("finished", 0, 1, [5, True, -7])
        assert (list(run), run.vectors, run.sets) == (["turns", "vertices"], ["turns"], ["vertices"])
        assert list(run["turns"]) == [4] * 5
        assert list(run.array("vertices")) == [0, 1, 2, 3, 4]
        run = graph.run(gsnap.distances(0), turns=1)
        assert (run.end, run.turns, list(run.distance), list(run.frontier)) == ("turns-over", 1, [0, 1, -1, 1, -1], [1, 3])
        assert list(run.rows(2)) == [[0, 0, False], [1, 1, True]]
        with pytest.raises(AttributeError, match="distance frontier"):
            run.parent
        with pytest.raises(KeyError):
            run["parent"]
        assert {"distance", "frontier", "turns"} <= set(dir(run))


def test_only():
    with gsnap.from_edges([(0, 1), (1, 0)]) as graph:
        assert list(graph.run(gsnap.components(), only="label")) == ["label"]
        assert list(graph.run(gsnap.components(), only=["components", "frontier"])) == ["frontier", "components"]
        assert list(graph.run(gsnap.components(), only=[])) == []


def test_a_fault():
    with gsnap.Graph(2) as graph:
        run = graph.run(FAULT)
        assert (run.end, run.statement, run.printed, run.turns) == ("fault", 2, [1], 0)
        assert graph.run(PRINTS).end == "finished"


def test_workers_and_turns():
    with gsnap.from_edges([(v, v + 1) for v in range(50)]) as graph:
        answers = {tuple(graph.run(gsnap.distances(0), workers=workers).distance) for workers in (1, 2, 64)}
        assert answers == {tuple(range(51))}
        assert graph.run(ENDLESS, turns=9).turns == 9


def test_new_programs_leave_all_as_it_was():
    with gsnap.Graph(4) as graph:
        graph.add_edge(0, 1)
        graph.commit()
        first = graph.held()
        graph.add_edge(1, 2)
        graph.commit()
        second = graph.held()
        first.release()
        third = graph.held(2)
        graph.add_edge(2, 3)
        pid = graph.pid
        assert list(graph.run(gsnap.distances(0)).distance) == [0, 1, 2, -1]
        assert graph.pid != pid
        assert graph.pending == 1
        assert list(graph.run(gsnap.bfs(0), held=second).parent) == [0, 0, 1, -1]
        assert graph.commit() == 3
        assert list(graph.run(gsnap.distances(1), held=third).distance) == [-1, 0, 1, -1]
        assert list(graph.run(gsnap.distances(1)).distance) == [-1, 0, 1, 2]
        assert graph.held().ticket == 4


def test_prepared_programs_cost_one_process():
    with gsnap.from_edges([(v, v + 1) for v in range(20)]) as graph:
        graph.prepare(gsnap.distances(v) for v in range(20))
        pid = graph.pid
        for v in range(20):
            assert int(graph.run(gsnap.distances(v)).distance[20]) == 20 - v
        assert graph.pid == pid


def test_watch_and_counts():
    with gsnap.Graph(4) as graph:
        held = graph.held()
        counts = graph.counts(gsnap.components())
        batches = [[("add", 0, 1), ("add", 1, 0)], [("add", 2, 3, 5), ("add", 3, 2)], [("remove", 0, 1), ("remove", 1, 0)], []]
        runs = list(graph.watch(batches, gsnap.components(), only="label"))
        assert [it.version for it in runs] == [1, 2, 3, 4]
        assert [it.printed for it in runs] == [[3], [2], [3], [3]]
        assert [list(it) for it in runs] == [["label"]] * 4
        assert dict(counts) == {0: 4, 1: 3, 2: 2, 3: 3, 4: 3}
        counts.close()
        graph.commit()
        assert len(counts) == 5
        assert list(graph.run(gsnap.components(), held=held).printed) == [4]


@pytest.mark.parametrize("edit", [("add", 0), ("drop", 0, 1), ("add", 0, 1, 2, 3), ("remove", 0, 1, 2), ("add", 0, "x")])
def test_a_wrong_edit(edit):
    with gsnap.Graph(2) as graph:
        with pytest.raises((TypeError, ValueError)):
            next(graph.watch([[("add", 0, 1), edit]], gsnap.components()))
        assert (graph.version, graph.pending) == (0, 0)


def test_names():
    with gsnap.Graph(names=True) as graph:
        graph.add_edges_from([("ann", "bob"), ("bob", 7), (7, ("a", "pair"), 5)])
        graph.add_vertex("zed")
        assert graph.commit() == 1
        assert graph.names == ["ann", "bob", 7, ("a", "pair"), "zed"]
        assert graph.vertices == 5
        held = graph.held()
        graph.add_edge("zed", "eve")
        graph.remove_edge("ann", "bob")
        assert graph.commit() == 2
        run, before = graph.run(gsnap.distances("bob")), graph.run(gsnap.distances("ann"), held=held)
        assert dict(run.distance) == {"ann": -1, "bob": 0, 7: 1, ("a", "pair"): 2, "zed": -1, "eve": -1}
        assert dict(before.distance) == {"ann": 0, "bob": 1, 7: 2, ("a", "pair"): 3, "zed": -1}
        assert list(run.distance.array) == [-1, 0, 1, 2, -1, -1]
        assert graph.run(gsnap.bfs("zed"), turns=1).frontier == frozenset(["eve"])
        assert list_of(graph.edges(held)) == [("ann", "bob", 1), ("bob", 7, 1), (7, ("a", "pair"), 5)]
        assert list_of(graph.edges()) == [("bob", 7, 1), (7, ("a", "pair"), 5), ("zed", "eve", 1)]
        assert graph.number(7) == 2
        assert graph.run(gsnap.reachable("bob", 7)).printed == [True]


def test_names_that_are_wrong():
    with gsnap.Graph(names=["ann"]) as graph:
        for call, error in (
            (lambda: graph.add_edge("ann", None), TypeError),
            (lambda: graph.add_edge(["list"], "ann"), TypeError),
            (lambda: graph.add_edge("new", "ann", 1.5), TypeError),
            (lambda: graph.add_edge("new", []), TypeError),
            (lambda: graph.add_edges_from([("new", "ann"), ("other", "ann", "x")]), TypeError),
            (lambda: graph.remove_edge("ann", "new"), KeyError),
            (lambda: graph.remove_edges_from([("ann", "ann"), ("new", "ann")]), KeyError),
            (lambda: graph.run(gsnap.distances("new")), KeyError),
            (lambda: graph.grow(5), ValueError),
            (lambda: graph.number("new"), KeyError),
        ):
            with pytest.raises(error):
                call()
            assert (graph.names, graph.pending) == (["ann"], 0)
        graph.add_edge("ann", "bob")
        assert graph.commit() == 1
        assert list_of(graph.edges()) == [("ann", "bob", 1)]


@pytest.mark.parametrize("name", ["graph.script", "graph.script.gz"])
def test_save_and_open(tmp_path, name):
    path = tmp_path / name
    with gsnap.Graph(3) as graph:
        held = [graph.held()]
        graph.add_edges_from([(0, 1), (1, 2, -5)])
        graph.commit()
        held.append(graph.held())
        graph.commit()
        graph.remove_edge(0, 1)
        graph.add_edge(1, 2, 7)
        graph.grow(6)
        graph.commit()
        held += [graph.held(), graph.held(1)]
        graph.add_edge(5, 5)
        graph.commit()
        graph.add_edge(4, 4)
        graph.save(path)
        lists = [(it.version, it.vertices, list_of(graph.edges(it))) for it in held]
        newest = (graph.version, graph.vertices, list_of(graph.edges()))
    with gsnap.open(path) as graph:
        found = [(it.version, it.vertices, list_of(graph.edges(it))) for it in graph.holds]
        assert sorted(found) == sorted(lists)
        assert (graph.version, graph.vertices, list_of(graph.edges())) == newest
        assert graph.pending == 0
        assert list(graph.run(gsnap.distances(5)).distance)[5] == 0
        assert graph.commit() == 5
    assert (path.read_bytes()[:2] == b"\x1f\x8b") == name.endswith(".gz")


def test_folders_are_no_files_of_graphs(tmp_path):
    with gsnap.Graph(2) as graph:
        for given in (".", tmp_path):
            for call in (graph.save, gsnap.open):
                with pytest.raises(IsADirectoryError) as caught:
                    call(given)
                assert caught.value.filename == str(given)
        with pytest.raises(FileNotFoundError) as missing:
            graph.save(tmp_path / "lost" / "it.script")
        assert missing.value.filename == str(tmp_path / "lost")


def test_a_saved_script_is_a_script(tmp_path):
    path = tmp_path / "graph.script"
    with gsnap.from_edges([(0, 1)]) as graph:
        graph.save(path)
    replies = subprocess.run([gsnap.data.program(), "script", path], capture_output=True, check=True).stdout
    assert replies == b"open 2\nversion 1\n"


def test_names_are_saved(tmp_path):
    path = tmp_path / "graph.script"
    with gsnap.from_edges([("ann", 'a "quoted"\nname'), (7, "ann")], names=True) as graph:
        graph.save(path)
        graph.add_edge("ann", (1, 2))
        graph.commit()
        with pytest.raises(TypeError, match="names in a file"):
            graph.save(tmp_path / "other.script")
        assert not (tmp_path / "other.script").exists()
    with gsnap.open(path) as graph:
        assert graph.names == ["ann", 'a "quoted"\nname', 7]
        graph.add_edge("new", "ann")
        graph.commit()
        assert list_of(graph.edges()) == [("ann", 'a "quoted"\nname', 1), (7, "ann", 1), ("new", "ann", 1)]
    with gsnap.Graph() as graph:
        graph.save(path)
    with gsnap.open(path) as graph:
        assert graph.names is None


@pytest.mark.parametrize(
    "text, words",
    [
        ("", "opens no graph"),
        ("vertices 2\nadd 0 5\ncommit\n", "refused by 111"),
        ("vertices 2\nadd 0 x\ncommit\n", "refused by 801"),
        ("vertices 2\nadd 0 1\ncommit\nadd 0 x\n", "801|RefusedLine"),
        ("vertices 2\nadd 0 x\nrelease 0\ncommit\n", "refused|answered"),
        ("vertices 2\nadd 0 x\nadd 0 x\nrelease 0\nadd 0 1\n", "refused|answered"),
        ("vertices 2\nadd 0 1\nrelease 0", "refused by 122"),
        ("?\nrelease 0\n", "no line of a graph"),
        ("vertices 2\nrun 1 1 1\n", "run 1 1 1"),
        ("vertices 2\nedges\n", "edges"),
        ("add 0 1\n", "opens no graph"),
        ("add 0 1\nadd 0 1\nadd 0 1\n", "opens no graph"),
        ("vertices 0\n", "refused by 111"),
        ("vertices 2\nrelease 1\n", "refused by 122"),
        ("hello\n", "hello"),
    ],
)
def test_a_script_that_is_none(tmp_path, text, words):
    path = tmp_path / "graph.script"
    path.write_text(text)
    with pytest.raises(gsnap.Mistake, match=words):
        gsnap.open(path)


def test_edits_behind_the_last_commit_of_a_script(tmp_path):
    path = tmp_path / "graph.script"
    path.write_text("vertices 3\nadd 0 1\nadd 0 1\ncommit\nadd 1 2\nhold\ndel 0 1\ngrow 5")
    with gsnap.open(path) as graph:
        assert (graph.version, graph.pending, graph.vertices) == (1, 3, 3)
        assert graph.commit() == 2
        assert (graph.vertices, list_of(graph.edges())) == (5, [(1, 2, 1)])


def test_a_file_that_is_packed_without_saying_so(tmp_path):
    path = tmp_path / "graph.script"
    path.write_bytes(gzip.compress(b"vertices 3\nadd 0 1\ncommit\nhold\n\nadd 1 2\ncommit"))
    with gsnap.open(path) as graph:
        assert (graph.version, [it.version for it in graph.holds]) == (2, [1])
        assert list_of(graph.edges()) == [(0, 1, 1), (1, 2, 1)]


READY = {
    "reachability": gsnap.bfs(0),
    "distances": gsnap.distances(0),
    "components": gsnap.components(),
    "shortest": gsnap.shortest_paths(0),
    "cookbook/reachable": gsnap.reachable(0, 3),
    "cookbook/hops": gsnap.hops(0, 2),
    "cookbook/levels": gsnap.levels(),
    "cookbook/paths": gsnap.paths(0),
    "cookbook/ends": gsnap.degrees(),
    "cookbook/histogram": gsnap.histogram(),
    "cookbook/layers": gsnap.layers(),
    "cookbook/triangles": gsnap.triangles(),
    "cookbook/cores": gsnap.k_core(),
    "cookbook/bipartite": gsnap.bipartite(),
    "cookbook/pagerank": gsnap.pagerank(20),
    "cookbook/widest": gsnap.widest_paths(0),
    "cookbook/weighted_rank": gsnap.weighted_rank(20),
}


def test_every_recipe_is_ready():
    recipes = {f"cookbook/{it.stem}" for it in (ROOT / "examples" / "cookbook").glob("*.program")}
    assert recipes <= READY.keys()


@pytest.mark.parametrize("name", READY)
def test_a_ready_program_is_the_cookbooks(name):
    text = (ROOT / "examples" / f"{name}.program").read_text()
    assert READY[name].text == text
    assert READY[name].compiled(lambda vertex, _: vertex).text == text


def test_constants():
    assert "const start : int = 4;" in gsnap.distances(4).compiled(lambda vertex, _: vertex).text
    assert "const rounds : int = 7;" in gsnap.pagerank(7).compiled(lambda vertex, _: vertex).text
    with pytest.raises(KeyError, match="stop"):
        gsnap.Program(gsnap.distances(0).text, {"stop": 1})
