"""What becomes of a graph whose process, reader, thread or interpreter ends."""
import os
import pty
import signal
import subprocess
import sys
import threading
import time

import pytest

import gsnap
from gsnap import session
from conftest import ROOT
from gsnap.wire import Wire
from test_graph import ENDLESS


def list_of(edges):
    return [(u, v, int(w)) for u, v, w in edges]


def ended(pid):
    """Waits until a process is gone."""
    for _ in range(500):
        try:
            os.kill(pid, 0)
        except ProcessLookupError:
            return True
        time.sleep(0.01)
    return False


def test_a_process_that_was_killed():
    graph = gsnap.from_edges([(0, 1)])
    os.kill(graph.pid, signal.SIGKILL)
    with pytest.raises(gsnap.Ended) as error:
        for _ in range(100):
            graph.add_edge(1, 0)
            graph.commit()
    assert error.value.status == -signal.SIGKILL
    assert "signal 9 (SIGKILL)" in str(error.value)
    assert "the graph is gone" in str(error.value)
    for call in (graph.commit, lambda: graph.add_edge(0, 1), graph.edges, graph.held, lambda: graph.run(gsnap.components())):
        with pytest.raises(gsnap.Closed):
            call()
    graph.close()


def test_last_words(tmp_path):
    program = fake(tmp_path, 'read line; echo "open 1"; read line; echo refused 801; echo "no memory" >&2; read line; exit 4')
    with pytest.raises(gsnap.Ended, match="status 4.*its last words: no memory"):
        with_program(program, lambda: gsnap.Graph().commit())


def test_a_closed_graph():
    graph = gsnap.Graph(2)
    held = graph.held()
    pid = graph.pid
    graph.close()
    graph.close()
    held.release()
    assert ended(pid)
    for call in (graph.commit, lambda: graph.add_edge(0, 1), graph.edges, lambda: graph.edges(held), lambda: graph.grow(3)):
        with pytest.raises(gsnap.Closed):
            call()


def test_no_program(tmp_path, monkeypatch):
    monkeypatch.setenv("GSNAP", str(tmp_path / "none"))
    with pytest.raises(gsnap.NoProgram, match="none"):
        gsnap.Graph(2)
    file = tmp_path / "text"
    file.write_text("words")
    monkeypatch.setenv("GSNAP", str(file))
    with pytest.raises(gsnap.NoProgram, match="text"):
        gsnap.Graph(2)


def fake(folder, body):
    """Writes a program that stands for gsnap, and returns its path."""
    path = folder / "fake"
    path.write_text(f"#!/bin/sh\n{body}\n")
    path.chmod(0o755)
    return path


def with_program(program, call):
    """Calls with another program for gsnap."""
    before = os.environ.get("GSNAP")
    os.environ["GSNAP"] = str(program)
    try:
        return call()
    finally:
        if before is None:
            del os.environ["GSNAP"]
        else:
            os.environ["GSNAP"] = before


@pytest.mark.parametrize(
    "reply, call",
    [
        ("version 2", lambda graph: graph.commit()),
        ("ticket 1 version 0", lambda graph: graph.commit()),
        ("hello", lambda graph: graph.commit()),
        ("version 1", lambda graph: graph.held()),
        ("ticket 2 version 0", lambda graph: graph.held()),
        ("ticket 1 version 1", lambda graph: graph.held()),
        ("version 1", lambda graph: graph.edges()),
    ],
)
def test_a_reply_that_does_not_fit(tmp_path, reply, call):
    program = fake(tmp_path, f'read line; echo "open 1"; read line; echo "refused 801"; read line; echo "refused 122"; read line; echo "{reply}"; cat >/dev/null')

    def ask():
        graph = gsnap.Graph()
        with pytest.raises(gsnap.OutOfStep, match="the graph is closed"):
            call(graph)
        with pytest.raises(gsnap.Closed):
            graph.commit()

    with_program(program, ask)


@pytest.mark.parametrize("vector", ["", " 1", " 1 2 3", " 1 x", " 1 2 x"])
def test_a_vector_of_another_length(tmp_path, vector):
    begin = 'read line; echo "open 1"; read line; echo "refused 801"; read line; echo "refused 122";'
    run = f'read line; echo "end finished turns 0"; echo "vector x:{vector}"; echo "refused 801"; cat >/dev/null'
    program = fake(tmp_path, f'[ "$1" != check ] || exit 0; {begin} {run}')

    def ask():
        graph = gsnap.Graph(2)
        with pytest.raises(gsnap.OutOfStep):
            graph.run("element Vertex end\nelement Edge end\nfunc main() end\n")
        with pytest.raises(gsnap.Closed):
            graph.commit()

    with_program(program, ask)


@pytest.mark.parametrize("edges", ["0 1 x", "0", "0 x", "0 1 2 3 4 x"])
def test_edges_that_are_none(tmp_path, edges):
    begin = 'read line; echo "open 1"; read line; echo "refused 801"; read line; echo "refused 122";'
    program = fake(tmp_path, f'{begin} read line; echo "edges 2"; echo "0 1"; echo "{edges}"; cat >/dev/null')

    def ask():
        graph = gsnap.Graph(2)
        with pytest.raises(gsnap.OutOfStep):
            graph.edges()
        with pytest.raises(gsnap.Closed):
            graph.commit()

    with_program(program, ask)


@pytest.mark.parametrize("reply", ["version x", "ticket 1 version", "", "refused x"])
def test_a_reply_without_its_number(tmp_path, reply):
    program = fake(tmp_path, f'read line; echo "open 1"; read line; echo "refused 801"; read line; echo "refused 122"; read line; echo "{reply}"; cat >/dev/null')

    def ask():
        with pytest.raises(gsnap.OutOfStep):
            gsnap.Graph().commit()

    with_program(program, ask)


def test_many_programs():
    with gsnap.from_edges([(v, v + 1) for v in range(40)]) as graph:
        session.MOST_PROGRAMS, before = 5, session.MOST_PROGRAMS
        try:
            for v in list(range(12)) * 2:
                assert int(graph.run(gsnap.distances(v)).distance[40]) == 40 - v
            graph.prepare(gsnap.distances(v) for v in range(20))
            pid = graph.pid
            assert [int(graph.run(gsnap.distances(v)).distance[40]) for v in range(20)] == [40 - v for v in range(20)]
            assert graph.pid == pid
        finally:
            session.MOST_PROGRAMS = before


def test_a_full_pipe():
    edges = [(v % 1000, v * 7 % 1000) for v in range(300_000)]
    with gsnap.Graph(1000) as graph:
        graph.add_edges_from(edges)
        graph.commit()
        for _ in range(20_000):  # so many replies as no pipe holds, when the journal is done again
            graph.commit()
        assert graph.run(gsnap.components(), only=()).version == 20_001
        assert len(graph.edges()) == len(set(edges))


def test_two_threads():
    with gsnap.Graph(1000) as graph:
        graph.prepare([gsnap.distances(0)])
        failures = []

        def edit(first):
            try:
                for v in range(first, 200, 2):
                    graph.add_edge(v, v + 1)
                    graph.commit()
            except Exception as error:
                failures.append(error)

        def ask():
            try:
                for _ in range(100):
                    with graph.held() as held:
                        run = graph.run(gsnap.distances(0), held=held)
                        assert run.version == held.version
                        reached = sum(1 for it in run.distance if it >= 0)
                        assert reached <= 2 + held.version
                        assert list(run.distance) == list(graph.run(gsnap.distances(0), held=held).distance)
            except BaseException as error:
                failures.append(error)

        threads = [threading.Thread(target=edit, args=(it,)) for it in (0, 1)] + [threading.Thread(target=ask)]
        for it in threads:
            it.start()
        for it in threads:
            it.join()
        assert not failures
        assert graph.version == 200
        assert len(graph.edges()) == 200


def interrupt_soon(seconds=0.3):
    threading.Timer(seconds, os.kill, (os.getpid(), signal.SIGINT)).start()


def test_an_interrupted_run_leaves_the_graph():
    with gsnap.from_edges([(0, 1), (1, 2)]) as graph:
        held = graph.held()
        graph.remove_edge(0, 1)
        graph.commit()
        graph.add_edge(2, 0, 7)
        graph.prepare([ENDLESS])
        pid = graph.pid
        interrupt_soon()
        with pytest.raises(KeyboardInterrupt):
            graph.run(ENDLESS, turns=(1 << 64) - 1)
        assert ended(pid)
        assert (graph.version, graph.pending) == (2, 1)
        assert list_of(graph.edges(held)) == [(0, 1, 1), (1, 2, 1)]
        assert graph.commit() == 3
        assert list_of(graph.edges()) == [(1, 2, 1), (2, 0, 7)]
        assert graph.run(ENDLESS, turns=5).turns == 5


SCRIPT = """
import gsnap
graph = gsnap.Graph(3)
graph.add_edge(0, 1)
graph.commit()
held = graph.held()
print(graph.pid, flush=True)
"""


@pytest.mark.parametrize("last", ["", "import sys; sys.exit(3)", "raise RuntimeError", "import os; os._exit(1)", "import os; os.kill(os.getpid(), 9)"])
def test_an_interpreter_that_ends_with_an_open_graph(last):
    found = subprocess.run(
        [sys.executable, "-c", SCRIPT + last], env={**os.environ, "PYTHONPATH": str(ROOT / "python")}, capture_output=True, timeout=60
    )
    assert ended(int(found.stdout))
    assert b"gsnap" not in found.stderr.replace(b"import gsnap", b"") or b"RuntimeError" in found.stderr


def test_a_graph_that_nobody_has_any_more():
    pid = gsnap.Graph(2).pid
    assert ended(pid)


def test_a_wire_alone():
    wire = Wire([ROOT / "examples" / "distances.program"])
    assert wire.ask("vertices 3").vertices == 3
    wire.send(b"add 0 1\n")
    assert wire.ask("commit").version == 1
    assert wire.run("run 1 9 1").vectors == {"distance": [0, 1, -1]}
    with pytest.raises(gsnap.Refused) as refused:
        wire.run("run 2 9 1")
    assert (refused.value.number, refused.value.line) == (412, "run 2 9 1")
    with pytest.raises(gsnap.Refused) as refused:
        wire.ask("release 4")
    assert refused.value.number == 122
    wire.send(b"add 0 x\n")
    with pytest.raises(gsnap.Refused):
        wire.ask("commit")
    assert wire.close() == 0


def test_a_process_that_ends_while_it_is_written_to(tmp_path):
    program = fake(tmp_path, 'read line; echo "open 1000"; read line; echo "refused 801"; read line; echo "refused 122"; exit 4')

    def load():
        graph = gsnap.Graph(1000)
        with pytest.raises(gsnap.Ended, match="status 4"):
            graph.add_edges_from([(0, 1)] * 1_000_000)
            graph.commit()
        with pytest.raises(gsnap.Closed):
            graph.commit()

    with_program(program, load)


def test_a_graph_that_does_not_begin_leaves_no_process():
    before = children()
    with pytest.raises(gsnap.ProgramRefused):
        gsnap.Graph(2, programs="element Vertex end\nelement Edge end\nfunc main() print x; end\n")
    with pytest.raises(TypeError):
        gsnap.from_edges([(0, None)])
    assert children() == before


def children():
    """Returns the processes of this one."""
    with open(f"/proc/self/task/{threading.get_native_id()}/children", encoding="ascii") as file:
        return set(file.read().split())


@pytest.mark.parametrize("given, wanted", [("[(0, 1)] * 600_000", "] 600,000 of 600,000 edges"), ("((0, 1) for _ in range(600_000))", "\r600,000 edges")])
def test_a_terminal_shows_how_far_a_load_is(given, wanted):
    code = f"import gsnap\nwith gsnap.Graph(2) as graph:\n    graph.add_edges_from({given})"
    master, slave = pty.openpty()
    subprocess.run([sys.executable, "-c", code], stderr=slave, check=True, env={**os.environ, "PYTHONPATH": str(ROOT / "python")})
    os.close(slave)
    said = b""
    try:
        while piece := os.read(master, 1 << 16):
            said += piece
    except OSError:
        pass  # a terminal that nobody has open any more
    os.close(master)
    assert wanted in said.decode()
