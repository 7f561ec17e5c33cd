"""The shell: on a terminal, as a person uses it, and with its input from a file."""
from __future__ import annotations

import gzip
import io
import os
import re
import signal
import subprocess
import sys
import time
from collections.abc import Iterator
from pathlib import Path

import pytest
from terminal import PACKAGE, Terminal

from gsnap.console import GROUPS, READY
from gsnap.shell import Shell

EXAMPLES = PACKAGE.parent / "examples"
SHELL = (sys.executable, "-m", "gsnap")
HEAD = "element Vertex end\nelement Edge end\nconst edges : edgeset{Edge}(Vertex, Vertex) = load(argv[1]);\n"
HEAD += "const x : vector{Vertex}(int) = 0;\n"
# Files with what may be weights.
UNREAD = ("general.mtx", "skew.mtx", "heading.csv", "friends.list")
# Words after `load FILE` by which weights are taken, or columns without them are chosen.
TAKE_WEIGHTS = {"weights", "scale", "columns"}
SPIN = HEAD + "func main()\n  while true\n    x[0] = 1;\n  end\nend\n"
FAULT = HEAD + "func main()\n  x[0] = 1;\n  x[9] = 2;\nend\n"


@pytest.fixture()
def terminal(tmp_path: Path) -> Iterator[Terminal]:
    (tmp_path / "spin.program").write_text(SPIN)
    (tmp_path / "edges.txt").write_text("0 1\n1 2\n2 0\n3 4\n")
    with Terminal(tmp_path, *SHELL) as it:
        it.wait("gsnap> ")
        yield it


def done(folder: Path, *lines: str) -> tuple[int, list[str]]:
    """Does lines in a folder, as those of a file, and returns how many could not be done, and what is printed."""
    shell = Shell(False)
    shell.stdin = io.StringIO("".join(f"{it}\n" for it in lines))
    shell.stdout = io.StringIO()
    before = os.getcwd()
    os.chdir(folder)
    try:
        shell.cmdloop()
    finally:
        os.chdir(before)
        shell.drop()
    return shell.failures, shell.stdout.getvalue().splitlines()


def main_does(folder: Path, text: str, *words: str) -> subprocess.CompletedProcess[str]:
    """Does a text as standard input of the command."""
    given = os.environ | {"PYTHONPATH": str(PACKAGE), "XDG_STATE_HOME": str(folder / "state")}
    return subprocess.run([*SHELL, *words], input=text, cwd=folder, env=given, capture_output=True, text=True, check=False, timeout=60)


# On a terminal


def test_banner_help_and_end(terminal: Terminal) -> None:
    assert "gsnap 0." in terminal.wait("`help` lists the commands, `quit` ends.")
    terminal.type("help")
    shown = terminal.wait("  quit ")
    assert "  commit " in shown and "  bfs START [at T] " in shown
    terminal.type("help load")
    terminal.wait("both-ways    each edge is added reversed too")
    terminal.type("quit")
    terminal.wait("ended")


def test_lines_runs_and_times(terminal: Terminal) -> None:
    terminal.type("vertices 5", "add 0 1", "add 1 0", "commit")
    terminal.wait("version 1")
    terminal.type("components", "status")
    shown = terminal.wait("0 entries are pending")
    assert "     4      4" in shown
    assert "printed 4\n" in shown and "version 1: finished, " in shown and "vertex  label" in shown
    assert shown.count(" s\n") == 2


def test_ctrl_c_ends_a_run_and_not_the_graph(terminal: Terminal) -> None:
    terminal.type("load edges.txt", "hold", "add 4 3", "program spin.program")
    terminal.wait("program 1: spin.program")
    terminal.type("run 1 18446744073709551615")
    terminal.wait("run 1 18446744073709551615")
    time.sleep(0.5)  # so that the run has begun
    terminal.press("C-c")
    terminal.wait("interrupted; the graph is as it was before this line")
    terminal.type("status")
    terminal.wait("version 1: 5 vertices; 1 entries are pending; open tickets: 1 (version 1)")
    terminal.type("commit", "edges")
    terminal.wait("version 2: 5 edges")


def test_ctrl_c_at_the_prompt_drops_the_line_and_ctrl_d_ends(terminal: Terminal) -> None:
    terminal.type("vertices 3")
    terminal.wait("open 3")
    terminal.press("c", "l", "o", "s", "e", "C-c")
    terminal.type("status")
    terminal.wait("version 0: 3 vertices")
    terminal.press("C-d")
    terminal.wait("ended")


def test_completion(terminal: Terminal) -> None:
    terminal.press(*"load e", "Tab")
    terminal.wait("load edges.txt")
    terminal.press("Enter")
    terminal.wait("version 1: 5 vertices")
    terminal.press(*"compo", "Tab", "Enter")
    terminal.wait("printed 2")
    terminal.type("hold")
    terminal.press(*"rel", "Tab", "Tab", "Enter")
    terminal.wait("released 1")


def test_history_is_kept(tmp_path: Path) -> None:
    for last in ("vertices 7", ""):
        with Terminal(tmp_path, *SHELL) as terminal:
            terminal.wait("gsnap> ")
            if last:
                terminal.type(last, "quit")
                terminal.wait("ended")
            else:
                terminal.press("Up", "Up", "Enter")
                terminal.wait("open 7")
    assert (tmp_path / "state/gsnap/history").read_text().splitlines()[:1] == ["vertices 7"]


def test_a_closed_window_leaves_nothing(tmp_path: Path) -> None:
    room = tmp_path / "room"
    room.mkdir()
    with Terminal(tmp_path, *SHELL, settings={"TMPDIR": str(room)}) as terminal:
        terminal.wait("gsnap> ")
        terminal.type("vertices 2", "components")
        terminal.wait("     1      1")
        assert list(room.glob("gsnap-programs-*"))
    until = time.monotonic() + 20
    while list(room.iterdir()) or not (tmp_path / "state/gsnap/history").exists():
        assert time.monotonic() < until, list(room.iterdir())
        time.sleep(0.05)
    assert (tmp_path / "state/gsnap/history").read_text() == "vertices 2\ncomponents\n"


# From a file


def test_replies_to_lines(tmp_path: Path) -> None:
    lines = ["vertices 3", "", "add 0 1", " add  1  2 -5 ", "commit", "hold", "hold at 1", "del 0 1", "grow 4", "commit"]
    status, said = done(tmp_path, *lines, "edges", "edges 2", "release 2", "status")
    assert status == 0
    assert said == [
        "open 3",
        "version 1",
        "ticket 1 version 1",
        "ticket 2 version 1",
        "version 2",
        "version 2: 1 edges",
        "from  to  weight",
        "   1   2      -5",
        "version 1: 2 edges",
        "from  to  weight",
        "   0   1       1",
        "   1   2      -5",
        "released 2",
        "version 2: 4 vertices; 0 entries are pending; open tickets: 1 (version 1)",
    ]


@pytest.mark.parametrize(
    ("line", "why"),
    [
        ("add 0", "refused 801: `add` takes 2 or 3 numbers"),
        ("add 0 x", "refused 801: `x` is not a number"),
        ("add 0 1 9223372036854775808", "is not a weight"),
        ("del 0 1 2", "refused 801"),
        ("grow 2", "vertices is 2, and has to be from 3"),
        ("vertices 4", "a graph is open already"),
        ("names", "a graph is open already"),
        ("commit 1", "refused 801"),
        ("hold at 5", "121"),
        ("hold 1", "refused 801: `1` is not `at`, as in `hold at 3`"),
        ("release 5", "refused 122: ticket 5 is not open; no ticket is open"),
        ("edges 5", "refused 122"),
        ("run 1", "refused 412"),
        ("run", "it is `run P`"),
        ("bfs", "it is `bfs START [at T]`"),
        ("bfs ann", "`ann` is not a number"),
        ("bfs 7", "start is 7"),
        ("components 1", "it is `components [at T]`"),
        ("components at 3", "refused 122"),
        ("explain", "it is `explain N`"),
        ("explain 5", "'5' is no number of a refusal"),
        ("load", "it is `load FILE`"),
        ("load lost.txt", "lost.txt: No such file or directory"),
        ("load edges.txt scale 0", "a number from 1 on has to follow `scale`"),
        ("load edges.txt backwards", "'backwards' is none of"),
        ("load words.txt", "words.txt has names, and the graph that is open has numbers"),
        ("load faulty.txt", "faulty.txt:2: 'x' is no vertex from 0 to 16777215; `load faulty.txt names` takes any words"),
        ("program lost.program", "lost.program: No such file or directory"),
        ("program wrong.program", "-->"),
        ("save", "it is `save FILE`"),
        ("save nowhere/x.script", "nowhere"),
        ("open lost.script", "lost.script: No such file or directory"),
        ("help nothing", "`nothing` is not a command"),
        ("nothing", "`nothing` is not a command"),
        ('load "edges.txt', 'a `"` is not closed'),
        ("open .", ".: Is a directory"),
        ("save .", ".: Is a directory"),
    ],
)
def test_a_line_that_cannot_be_done(tmp_path: Path, line: str, why: str) -> None:
    (tmp_path / "edges.txt").write_text("0 1\n")
    (tmp_path / "words.txt").write_text("ann bob\n")
    (tmp_path / "faulty.txt").write_text("0 1\nx 1\n")
    (tmp_path / "wrong.program").write_text(HEAD + "func main() print 1 + true; end\n")
    status, said = done(tmp_path, "vertices 3", "add 0 1", "commit", "add 1 2", line, "commit", "edges")
    assert status == 1
    assert why in "\n".join(said)
    assert said[:2] == ["open 3", "version 1"] and said[-5:-3] == ["version 2", "version 2: 2 edges"], said


def test_nothing_without_a_graph(tmp_path: Path) -> None:
    for line in ("add 0 1", "del 0 1", "grow 3", "commit", "hold", "release 1", "edges", "components", "status", "save x", "close"):
        status, said = done(tmp_path, line)
        assert status == 1 and said[0].startswith("no graph is open"), line


def test_tables_have_twenty_rows(tmp_path: Path) -> None:
    status, said = done(tmp_path, "vertices 30", "components", *(f"add 0 {v}" for v in range(25)), "commit", "edges")
    assert status == 0
    assert said[3].split() == ["vertex", "label", *said[3].split()[2:]] and said[4].split()[:2] == ["0", "0"]
    assert said[23].split()[:2] == ["19", "19"] and said[24] == "10 rows more"
    assert said[26:28] == ["version 1: 25 edges", "from  to  weight"] and said[-1] == "5 rows more"


def test_names(tmp_path: Path) -> None:
    (tmp_path / "more.txt").write_text("eve zed\n")
    lines = ["names", "add ann bob", "add bob eve 7", "commit", "load more.txt", "commit", "distances ann", "distances nobody"]
    status, said = done(tmp_path, *lines, "edges", "del bob eve", "del bob nobody", "commit", "distances ann")
    assert status == 2
    assert said[:3] == ["open, with names", "version 1", "1 edges are pending; `commit` makes the next version"]
    assert [line.split()[:2] for line in said[6:10]] == [["ann", "0"], ["bob", "1"], ["eve", "2"], ["zed", "3"]]
    assert "no vertex is named 'nobody'" in said and ["bob", "eve", "7"] in [line.split() for line in said]
    assert [line.split()[:2] for line in said[-4:]] == [["ann", "0"], ["bob", "1"], ["eve", "-1"], ["zed", "-1"]]
    (tmp_path / "numbers.txt").write_text("7 5\n")
    failures, said = done(tmp_path, "names", "load numbers.txt", "commit", "distances 7")
    assert failures == 0 and [line.split()[:2] for line in said[-2:]] == [["7", "0"], ["5", "1"]]


@pytest.mark.parametrize(
    ("name", "words", "vertices", "edges"),
    [
        ("snap.txt", "", 5, "0 1 1;0 3 1;1 2 1;2 4 1;3 2 1"),
        ("snap.txt", "names", 5, "0 1 1;0 3 1;1 2 1;2 4 1;3 2 1"),
        ("general.mtx", "", 3, "0 1 1;1 2 1;2 1 1;2 2 1"),
        ("general.mtx", "both-ways weights", 3, "0 1 5;1 0 5;1 2 0;2 1 0;2 2 7"),
        ("skew.mtx", "scale 1000", 3, "0 1 500;0 2 -1;1 0 -500;2 0 1"),
        ("paths.gr", "", 4, "0 1 7;0 2 2;1 2 3;1 3 1;2 1 3"),
        ("from_one.list", "one-based", 16777216, "0 1 1;1 16777215 1"),
        ("friends.list", "", 4, "4000000000 ann 1;ann bob 1;bob eve 1;eve eve 1"),
        ("friends.list", "weights", 0, "'eve eve' has no weight after the two vertices"),
        ("capitals.mtx", "names", 4, "1 2 1;2 1 1;2 3 1;3 2 1;4 4 1"),
        ("heading.csv", "weights", 3, "0 1 7;1 2 9;2 0 -3"),
        ("heading.csv", "columns to,from", 3, "0 2 1;1 0 1;2 1 1"),
        ("heading.csv", "columns to,from,weight", 3, "0 2 -3;1 0 7;2 1 9"),
        ("heading.csv", "columns to,lost", 0, "no column has the heading 'lost'; there are: id, from, to, weight"),
        ("snap.txt", "commas", 0, "has too few words; an edge needs two vertices, separated by commas"),
    ],
)
def test_load_of_edges(tmp_path: Path, name: str, words: str, vertices: int, edges: str) -> None:
    packed = tmp_path / "packed.gz"
    packed.write_bytes(gzip.compress((EXAMPLES / "edges" / name).read_bytes()))
    for path in (EXAMPLES / "edges" / name, packed):
        failures, said = done(tmp_path, f"load {path} {words}", "edges")
        if not vertices:
            assert failures and edges in said[0]
            continue
        assert said[0].startswith(f"version 1: {vertices} vertices"), said
        unread = [line for line in said if " not read; " in line]
        assert len(unread) == (name in UNREAD and not set(words.split()) & TAKE_WEIGHTS), said
        assert sorted(" ".join(line.split()) for line in said[3 + len(unread) :]) == sorted(edges.split(";"))


@pytest.mark.parametrize(
    ("text", "words", "edges"),
    [
        ("from,to\nann lee,bob\n", "", ["ann lee bob 1"]),
        ("ann,bob\n", "", ["ann bob 1"]),
        ("who,whom\nann,bob\n", "columns who,whom", ["ann bob 1"]),
        ("at,who,whom\n7,ann,bob\n", "columns whom,who", ["bob ann 1"]),
        ("from,to\n0,1\n", "", ["0 1 1"]),
        ("0,1\n1,0\n", "names", ["0 1 1", "1 0 1"]),
    ],
)
def test_load_of_columns(tmp_path: Path, text: str, words: str, edges: list[str]) -> None:
    (tmp_path / "it.csv").write_text(text)
    failures, said = done(tmp_path, f"load it.csv {words}", "edges")
    assert not failures and [" ".join(line.split()) for line in said[3:]] == edges, said


def test_load_of_commas_and_spaces(tmp_path: Path) -> None:
    (tmp_path / "it.txt").write_text("ann lee,bob\n")
    (tmp_path / "removal.txt").write_text("0 1\n- 0 1\n")
    wanted = "removal.txt:2: '-' before an edge removes it, and here each line adds one; `del U V` removes an edge"
    assert done(tmp_path, "load removal.txt") == (1, [wanted])
    failures, said = done(tmp_path, "load it.txt", "load it.txt spaces", "edges", "close", "load it.txt commas", "edges")
    assert failures == 1 and "it.txt:1: 'ann lee,bob' may have commas or spaces between its words" in said[0], said
    assert [" ".join(line.split()) for line in (said[4], said[-1])] == ["ann lee,bob 1", "ann lee bob 1"]


def test_files_with_spaces(tmp_path: Path) -> None:
    (tmp_path / "my edges.txt").write_text("0 1\n1 2\n")
    (tmp_path / "my.program").write_text(SPIN)
    lines = ['load "my edges.txt" both-ways', 'save "my graph.script"', 'open "my graph.script"', 'program "my.program"', "edges"]
    failures, said = done(tmp_path, *lines)
    assert not failures and said[1] == "saved version 1" and said[4] == "version 1: 4 edges", said
    assert (tmp_path / "my graph.script").exists()


def test_load_of_other_files(tmp_path: Path) -> None:
    (tmp_path / "it.program").write_text(SPIN)
    assert done(tmp_path, "load it.program") == (1, ["it.program: this is a program, and not a list of edges"])


def test_load_of_a_script(tmp_path: Path) -> None:
    lines = ["vertices 4", "add 0 1", "add 1 2 5", "add 7 7", "commit", "add 0 1", "nothing"]
    lines += ["add 0 2", "add 2 3 -1", "add 3 3", "commit", "edges"]
    (tmp_path / "it.script").write_text("\n".join(lines))
    status, said = done(tmp_path, "load it.script", "status")
    assert status == 2
    assert said[0] == "open 4" and "111" in said[1] and said[2] == "it.script:5: `commit` was not done"
    assert said[3] == "refused 801: `nothing` is not a command of a script"
    assert said[4:6] == ["it.script:7: `nothing` was not done", "version 1"]
    assert said[8:12] == ["   0   1       1", "   0   2       1", "   2   3      -1", "   3   3       1"]
    (tmp_path / "none.script").write_text("vertices 0\n" + "add 0 1\n" * 50 + "commit\n")
    status, said = done(tmp_path, "load none.script")
    assert status == 1 and len(said) == 2 and said[1] == "none.script:1: `vertices 0` was not done"
    status, said = done(tmp_path, "vertices 2", "load it.script", "status")
    assert status == 1 and said[1] == "a graph is open already; `close` closes it" and said[2].startswith("version 0: 2 vertices")


def test_ctrl_c_ends_a_script(tmp_path: Path, monkeypatch: pytest.MonkeyPatch) -> None:
    def parts(path: str) -> Iterator[tuple[int, str]]:
        yield from ((1, "vertices 3"), (2, "commit"))
        raise KeyboardInterrupt

    (tmp_path / "it.script").write_text("vertices 3\n")
    monkeypatch.chdir(tmp_path)
    monkeypatch.setattr("gsnap.shell.script_parts", parts)
    for is_terminal in (True, False):
        shell = Shell(is_terminal)
        shell.stdout = io.StringIO()
        if is_terminal:
            shell.onecmd("load it.script")
            shell.onecmd("status")
        else:
            with pytest.raises(KeyboardInterrupt):
                shell.onecmd("load it.script")
        said = shell.stdout.getvalue()
        assert ("interrupted at it.script:2; the lines before it are done\nversion 1: 3 vertices" in said) == is_terminal
        shell.drop()


def test_save_and_open(tmp_path: Path) -> None:
    for name in ("it.script", "it.script.gz"):
        lines = ["vertices 3", "add 0 1", "commit", "hold", "del 0 1", "add 1 2 9", "commit", "add 0 0", f"save {name}", f"open {name}"]
        status, said = done(tmp_path, *lines, "edges 1", "edges")
        assert status == 0, said
        assert said[4] == "saved version 2; 1 pending entries are not in it"
        assert said[5] == "version 2: 3 vertices; 0 entries are pending; open tickets: 1 (version 1)"
        assert said[6:9] == ["version 1: 1 edges", "from  to  weight", "   0   1       1"] and said[-1] == "   1   2       9"


def test_programs_by_number(tmp_path: Path) -> None:
    (tmp_path / "spin.program").write_text(SPIN)
    (tmp_path / "fault.program").write_text(FAULT)
    lines = ["vertices 2", "program spin.program", "program fault.program", "program", "run 1 5 2", "run 2", "hold"]
    status, said = done(tmp_path, *lines, "run 1 3 1 1", "explain 401")
    assert status == 0, said
    assert said[1:5] == ["program 1: spin.program", "program 2: fault.program"] * 2
    assert said[5] == "version 0: turns-over, 5 turns" and said[9] == "version 0: fault, 0 turns"
    assert "7 |   x[9] = 2;" in said and "  |   ^" in said
    assert "version 0: turns-over, 3 turns" in said and said[-1].startswith("401: an index")


def test_runs_on_a_held_version(tmp_path: Path) -> None:
    (tmp_path / "spin.program").write_text(SPIN)
    lines = ["vertices 2", "program spin.program", "hold", "add 0 1", "commit", "run 1 3 1 1", "run 1 3", "distances 0 at 1", "distances 0"]
    failures, said = done(tmp_path, *lines)
    assert failures == 0
    heads = [line for line in said if ": " in line and "turns" in line]
    assert [it.partition(":")[0] for it in heads] == ["version 0", "version 1", "version 0", "version 1"]
    assert [line.split()[1] for line in said if line.startswith("     1")] == ["0", "0", "-1", "1"]


def test_explain(tmp_path: Path) -> None:
    status, said = done(tmp_path, "explain 103", "explain 900")
    assert status == 0
    assert said[:3] == ["103: the chunk size is not a power of two from 1 to 256", "leave it out, or write 64", "900: memory ran out"]
    assert said[3].startswith("run on a machine with more memory")


def test_a_process_that_was_killed(tmp_path: Path, monkeypatch: pytest.MonkeyPatch) -> None:
    shell = Shell(False)
    said: list[str] = []
    monkeypatch.setattr(shell, "say", lambda *lines: said.extend(lines))
    shell.onecmd("vertices 3")
    assert shell.graph is not None
    os.kill(shell.graph.pid, signal.SIGKILL)
    shell.onecmd("commit")
    assert "signal 9 (SIGKILL)" in said[-1] and shell.graph is None
    shell.onecmd("vertices 2")
    shell.onecmd("commit")
    assert said[-1] == "version 1"
    shell.drop()


def test_help_of_each_word(tmp_path: Path) -> None:
    words = [it for group in GROUPS.values() for it in group.split()]
    status, said = done(tmp_path, *(f"help {it}" for it in words))
    assert status == 0 and len(said) >= 2 * len(words)
    status, listed = done(tmp_path, "help")
    assert status == 0 and len(listed) == len(words) + len(GROUPS)
    assert max(map(len, listed)) < 145
    assert all(":" in (make.__doc__ or "").partition("\n")[0] for make in READY.values())


def test_page() -> None:
    page = (PACKAGE.parent / "docs/SHELL.md").read_text()
    session = re.search(r"```text\n(gsnap> .*?)```", page, re.DOTALL)
    assert session is not None
    parts = session[1].split("gsnap> ")[1:]
    failures, said = done(PACKAGE.parent, *(it.partition("\n")[0] for it in parts))
    assert failures == 1 and "\n".join(said) + "\n" == "".join(it.partition("\n")[2] for it in parts)
    for word in GROUPS["The graph"].split() + GROUPS["Files"].split() + GROUPS["Others"].split() + ["program", "run"]:
        assert re.search(rf"`{word}\b", page), word


def test_a_closed_output(tmp_path: Path) -> None:
    given = os.environ | {"PYTHONPATH": str(PACKAGE)}
    line = f"for i in $(seq 20000); do echo help; done | {sys.executable} -m gsnap | head -1"
    ran = subprocess.run(["sh", "-c", line], cwd=tmp_path, env=given, capture_output=True, text=True, check=False, timeout=60)
    assert ran.stdout == "The graph:\n" and ran.stderr == ""


def test_a_file_on_the_command_line(tmp_path: Path) -> None:
    (tmp_path / "edges.txt").write_text("0 1\n")
    ran = main_does(tmp_path, "status\n", "edges.txt")
    assert ran.stdout.splitlines() == ["version 1: 2 vertices; 0 entries are pending; no ticket is open"] * 2
    assert (ran.returncode, ran.stderr) == (0, "")


def test_the_exit_status_and_no_history(tmp_path: Path) -> None:
    for text, status in (("", 0), ("vertices 2\ncommit", 0), ("vertices 2\nquit\nnothing\n", 0), ("nothing\n", 1)):
        ran = main_does(tmp_path, text)
        assert (ran.returncode, ran.stderr) == (status, ""), text
    assert not (tmp_path / "state").exists()
    ran = main_does(tmp_path, "", "--version")
    assert ran.stdout.startswith("gsnap 0.") and ran.returncode == 0
