"""The page of versions and turns: what its maker holds of a script is what gsnap replies."""
from __future__ import annotations

import random
import subprocess
import sys
from pathlib import Path

import page_oracle
import pytest
from page_oracle import Oracle, values_of

import gsnap
from gsnap import data
from gsnap.page import HERE, SCRIPTS, contents, make_page, recording, turns
from gsnap.page.recording import record
from gsnap.page.statements import marked, next_statement, pieces_of, statements_of
from gsnap.page.turns import read_turns

ROOT = Path(__file__).resolve().parents[2]
COOKBOOK = sorted([*ROOT.glob("examples/cookbook/*.program"), *ROOT.glob("examples/*.program")])
HEAD = "element Vertex end\nelement Edge end\nconst edges : edgeset{Edge}(Vertex, Vertex) = load(argv[1]);\n"
COMPONENTS = data.text_of("components.program")
DISTANCES = data.text_of("distances.program")
SHORTEST = data.text_of("shortest.program")


def values(script: str, *programs: str, names: dict[int, str] | None = None) -> dict:
    """Returns the values of the page of a script and of programs, given by their texts."""
    page = make_page(script.encode(), [gsnap.Program(it) for it in programs], "test", names or {})
    return values_of(page.html)


def random_script(seed: int) -> str:
    """Returns a script of a few versions with edges that come, go and get other weights, tickets and growth."""
    chance = random.Random(seed)
    size = chance.randint(3, 12)
    lines, tickets = [f"vertices {size}"], 0
    for _ in range(chance.randint(1, 7)):
        for _ in range(chance.randint(0, 12)):
            u, v = chance.randrange(size), chance.randrange(size)
            lines.append(chance.choice([f"add {u} {v}", f"add {u} {v} {chance.choice([1, 2, 9, 2**62, -5])}", f"del {u} {v}"]))
        if chance.random() < 0.2:
            size += 2
            lines.append(f"grow {size}")
        lines.append("commit")
        if chance.random() < 0.4:
            tickets += 1
            lines += ["hold", f"run 1 50 2 {tickets}"]
    return "".join(f"{line}\n" for line in lines)


@pytest.mark.parametrize("seed", range(8))
def test_states_and_edges_are_the_replies(seed: int) -> None:
    script, programs = random_script(seed), [COMPONENTS, DISTANCES, data.text_of("widest.program")]
    found, oracle = values(script, *programs), Oracle(script, programs)
    assert page_oracle.edges(found) == oracle.edges
    assert [it["edges"] for it in found["versions"]] == [len(it) for it in oracle.edges]
    rows = page_oracle.states(found)
    assert sorted(rows) == [(program, version) for program in (1, 2, 3) for version in range(oracle.versions)]
    for (program, version), row in rows.items():
        assert len(row) == oracle.run(program, version).turns + 1
        for turn, state in enumerate(row):
            wanted = oracle.state(program, version, turn)
            assert state == {"printed": len(wanted.printed), "vectors": wanted.vectors, "sets": wanted.sets}, (
                program,
                version,
                turn,
            )


def test_counts_of_a_run() -> None:
    script = "vertices 4\nadd 0 1\nadd 1 0\ncommit\nadd 1 2\nadd 2 1\ncommit\nrun 1 100 1\n"
    found = values(script, COMPONENTS)
    assert [(it["version"], it["line"], it["lines"], it["differ"]) for it in found["runs"]] == [
        (0, 0, ["4"], None),
        (1, 0, ["3"], 1),
        (2, 8, ["2"], 1),
    ]
    assert [it["components"]["count"] for it in found["versions"]] == [4, 3, 2]
    assert found["versions"][2]["components"]["sizes"] == [[3, 1], [1, 1]]


def test_tickets_and_refusals() -> None:
    script = (
        "vertices 3\nhold\nadd 0 1\ncommit\nhold\nadd 0 9\ncommit\nadd 0  2\nrelease 7\nadd 1 2\ncommit\nrelease 1\nrun 2 1 1\n"
    )
    found = values(script, DISTANCES)
    assert found["tickets"] == [
        {"ticket": 1, "version": 0, "first": 0, "last": 2},
        {"ticket": 2, "version": 1, "first": 1, "last": None},
    ]
    assert [(it["line"], it["number"]) for it in found["refused"]] == [(7, 111), (8, 801), (9, 122), (13, 412)]
    assert [it["line"] for it in found["versions"]] == [1, 4, 11]


def test_each_run_of_the_script_is_listed() -> None:
    found = values("vertices 2\nadd 0 1\ncommit\nhold\nrun 1 1 1\nrun 1 9 4 1\nrun 1 9 1\n", DISTANCES)
    assert [(it["line"], it["bound"], it["workers"], it["end"]) for it in found["asked"]] == [
        (5, 1, 1, "turns-over"),
        (6, 9, 4, "finished"),
        (7, 9, 1, "finished"),
    ]
    assert [(it["version"], it["bound"]) for it in found["runs"]] == [(0, 9), (1, 9)]


def test_great_numbers_are_exact() -> None:
    script = f"vertices 3\nadd 0 1 {2**62 + 1}\nadd 1 2 {-(2**63)}\ncommit\n"
    program = SHORTEST.replace("= 1000000000;", "= 9223372036854775807;")
    found, oracle = values(script, program), Oracle(script, [program])
    assert found["versions"][1]["changes"]["added"] == [[0, 1, str(2**62 + 1)], [1, 2, str(-(2**63))]]
    assert found["programs"][0]["initial"] == [["distance", str(2**63 - 1)]]
    assert page_oracle.states(found)[1, 1][-1]["vectors"] == oracle.run(1, 1).vectors


LOOPS = (
    HEAD
    + """const x : vector{Vertex}(int) = 0;
func main()
  for i in 0:2
    print i;
    var j : int = 0;
    while j < i  // a comment with end and while
      j += 1;
    end
    if i == 1 for k in 0:1 end else #last# print 7; end
  end
  while false end
  var t : int = 1;
  while t < 3 #grow# t += 1; print x[0]; end
end
"""
)


def test_the_next_statement() -> None:
    statements = statements_of(LOOPS)
    words = [LOOPS[it.start : it.end] for it in statements]
    assert words[0] == "for i in 0:2" and words[3] == "while j < i" and words[5] == "if i == 1" and words[7] == "#last# print 7;"
    run = values("vertices 1\n", LOOPS)["runs"][0]
    assert (run["turns"], run["end"]) == (6, "finished")
    assert [words[it - 1] for it in run["next"]] == [
        "print i;",
        "print i;",
        "j += 1;",
        "for k in 0:1",
        "#grow# t += 1;",
        "#grow# t += 1;",
    ]


def test_the_next_statement_of_a_run_that_its_bound_ended() -> None:
    run = values("vertices 1\nrun 1 2 1\n", LOOPS)["runs"][0]
    assert (run["turns"], run["end"], len(run["next"])) == (2, "turns-over", 3)
    run = values(
        "vertices 1\n", HEAD + "const x : vector{Vertex}(int) = 0;\nfunc main() var i : int = 9; while true x[i] = 1; end end\n"
    )["runs"][0]
    assert (run["turns"], run["end"], run["statement"], run["next"]) == (1, "fault", 3, [3])


@pytest.mark.parametrize("path", COOKBOOK, ids=lambda it: it.stem)
def test_the_marked_text_is_the_same_program(path: Path) -> None:
    text = path.read_text()
    script = "vertices 5\nadd 0 1\nadd 1 0\nadd 1 2\nadd 2 1\nadd 2 3 4\nadd 4 0\ncommit\n"
    plain, with_marks = (page_oracle.replies([*script.splitlines(), "run 1 1000 1"], [it])[-1] for it in (text, marked(text)))
    assert (plain.vectors, plain.sets, plain.end, plain.turns) == (
        with_marks.vectors,
        with_marks.sets,
        with_marks.end,
        with_marks.turns,
    )
    assert len([it for it in turns.loops_entered(with_marks.printed) if it]) == plain.turns
    assert "".join(piece for piece, _ in pieces_of(text)) == text


def test_the_next_statement_of_an_empty_body_is_its_loop() -> None:
    text = HEAD + "func main() while false end end\n"
    assert next_statement(statements_of(text), 1) == 1


def test_no_text_ends_the_data() -> None:
    names = {0: "</script><script>alert(1)</script>", 1: "<!--", 2: "\u2028 & \" ' \\ \ud800"}
    script = "vertices 3\nadd 0 1\ncommit\n</script>\n"
    program = DISTANCES.replace("// Finds", "// </script><b> <!-- é \U0001f600")
    found = values(script, program, names=names)
    assert found["names"] == [names[0], names[1], names[2]]
    assert found["refused"][0]["text"] == "</script>"
    assert "".join(piece for piece, _ in found["programs"][0]["pieces"]) == program


def test_the_page_has_one_way_for_texts() -> None:
    code = "".join((HERE / name).read_text() for name in SCRIPTS)
    assert code.count("textContent = ") == 1
    for word in (
        "innerHTML",
        "outerHTML",
        "insertAdjacent",
        "document.write",
        "eval(",
        "Function(",
        "import(",
        "fetch(",
        "http:",
        "https:",
    ):
        assert word not in code.replace("http://www.w3.org/2000/svg", ""), word


def test_the_page_is_small_beside_its_data() -> None:
    assert len(make_page(b"vertices 1\n", [], "test", {}).html) < 200_000


def test_limits_are_said(monkeypatch: pytest.MonkeyPatch) -> None:
    script = "vertices 4\nadd 0 1\ncommit\nadd 1 2\ncommit\nrun 1 9 1\n"
    monkeypatch.setattr(turns, "MOST_TURN_ENTRIES", 15)
    found = values(script, DISTANCES)
    assert [it["states"] is None for it in found["runs"]] == [True, True, False]
    assert "The turns of 2 runs were left out" in found["notes"][0]
    monkeypatch.setattr(turns, "MOST_TURN_ENTRIES", 10_000)
    monkeypatch.setattr(turns, "MOST_TURNS_RUN", 3)
    assert [it["states"] is None for it in values(script, DISTANCES)["runs"]] == [True, False, True]
    monkeypatch.setattr(turns, "MOST_TURNS_RUN", 10_000)
    monkeypatch.setattr(recording, "MOST_ADDED_ENTRIES", 5)
    found = values(script, DISTANCES)
    assert [it["version"] for it in found["runs"]] == [1, 2] and found["notes"][0].startswith("1 runs that the script does not")
    monkeypatch.setattr(recording, "MOST_LISTED", 2)
    found = values(script, DISTANCES)
    assert [it["edges"] for it in found["versions"]] == [None, None, 2] and not found["drawn"]
    assert "edges of the newest version are counted alone" in "".join(found["notes"])


def test_a_run_of_a_million_turns_has_no_states() -> None:
    run = values("vertices 1\n", HEAD + "func main() while true end end\n")["runs"][0]
    assert (run["turns"], run["states"]) == (1_000_000, None)


def test_more_than_300_vertices_are_not_drawn() -> None:
    assert values("vertices 300\n")["drawn"]
    found = values("vertices 301\nadd 0 300\ncommit\n")
    assert not found["drawn"] and found["whyNotDrawn"] == "The graph has 301 vertices. Up to 300 are drawn."
    assert found["versions"][1]["added"] == 1 and "changes" not in found["versions"][1]


def test_too_many_edges_are_not_drawn(monkeypatch: pytest.MonkeyPatch) -> None:
    monkeypatch.setattr(contents, "MOST_DRAWN_EDGES", 1)
    assert not values("vertices 3\nadd 0 1\ncommit\ndel 0 1\nadd 1 2\ncommit\n")["drawn"]


def test_a_wrong_state_is_no_page(monkeypatch: pytest.MonkeyPatch) -> None:
    found = record(b"vertices 3\nadd 0 1\ncommit\n", [gsnap.Program(DISTANCES)])
    found.main_runs()[1].reply.turns = 5
    with pytest.raises(gsnap.Mistake, match="with 2 turns was answered by"):
        read_turns(found, lambda run, bound, reply: None)


def test_a_script_that_opens_no_graph() -> None:
    with pytest.raises(gsnap.Mistake, match="opens no graph"):
        make_page(b"vertices 0\ncommit\n", [], "test", {})


def test_the_page_of_a_graph(tmp_path: Path) -> None:
    with gsnap.Graph(names=True) as graph:
        graph.add_edges_from([("ann", "bob"), ("bob", "<eve>")])
        graph.commit()
        graph.remove_edge("ann", "bob")
        graph.commit()
        graph.add_edge("zed", "ann")
        page = graph.page(gsnap.distances("ann"), gsnap.components(), out=tmp_path / "graph.html")
        assert graph.pending == 1 and graph.version == 2
    found = values_of(page.html)
    assert (tmp_path / "graph.html").read_text() == page.html
    assert found["names"] == ["ann", "bob", "<eve>"]
    assert [it["vertices"] for it in found["versions"]] == [1, 3, 3]
    assert page_oracle.states(found)[1, 1][-1]["vectors"] == {"distance": [0, 1, 2]}
    assert repr(page).startswith("<gsnap.Page: 3 versions, 6 runs, ")
    assert page._repr_html_().startswith('<iframe srcdoc="&lt;!DOCTYPE html&gt;')


def command(folder: Path, *words: str, given: bytes = b"") -> tuple[int, str, str]:
    """Runs the command in a folder, and returns its status and both streams."""
    ran = subprocess.run(
        [sys.executable, "-B", "-m", "gsnap", "page", *words], cwd=folder, input=given, capture_output=True, check=False,
        env={"PYTHONPATH": str(ROOT / "python"), "PATH": "/usr/bin:/bin", "GSNAP": str(data.program())},
    )  # fmt: skip
    return ran.returncode, ran.stdout.decode(), ran.stderr.decode()


def test_the_command(tmp_path: Path) -> None:
    (tmp_path / "news.script").write_text("vertices 2\nadd 0 1\ncommit\n")
    (tmp_path / "names").write_text("0 ann\n1 bob\n")
    status, said, wrong = command(tmp_path, "news.script", str(ROOT / "examples/distances.program"), "--names", "names")
    assert (status, wrong) == (0, "") and said.startswith("news.html: 2 versions, 2 runs, 5 states of turns, ")
    found = values_of((tmp_path / "news.html").read_text())
    assert (found["title"], found["names"], found["programs"][0]["name"]) == ("news.script", ["ann", "bob"], "distances")
    status, said, wrong = command(tmp_path, "-", "--out", "other.html", given=b"vertices 1\n")
    assert status == 0 and values_of((tmp_path / "other.html").read_text())["title"] == "standard input"


def test_the_command_refuses_and_leaves_what_was_there(tmp_path: Path) -> None:
    (tmp_path / "a.script").write_text("vertices 2\n")
    (tmp_path / "empty.script").write_text("")
    (tmp_path / "wrong.program").write_text("func main() end\n")
    (tmp_path / "bytes.program").write_bytes(b"\xff\n")
    (tmp_path / "wrong.names").write_text("ann\n")
    (tmp_path / "a.html").write_text("old")
    cases = [
        (["none.script"], 2, "page: none.script: No such file or directory"),
        (["a.script", "none.program"], 2, "page: none.program: No such file or directory"),
        (["a.script", "wrong.program"], 1, "page:  --> wrong.program:1:1"),
        (["a.script", "bytes.program"], 1, "page: a program is no text in UTF-8"),
        (["a.script", "--names", "wrong.names"], 1, "page: wrong.names:1: 'ann' is no number and a name"),
        (["empty.script", "--out", "a.html"], 1, "page: the script opens no graph"),
        (["a.script", "--out", "none/a.html"], 2, "page: none"),
        ([], 2, "usage: python3 -m gsnap page"),
    ]
    for words, wanted, text in cases:
        status, said, wrong = command(tmp_path, *words)
        assert (status, said) == (wanted, "") and wrong.startswith(text), (words, wrong)
    assert (tmp_path / "a.html").read_text() == "old"
    assert not list(tmp_path.glob(".*"))
