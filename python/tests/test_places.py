"""The table of refusals, and places in programs."""
from __future__ import annotations

import re
import subprocess
from pathlib import Path

import pytest

from gsnap import places, refusals

CLONE = Path(__file__).resolve().parents[2]
REFUSED = CLONE / "examples/refused"
HEAD = "element Vertex end\nelement Edge end\nconst x : vector{Vertex}(int) = 0;\n"


def test_rows() -> None:
    page = (CLONE / "docs/REFUSALS.md").read_text()
    numbers = {int(it) for it in re.findall(r"(?m)^\| ([0-9]+) \|", page)}
    assert len(numbers) > 35 and set(refusals.rows()) == numbers
    for number, row in refusals.rows().items():
        assert row.number == number and row.means, number
        assert row.cure, number
    assert refusals.row_of(103) == (103, "the chunk size is not a power of two from 1 to 256", "leave it out, or write 64")
    assert refusals.row_of(401) is None


@pytest.mark.parametrize(
    ("text", "offset", "place", "line", "caret"),
    [
        ("ab\ncd", 4, "t:2:2", "2 | cd", "  |  ^"),
        ("\tab\r\n", 1, "t:1:2", "1 |  ab", "  |  ^"),
        ("ä ö\n", 3, "t:1:3", "1 | ä ö", "  |   ^"),
        ("a\n", 2, "t:2:1", "2 | ", "  | ^"),
        (b"\xff!", 1, "t:1:2", "1 | \ufffd!", "  |  ^"),
        ("\n" * 9 + "b", 9, "t:10:1", "10 | b", "   | ^"),
    ],
)
def test_shown(text: str | bytes, offset: int, place: str, line: str, caret: str) -> None:
    lines = places.shown("t", text, offset)
    assert lines[0].strip() == f"--> {place}" and lines[2:] == [line, caret]
    assert len({it.index("|") for it in lines[1:]}) == 1


def refusals_of_examples() -> list[tuple[str, int, int, str]]:
    """Returns for each refused example its name, the number, the offset, and the lines of `examples/explain`."""
    told = (REFUSED / "programs.told").read_text()
    found = re.findall(r"(?m)^refused/(.*): refused ([0-9]+) at ([0-9]+)\n((?: *-->| +\||[0-9]+ \|| = ).*(?:\n(?: |[0-9]+ \|).*)*)", told)
    return [(name, int(number), int(offset), text) for name, number, offset, text in found]


def test_refusals_of_examples() -> None:
    assert len(refusals_of_examples()) > 12
    for name, number, offset, text in refusals_of_examples():
        told = [it.removeprefix(" = ").removeprefix(f"{number}: ") for it in text.split("\n") if it.startswith(" = ")]
        said = places.refusal_text(f"refused/{name}", (REFUSED / name).read_bytes(), number, offset, told)
        assert said == text, name


def test_causes_of_examples() -> None:
    causes = {name: places.cause((REFUSED / name).read_bytes(), offset) for name, number, offset, _ in refusals_of_examples() if number == 211}
    words = {
        "braces": "no braces",
        "comment": "begins with `//`",
        "elif": "no `elif`",
        "expression": "no part of an expression",
        "fraction": "no fractions",
        "lost_set": "has to go somewhere",
        "minus_equals": "no such statement",
        "missing_end": "the text ends here",
        "one_bound": "two bounds",
        "script_as_program": "this is a script",
        "semicolon": "a `;` may be missing",
        "text": "there are no texts",
        "to_from": "`from` comes before `to`",
    }
    assert set(causes) == {f"{it}.program" for it in words}
    for name, has in words.items():
        assert has in (causes[f"{name}.program"] or ""), name


@pytest.mark.parametrize(
    ("reply", "says"),
    [
        ("-: refused 211 at 0", "211: the token at K is unexpected"),
        ("-: refused 211 at 0\n --> -:1:1\n = a cause", "a cause"),
        ("missing: refused 211 at 0", "missing: No such file"),
        ("missing: refused 211 at 0\n --> missing:1:1\n = a cause", "a cause"),
        ("program: refused 211 at 0", "211: the token at K is unexpected"),
        ("program: refused 211 at 0\n --> program:1:1\n = a cause\n = a cure", "211: a cause"),
        ("refused 103", "103: the chunk size"),
        ("version 1", ""),
    ],
)
def test_explain(tmp_path: Path, reply: str, says: str) -> None:
    (tmp_path / "program").write_text("\n")
    lines = f"{reply}\nversion 2\n"
    done = subprocess.run([CLONE / "examples/explain"], input=lines, cwd=tmp_path, capture_output=True, text=True, check=False)
    first, *more, last = done.stdout.splitlines()
    assert (done.returncode, done.stderr, first, last) == (0, "", reply.split("\n")[0], "version 2")
    meant = [it for it in more if it.startswith(" = ")]
    assert meant[0].startswith(f" = {says}") if says else not more


def test_cause_is_for_211_alone() -> None:
    text = HEAD + "func main() {"
    assert "braces" in places.refusal_text("p", text, 211, len(text) - 1)
    assert "braces" not in places.refusal_text("p", text, 221, len(text) - 1)


def test_statement_of_a_fault() -> None:
    index = (REFUSED / "faults/index.program").read_bytes()
    told = (REFUSED / "faults/index.told").read_text()
    statement = int(re.search(r"statement ([0-9]+)", told)[1])  # type: ignore[index]
    assert places.statement_text("refused/faults/index.program", index, statement) + "\n" in told
    assert places.statement_text("p", index, 0) == places.statement_text("p", index, 99) == ""


def test_statements_are_numbered_as_in_runs() -> None:
    text = HEAD + "func main()\n  var a : int = 1;\n  #l# x[0] = 2;\n  if a == 1 x[1] = 3; else x[2] = 4; end\n  print a;\nend\n"
    wanted = ["var a", "x[0]", "if a", "x[1]", "x[2]", "print"]
    offsets = list(places.statements(text))
    assert len(offsets) == len(wanted)
    for offset, begin in zip(offsets, wanted):
        assert text[offset:].replace("#l# ", "").startswith(begin), begin
