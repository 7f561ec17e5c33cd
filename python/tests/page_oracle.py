"""What a page has to show: gsnap's replies, on each version by its own ticket; and what a page holds, as Python reads it."""
from __future__ import annotations

import functools
import json
import re
import subprocess
import tempfile
from pathlib import Path

from gsnap import data
from gsnap.replies import Listed, RunReply, parse

EDITS = ("vertices", "add", "del", "grow", "commit")
BOUND = 1_000_000


def replies(lines: list[str], programs: list[str]) -> list[object]:
    """Returns the replies to a script with programs, given by their texts."""
    with tempfile.TemporaryDirectory() as folder:
        script = Path(folder, "script")
        script.write_text("".join(f"{line}\n" for line in lines))
        paths = []
        for number, text in enumerate(programs):
            paths.append(Path(folder, f"{number}.program"))
            paths[-1].write_text(text)
        ran = subprocess.run([data.program(), "script", script, *paths], capture_output=True, check=False)
    assert ran.returncode in (0, 3), ran.stderr
    return list(parse(ran.stdout.splitlines(keepends=True)))


class Oracle:
    """The replies to a script's versions: `edges[k]` has the weights of version k, `run(p, k)` the answer of program p on it, and
    `state(p, k, turn)` what the bound `turn` answers."""

    def __init__(self, script: str, programs: list[str]) -> None:
        self.programs = programs
        self.lines: list[str] = []
        self.versions = 0
        for line in script.splitlines():
            if line.split(" ")[0] in EDITS:
                self.lines.append(line)
                if line.startswith(("vertices", "commit")):
                    self.lines.append("hold")
                    self.versions += 1
        found = replies([*self.lines, *(f"edges {ticket}" for ticket in range(1, self.versions + 1))], [])
        self.edges = [dict(zip(it.edges, it.weights)) for it in found if isinstance(it, Listed)]
        assert len(self.edges) == self.versions
        self._states: dict[tuple[int, int, int], RunReply] = {}
        self.read([(program, version, BOUND) for program in range(1, len(programs) + 1) for version in range(self.versions)])

    def read(self, wanted: list[tuple[int, int, int]]) -> None:
        """Asks for the states of a program, a version and a bound each."""
        missing = [it for it in wanted if it not in self._states]
        asked = [f"run {program} {bound} 1 {version + 1}" for program, version, bound in missing]
        found = [it for it in replies([*self.lines, *asked], self.programs) if isinstance(it, RunReply)]
        self._states.update(zip(missing, found))

    def run(self, program: int, version: int) -> RunReply:
        return self._states[program, version, BOUND]

    def state(self, program: int, version: int, turn: int) -> RunReply:
        if turn >= self.run(program, version).turns:
            return self.run(program, version)
        self.read([(program, version, it) for it in range(self.run(program, version).turns)])
        return self._states[program, version, turn]

    @functools.cache
    def entries(self, program: int, name: str) -> set[int]:
        """Returns each entry that a vector has in some version and turn."""
        places = [(version, turn) for version in range(self.versions) for turn in range(self.run(program, version).turns + 1)]
        self.read([(program, version, turn) for version, turn in places if turn < self.run(program, version).turns])
        return {it for version, turn in places for it in self.state(program, version, turn).vectors[name]}

    def vertices(self, version: int) -> int:
        """Returns how many vertices a version has, by a vector of a run on it."""
        return len(next(iter(self.run(1, version).vectors.values())))


def values_of(html: str) -> dict[str, object]:
    """Returns the values that a page holds."""
    found = re.findall(r'<script type="application/json" id="data">(.*?)</script>', html, re.DOTALL)
    assert len(found) == 1
    values: dict[str, object] = json.loads(found[0])
    return values


def vector(encoded: dict, before: list[int] | None) -> list[int]:
    if "all" in encoded:
        return [int(it) for it in encoded["all"]]
    assert before is not None
    entries = list(before)
    for at, to in zip(encoded["at"], encoded["to"], strict=True):
        entries[at] = int(to)
    return entries


def members(encoded: dict, before: list[int] | None) -> list[int]:
    if "all" in encoded:
        return list(encoded["all"])
    if "ranges" in encoded:
        pairs = zip(encoded["ranges"][::2], encoded["ranges"][1::2], strict=True)
        return [it for first, count in pairs for it in range(first, first + count)]
    assert before is not None
    return sorted(set(before) - set(encoded["out"]) | set(encoded["in"]))


def state(encoded: dict, before: dict | None) -> dict:
    """Returns the vectors and sets of a state, by name, made from what changed since another state."""
    old = before or {"vectors": {}, "sets": {}}
    return {
        "printed": encoded["printed"],
        "vectors": {name: vector(it, old["vectors"].get(name)) for name, it in encoded["vectors"]},
        "sets": {name: members(it, old["sets"].get(name)) for name, it in encoded["sets"]},
    }


def states(values: dict) -> dict[tuple[int, int], list[dict]]:
    """Returns the states of each run at each turn, by program and version, the end last; without turns there is the end alone."""
    found: dict[tuple[int, int], list[dict]] = {}
    before: dict | None = None
    for run in values["runs"]:
        end = before = state(run["state"], None if run["isFirst"] else before)
        row: list[dict] = []
        for it in run["states"] or []:
            row.append(state(it, row[-1] if row else None))
        found[run["program"], run["version"]] = [*row, end]
    return found


def edges(values: dict) -> list[dict[tuple[int, int], int]]:
    """Returns the edges of each version with their weights."""
    now: dict[tuple[int, int], int] = {}
    found = []
    for version in values["versions"]:
        for u, v in version["changes"]["removed"]:
            del now[u, v]
        for u, v, weight in [*version["changes"]["added"], *version["changes"]["reweighted"]]:
            now[u, v] = int(weight)
        found.append(dict(now))
    return found
