"""What a page holds of a recording, as values of JSON: versions, tickets, runs and states, each written as what changed."""
from __future__ import annotations

from collections import Counter
from collections.abc import Mapping, Sequence
from typing import Any

from ..data import version as gsnap_version
from ..listing import Edge, Listing
from ..refusals import row_of
from ..replies import RunReply
from .recording import RecordedRun, Recording, Version
from .statements import initial_numbers, next_statement, pieces_of, statements_of
from .turns import Turns, read_turns

# Up to so many vertices, and edges of all versions together, the graph is drawn.
MOST_DRAWN = 300
MOST_DRAWN_EDGES = 5000

# How many edges of all versions are gone through for components.
MOST_JOINED = 4_000_000

# How many sizes of components are listed on one version.
MOST_SIZES = 50

# A number that is not between these bounds is written as a text, since JavaScript would round it.
EXACT = 1 << 53

Json = dict[str, Any]


def exact(number: int) -> int | str:
    """Returns a number as JavaScript reads it without rounding: a text if it is great."""
    return number if -EXACT < number < EXACT else str(number)


def exact_all(numbers: Sequence[int]) -> list[int | str]:
    """Returns numbers as JavaScript reads them without rounding."""
    if not numbers or (-EXACT < min(numbers) and max(numbers) < EXACT):
        return list(numbers)
    return [exact(it) for it in numbers]


def ranges_of(members: Sequence[int]) -> list[int]:
    """Returns ascending numbers as a first one and a count for each row of neighbours.

    >>> ranges_of([0, 1, 2, 7])
    [0, 3, 7, 1]
    """
    found: list[int] = []
    for it in members:
        if found and found[-2] + found[-1] == it:
            found[-1] += 1
        else:
            found += [it, 1]
    return found


def vector_since(entries: Sequence[int], before: Sequence[int] | None) -> Json:
    """Returns a vector: all its entries, or those that differ from the vector before."""
    if before is not None and len(before) == len(entries):
        at = [v for v, (old, new) in enumerate(zip(before, entries)) if old != new]
        if 2 * len(at) < len(entries):
            return {"at": at, "to": exact_all([entries[v] for v in at])}
    return {"all": exact_all(entries)}


def set_since(members: Sequence[int], before: Sequence[int] | None) -> Json:
    """Returns a set: all its members, or those that came and those that went since the set before."""
    ranges = ranges_of(members)
    if before is not None:
        old, new = set(before), set(members)
        came, went = sorted(new - old), sorted(old - new)
        if len(came) + len(went) < min(len(members), len(ranges)):
            return {"in": came, "out": went}
    return {"ranges": ranges} if len(ranges) < len(members) else {"all": list(members)}


def state_since(reply: RunReply, before: RunReply | None) -> Json:
    """Returns the vectors and sets of a reply, as what changed since another one if that is shorter.

    It has how many lines were printed, too.
    """
    vectors: Mapping[str, Any] = before.vectors if before else {}
    sets: Mapping[str, Any] = before.sets if before else {}
    return {
        "printed": len(reply.printed),
        "vectors": [[name, vector_since(it, vectors.get(name))] for name, it in reply.vectors.items()],
        "sets": [[name, set_since(it, sets.get(name))] for name, it in reply.sets.items()],
    }


def differing(reply: RunReply, before: RunReply | None) -> int | None:
    """Returns how many entries of vectors differ from those of a run before, of the vertices that both have."""
    if before is None:
        return None
    pairs = [zip(it, before.vectors[name]) for name, it in reply.vectors.items() if name in before.vectors]
    return sum(int(new != old) for it in pairs for new, old in it)


def component_sizes(vertices: int, listing: Listing) -> Json:
    """Returns how many components a version has, its edges taken both ways, and how many of them have each size."""
    above = list(range(vertices))
    for u, v in listing.weights:
        while above[u] != u:
            above[u] = u = above[above[u]]
        while above[v] != v:
            above[v] = v = above[above[v]]
        above[max(u, v)] = min(u, v)
    for v in range(vertices):
        above[v] = above[above[v]]
    sizes = Counter(Counter(above).values())
    return {"count": sum(sizes.values()), "sizes": [list(it) for it in sorted(sizes.items(), reverse=True)[:MOST_SIZES]]}


class Contents:
    """The values of a page, made of a recording. `names` has the vertices' names by number."""

    def __init__(self, recording: Recording, title: str, names: Mapping[int, str]) -> None:
        self.recording = recording
        self.title = title
        self.names = names
        self.newest = recording.versions[-1]
        self._states: dict[tuple[int, int], list[Json]] = {}
        self._last: dict[int, RunReply] = {}
        self._turns: dict[tuple[int, int], Turns] = {}

    def values(self) -> Json:
        """Returns all values."""
        drawn, why = self._drawn()
        for it in read_turns(self.recording, self._take_state):
            self._turns[it.run.program, it.run.version] = it
        return {
            "title": self.title,
            "gsnap": gsnap_version(),
            "names": self._names(),
            "drawn": drawn,
            "whyNotDrawn": why,
            "programs": [self._program(it.name, it.text) for it in self.recording.programs],
            "versions": self._versions(drawn),
            "tickets": [vars(it) for it in self.recording.tickets],
            "runs": self._runs(),
            "asked": [self._asked(it) for it in self.recording.runs if it.line],
            "refused": [self._refusal(it.line, it.text, it.number) for it in self.recording.refusals],
            "notes": self.recording.notes,
        }

    def _names(self) -> list[str] | None:
        """Returns a name for each vertex, or None if none has a name."""
        return [self.names.get(v, str(v)) for v in range(self.newest.vertices)] if self.names else None

    def _drawn(self) -> tuple[bool, str]:
        """Says whether the graph is drawn, and if not, why."""
        if self.newest.vertices > MOST_DRAWN:
            return False, f"The graph has {self.newest.vertices:,} vertices. Up to {MOST_DRAWN} are drawn."
        edges: set[Edge] = set()
        for it in self.recording.versions:
            if it.edges is None:
                return False, "The edges of the versions were not listed."
            edges.update(it.edges.weights)
        if len(edges) > MOST_DRAWN_EDGES:
            return False, f"The versions have {len(edges):,} edges. Up to {MOST_DRAWN_EDGES:,} are drawn."
        return True, ""

    def _program(self, name: str, text: str) -> Json:
        stem = name.replace("\\", "/").rpartition("/")[2].removesuffix(".program")
        initial = {vector: exact(number) for vector, number in initial_numbers(text).items()}
        return {"name": stem, "pieces": pieces_of(text), "initial": [list(it) for it in initial.items()]}

    # Versions

    def _versions(self, drawn: bool) -> list[Json]:
        found, before = [], Version(-1, 0, 0, Listing())
        joined = 0
        for it in self.recording.versions:
            joined += len(it.edges or ())
            values: Json = {"number": it.number, "vertices": it.vertices, "line": it.line, "edges": None, "components": None}
            if it.edges is not None:
                values["edges"] = len(it.edges)
                values["components"] = component_sizes(it.vertices, it.edges) if joined <= MOST_JOINED else None
                values.update(self._changes(it.edges, before.edges, drawn))
            found.append(values)
            before = it
        if joined > MOST_JOINED:
            self.recording.notes.append(f"Components were counted on the first {MOST_JOINED:,} edges of all versions alone.")
        return found

    @staticmethod
    def _changes(edges: Listing, before: Listing | None, drawn: bool) -> Json:
        """Returns how many edges came, went and changed since the version before, and, if they are drawn, which."""
        if before is None:
            return {}
        changes = edges.changes_since(before)
        counts: Json = {name: len(it) for name, it in changes._asdict().items()}
        if drawn:
            added = [[u, v, exact(edges.weights[u, v])] for u, v in changes.added]
            reweighted = [[u, v, exact(edges.weights[u, v])] for u, v in changes.reweighted]
            counts["changes"] = {"added": added, "removed": [list(it) for it in changes.removed], "reweighted": reweighted}
        return counts

    # Runs

    def _take_state(self, run: RecordedRun, bound: int, reply: RunReply) -> None:
        """Notes the state of a run at a turn, as what changed since the turn before."""
        states = self._states.setdefault((run.program, run.version), [])
        states.append(state_since(reply, self._last.get(run.program) if bound else None))
        self._last[run.program] = reply

    def _runs(self) -> list[Json]:
        found: list[Json] = []
        before: RecordedRun | None = None
        for it in self.recording.main_runs():
            former = before.reply if before is not None and before.program == it.program else None
            found.append(self._run(it, former))
            before = it
        return found

    def _run(self, run: RecordedRun, former: RunReply | None) -> Json:
        """Returns a run; its vectors and sets are what changed since the program's run on an earlier version, if there is one."""
        turns = self._turns.get((run.program, run.version))
        return {
            **self._asked(run),
            "lines": run.reply.printed,
            "differ": differing(run.reply, former),
            "isFirst": former is None,
            "state": state_since(run.reply, former),
            "states": None if turns is None else self._states.get((run.program, run.version), []),
            "next": [] if turns is None else self._next(run, turns),
        }

    def _next(self, run: RecordedRun, turns: Turns) -> list[int]:
        """Returns the number of the statement that comes next at each turn, where there is one."""
        statements = statements_of(self.recording.programs[run.program - 1].text)
        return [next_statement(statements, loop) for loop in turns.loops]

    @staticmethod
    def _asked(run: RecordedRun) -> Json:
        return {
            "program": run.program,
            "version": run.version,
            "bound": exact(run.bound),
            "workers": run.workers,
            "line": run.line,
            "end": run.reply.end,
            "turns": run.reply.turns,
            "statement": run.reply.statement,
        }

    @staticmethod
    def _refusal(line: int, text: str, number: int) -> Json:
        row = row_of(number)
        return {"line": line, "text": text, "number": number, "means": row.means if row else "", "cure": row.cure if row else ""}
