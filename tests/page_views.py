"""What a page has to show of a version, a program and a turn, by the replies of gsnap, beside what it shows."""
import functools
import re
from collections import Counter

# The entry that each vector of the programs of the test begins with, and the statement that comes first in their loops.
INITIAL = {"distance": -1, "label": 0, "steps": -1}


def counted(number, one, more=None):
    return f"{number:,} {one if number == 1 else more or one + 's'}"


def component_sizes(vertices, edges):
    """Returns the sizes of the components, edges taken both ways."""
    near = {v: set() for v in range(vertices)}
    for u, v in edges:
        near[u].add(v)
        near[v].add(u)
    sizes, seen = Counter(), set()
    for start in near:
        if start in seen:
            continue
        reached, rest = {start}, [start]
        while rest:
            for v in near[rest.pop()] - reached:
                reached.add(v)
                rest.append(v)
        seen |= reached
        sizes[len(reached)] += 1
    return sizes


@functools.cache
def series(oracle):
    """Returns each count of an oracle's versions, by version."""
    versions = range(oracle.versions)
    found = {
        "edges": [len(it) for it in oracle.edges],
        "vertices": [oracle.vertices(it) for it in versions],
        "components": [sum(component_sizes(oracle.vertices(it), oracle.edges[it]).values()) for it in versions],
    }
    for program, name in enumerate(oracle.names, 1):
        runs = [oracle.run(program, it) for it in versions]
        if any(it.printed for it in runs):
            found[f"{name}: last number printed"] = [int(it.printed[-1]) for it in runs]
        found[f"{name}: turns"] = [it.turns for it in runs]
        found[f"{name}: entries that differ"] = [None, *map(differing, runs, runs[1:])]
        for it in runs[-1].sets:
            found[f"{name}: size of {it}"] = [len(run.sets[it]) for run in runs]
    return found


def differing(former, run):
    """Returns how many entries of vectors differ between two runs."""
    return sum(old != new for it in run.vectors for old, new in zip(former.vectors[it], run.vectors[it]))


class View:
    """A version, a program and a turn of a page, by an oracle. `names` has the vertices' names, or is None."""

    def __init__(self, oracle, version, program, turn, names=None, loop=None):
        self.oracle, self.version, self.program, self.names, self.loop = oracle, version, program, names, loop
        self.run = oracle.run(program, version)
        self.turn = min(turn, self.run.turns)
        self.state = oracle.state(program, version, self.turn)
        self.now = oracle.edges[version]
        self.before = oracle.edges[version - 1] if version else {}
        self.count = oracle.vertices(version)
        self.by = next(iter(self.run.vectors))
        self.entries = self.state.vectors[self.by]

    def name(self, vertex):
        return self.names[vertex] if self.names else str(vertex)

    def differences(self, shown):
        """Returns what the page shows in another way than the replies have it."""
        wanted = {
            "version": str(self.version),
            "slider": [str(self.version), str(self.oracle.versions - 1)],
            "turn": [str(self.turn), str(self.run.turns), f"turn {self.turn} of {self.run.turns}", self.run.turns == 0],
            "printed": "\n".join(self.state.printed) or "nothing",
            "greatest": self.greatest(),
            "commonest": self.commonest(),
            "components": self.components(),
            "histogram": self.histogram(),
            "rows": self.rows(),
        }
        found = [f"{name}: shown {shown[name]!r}, wanted {it!r}" for name, it in wanted.items() if shown[name] != it]
        found += [*self.wrong_facts(shown), *self.wrong_charts(shown), *self.wrong_next(shown)]
        return [*found, *(self.wrong_edges(shown) + self.wrong_vertices(shown) if shown["vertices"] else [])]

    def rows(self):
        sets = [set(it) for it in self.state.sets.values()]
        head = ["vertex", *self.state.vectors, *self.state.sets]
        rows = [
            [self.name(v), *(str(it[v]) for it in self.state.vectors.values()), *("yes" if v in it else "no" for it in sets)]
            for v in range(min(100, self.count))
        ]
        return [head, *rows]

    def greatest(self):
        order = sorted(range(self.count), key=lambda v: (-self.entries[v], v))
        return [[self.name(v), str(self.entries[v])] for v in order[:10]]

    def commonest(self):
        counts = sorted(Counter(self.entries).items(), key=lambda it: (-it[1], it[0]))
        return [[str(entry), f"{count:,}"] for entry, count in counts[:10]]

    def components(self):
        sizes = sorted(component_sizes(self.count, self.now).items(), reverse=True)
        return [[f"{size:,}", f"{count:,}"] for size, count in sizes[:10]]

    def histogram(self):
        counts = Counter(self.entries)
        assert len(counts) <= 24
        return [[str(entry), str(count)] for entry, count in sorted(counts.items())]

    def wrong_facts(self, shown):
        added, removed = self.now.keys() - self.before.keys(), self.before.keys() - self.now.keys()
        other = [it for it in self.now.keys() & self.before.keys() if self.now[it] != self.before[it]]
        words = [counted(self.count, "vertex", "vertices"), counted(len(self.now), "edge")]
        words += [
            f"{len(it):,} {name}" for it, name in ((added, "added"), (removed, "removed"), (other, "with another weight")) if it
        ]
        words.append(counted(sum(component_sizes(self.count, self.now).values()), "component"))
        ended = {"finished": "it finished after", "turns-over": "it ended by its bound after"}[self.run.end]
        end = f"On version {self.version} {ended} {counted(self.run.turns, 'turn')}"
        return [
            f"{name}: {shown[name]!r} does not have {it!r}"
            for name, it in (("facts", ", ".join(words)), ("run", end))
            if it not in shown[name]
        ]

    def wrong_next(self, shown):
        wanted = [self.loop] if self.loop and self.turn < self.run.turns else []
        return [] if self.loop is None or shown["mark"] == wanted else [f"mark: shown {shown['mark']!r}, wanted {wanted!r}"]

    def wrong_edges(self, shown):
        looks, rows = [], []
        for edge in sorted(self.now.keys() | self.before.keys()):
            now, old = self.now.get(edge), self.before.get(edge)
            look = (
                "went" if now is None else "stays" if not self.version or now == old else "came" if old is None else "reweighted"
            )
            looks.append([f"{edge[0]} {edge[1]}", look])
            weight = f"{old} → {now}" if look == "reweighted" else str(old if now is None else now)
            change = {"reweighted": "other weight", "stays": ""}.get(look, look)
            rows.append([self.name(edge[0]), self.name(edge[1]), weight, change])
        found = (
            [] if sorted(shown["edges"]) == sorted(looks) else [f"edges: shown {sorted(shown['edges'])}, wanted {sorted(looks)}"]
        )
        return (
            found
            if len(rows) > 250 or sorted(shown["edgeRows"]) == sorted(rows)
            else [*found, f"edge rows: shown {shown['edgeRows']}, wanted {rows}"]
        )

    def wrong_vertices(self, shown):
        members = set(self.state.sets.get(shown["chosen"]["set"], []))
        found = self.wrong_legend(shown["legend"])
        if [it["vertex"] for it in shown["vertices"]] != list(range(self.count)):
            return [*found, f"vertices: shown {len(shown['vertices'])}, wanted {self.count}"]
        for v, it in enumerate(shown["vertices"]):
            wanted = (str(self.entries[v]), v in members, self.colour(shown["legend"], self.entries[v]))
            if (it["entry"], it["isMember"], it["fill"]) != wanted:
                found.append(f"vertex {v}: shown {it}, wanted {wanted}")
            if not it["title"].startswith(f"{self.name(v)}, {self.by} {self.entries[v]}") or not set(it["texts"]) <= {
                self.name(v),
                str(self.entries[v]),
            }:
                found.append(f"vertex {v} is called {it['title']!r}, with {it['texts']!r}")
        return found

    @staticmethod
    def bins(legend):
        """Returns the least and the greatest entry, and the colour, of each row of a legend."""
        found = []
        for colour, label in legend:
            ends = [int(it) for it in re.fullmatch(r"(-?\d+)(?: to (-?\d+)|, as it began)?", label).groups() if it]
            found.append((ends[0], ends[-1], colour))
        return found

    def colour(self, legend, entry):
        bins = self.bins(legend)
        first = [colour for least, _, colour in bins[:1] if "as it began" in legend[0][1] and least == entry]
        return next(iter([*first, *(colour for least, greatest, colour in bins if least <= entry <= greatest)]), None)

    def wrong_legend(self, legend):
        """Says what is wrong with a legend: its bins have to hold each entry of all versions and turns, and to ascend."""
        initial = INITIAL[self.by]
        entries = self.oracle.entries(self.program, self.by)
        bins = [it for it in self.bins(legend)[1:]]
        ends = [end for least, greatest, _ in bins for end in ([least] if least == greatest else [least, greatest])]
        inner = {it for it in entries if it != initial}
        is_right = (
            legend[0][1] == f"{initial}, as it began" and ends == sorted(set(ends)) and len({it[2] for it in bins}) == len(bins)
        )
        is_right = is_right and ends[:1] + ends[-1:] == [min(inner), max(inner)] and set(ends) <= inner
        return [] if is_right else [f"the legend {legend} is not of the entries {sorted(entries)}"]

    def wrong_charts(self, shown):
        wanted = []
        for name, values in series(self.oracle).items():
            now = values[self.version]
            others = [at for at in range(self.version) if values[at] not in (now, None)]
            words = (
                f"{now:,}, and {values[others[-1]]:,} on version {others[-1]}"
                if others and now is not None
                else f"{now}, and no other before"
            )
            wanted.append(
                [name, f"none on version {self.version}" if now is None else words if others else f"{now:,}, and no other before"]
            )
        return (
            []
            if sorted(shown["charts"]) == sorted(wanted)
            else [f"charts: shown {sorted(shown['charts'])}, wanted {sorted(wanted)}"]
        )
