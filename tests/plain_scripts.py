"""What a script replies, by docs/SCRIPTS.md alone: a table of edges for each version that is kept."""
import re

from plain_language import Run

MOST_VERTICES = 2**24
LINE = re.compile(
    r"(?P<vertices>vertices)(?: [0-9]+){1,2}|(?P<add>add) [0-9]+ [0-9]+(?: -?[0-9]+)?|(?P<del>del) [0-9]+ [0-9]+|(?P<grow>grow) [0-9]+"
    r"|(?P<commit>commit)|(?P<hold>hold)(?: at [0-9]+)?|(?P<release>release) [0-9]+|(?P<edges>edges)(?: [0-9]+)?"
    r"|(?P<run>run)(?: [0-9]+){3,4}",
    re.ASCII,
)


class Refused(Exception):
    """A line is refused, by the number that it carries."""


def numbers_of(line):
    """Returns the numbers of a line, or refuses one that is out of range."""
    word, *words = line.split(" ")
    numbers = [int(it) for it in words if it != "at"]
    most = 2**32 if word in ("vertices", "add", "del", "grow") else 2**64
    is_weighted = word == "add" and len(numbers) == 3
    if any(not it < most for it in (numbers[:2] if is_weighted else numbers)):
        raise Refused(801)
    if is_weighted and not -(2**63) <= numbers[2] < 2**63:
        raise Refused(801)
    return numbers


class Script:
    """The state of a script, and its replies. Each program is the same one, by its number under another schedule."""

    def __init__(self, program, programs):
        self.program, self.programs = program, programs
        self.versions, self.newest, self.tickets, self.given = None, 0, {}, 0
        self.pending, self.has_faulted, self.runs = [], False, {}

    def replies(self, lines):
        return "".join(self.reply(line) for line in lines)

    def reply(self, line):
        """Returns the reply to a line."""
        if line == "":
            return ""
        try:
            found = LINE.fullmatch(line)
            name = found and found.lastgroup
            if name is None or (name == "vertices") != (self.versions is None):
                raise Refused(801)
            return getattr(self, f"do_{name}")(*numbers_of(line))
        except Refused as refused:
            return f"refused {refused}\n"

    def do_vertices(self, count, chunk_size=64):
        if not 1 <= count <= MOST_VERTICES:
            raise Refused(111)
        if chunk_size not in [1 << power for power in range(9)]:
            raise Refused(103)
        self.versions = {0: (count, {})}
        return f"open {count}\n"

    def do_add(self, source, destination, weight=1):
        self.pending.append((source, destination, weight))
        return ""

    def do_del(self, source, destination):
        self.pending.append((source, destination, None))
        return ""

    def do_grow(self, count):
        self.pending.append((count,))
        return ""

    def do_commit(self):
        batch, self.pending = self.pending, []
        count, edges = self.versions[self.newest]
        grown = [it[0] for it in batch if len(it) == 1]
        if any(not count <= it <= MOST_VERTICES for it in grown):
            raise Refused(111)
        count, edges = max([count, *grown]), dict(edges)
        entries = [it for it in batch if len(it) == 3]
        if any(max(source, destination) >= count for source, destination, _ in entries):
            raise Refused(111)
        for source, destination, weight in entries:
            edges[source, destination] = weight
        edges = {ends: weight for ends, weight in edges.items() if weight is not None}
        self.versions[self.newest + 1] = count, edges
        self.newest += 1
        self.drop()
        return f"version {self.newest}\n"

    def drop(self):
        """Drops the versions that are neither the newest nor held."""
        kept = {self.newest, *self.tickets.values()}
        self.versions = {number: it for number, it in self.versions.items() if number in kept}

    def do_hold(self, version=None):
        version = self.newest if version is None else version
        if version not in self.versions:
            raise Refused(121)
        self.given += 1
        self.tickets[self.given] = version
        return f"ticket {self.given} version {version}\n"

    def do_release(self, ticket):
        if ticket not in self.tickets:
            raise Refused(122)
        del self.tickets[ticket]
        self.drop()
        return f"released {ticket}\n"

    def version_of(self, ticket):
        """Returns the version that a ticket holds, or the newest if there is no ticket."""
        if ticket is None:
            return self.newest
        if ticket not in self.tickets:
            raise Refused(122)
        return self.tickets[ticket]

    def do_edges(self, ticket=None):
        edges = sorted(self.versions[self.version_of(ticket)][1].items())
        lines = [f"{source} {destination}" + (f" {weight}" if weight != 1 else "") for (source, destination), weight in edges]
        return "".join(f"{line}\n" for line in [f"edges {len(lines)}", *lines])

    def do_run(self, program, turns, count, ticket=None):
        if not 1 <= program <= self.programs:
            raise Refused(412)
        version = self.version_of(ticket)
        if not 1 <= count <= 64:
            raise Refused(411)
        if (version, turns) not in self.runs:
            vertices, edges = self.versions[version]
            weighted = [(*ends, weight) for ends, weight in sorted(edges.items())]
            self.runs[version, turns] = Run(self.program, vertices, weighted, turns).reply()
        self.has_faulted = self.has_faulted or "\nend fault 401 " in f"\n{self.runs[version, turns]}"
        return self.runs[version, turns]
