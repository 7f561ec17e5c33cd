"""A plain table of edges beside a graph of `gsnap`: what the program must reply to `edges`, and to a run of `INTO`."""
import subprocess

from program import GSNAP, PATIENCE

# A program that shows what comes into each vertex: how many edges, and a sum over their sources and weights that tells sets
# of them apart. It pulls, so it reads the lists of the edges by destination, where `edges` reads those by source.
INTO = """element Vertex end element Edge end
const edges : edgeset{Edge}(Vertex, Vertex, int) = load(argv[1]);
const sources : vector{Vertex}(int) = 0; const mixed : vector{Vertex}(int) = 0;
func into(u : Vertex, v : Vertex, w : int) sources[v] += 1; mixed[v] += (w + 12345) * (u * 40503 + 977); end
func main() #s1# edges.apply(into); end
schedule: program->configApplyDirection("s1", "DensePull");
"""


class EdgeTable:
    """The weights of the edges that are there, and the lines that made them so."""

    def __init__(self, vertices, chunk_size):
        self.vertices = vertices
        self.weights = {}
        self.lines = [f"vertices {vertices} {chunk_size}"]
        self.replies = [f"open {vertices}"]
        self.version = 0

    def add(self, source, destination, weight):
        self.weights[source, destination] = weight
        self.lines.append(f"add {source} {destination} {weight}")

    def remove(self, source, destination):
        self.weights.pop((source, destination), None)
        self.lines.append(f"del {source} {destination}")

    def commit(self):
        self.version += 1
        self.lines.append("commit")
        self.replies.append(f"version {self.version}")

    def listing(self):
        """Returns the reply to `edges`."""
        plain = [f"{source} {destination}" + (f" {weight}" if weight != 1 else "")
                 for (source, destination), weight in sorted(self.weights.items())]
        return "\n".join([f"edges {len(plain)}", *plain])

    def shown(self):
        """Returns the reply to a run of `INTO`."""
        sources, mixed = {}, {}
        for (source, destination), weight in self.weights.items():
            sources[destination] = sources.get(destination, 0) + 1
            mixed[destination] = mixed.get(destination, 0) + (weight + 12345) * (source * 40503 + 977)
        mixed = {vertex: (it + 2**63) % 2**64 - 2**63 for vertex, it in mixed.items()}
        vectors = [f"vector sources:{self.entries(sources)}", f"vector mixed:{self.entries(mixed)}"]
        return "\n".join(["end finished turns 0", *vectors])

    def entries(self, numbers):
        """Returns the entries of a vector that is 0 but at some vertices, each after a space."""
        parts, end = [], 0
        for vertex in sorted(numbers):
            parts.append(" 0" * (vertex - end) + f" {numbers[vertex]}")
            end = vertex + 1
        return "".join(parts) + " 0" * (self.vertices - end)

    def look(self):
        """Lists the edges and runs `INTO`."""
        self.lines += ["edges", "run 1 1 1"]
        self.replies += [self.listing(), self.shown()]

    def differs(self, program):
        """Returns the first reply of the program to the lines that is another than the table's, beside that, or None. `program` is
        the file with `INTO`."""
        return differs([program], self.lines, self.replies)


def differs(programs, lines, replies):
    """Returns the first line of the program's replies to some lines that is another than it should be, beside that, or None."""
    text = "".join(f"{line}\n" for line in lines).encode()
    ran = subprocess.run([GSNAP, "script", "-", *programs], input=text, capture_output=True, timeout=PATIENCE, check=False)
    wanted = "".join(f"{reply}\n" for reply in replies).encode()
    if (ran.returncode, ran.stdout, ran.stderr) == (0, wanted, b""):
        return None
    found, wanted = ran.stdout.split(b"\n"), wanted.split(b"\n")
    place = next((it for it in range(min(len(found), len(wanted))) if found[it] != wanted[it]), min(len(found), len(wanted)))
    return ran.returncode, ran.stderr[:200], place, found[place:place + 1], wanted[place:place + 1]
