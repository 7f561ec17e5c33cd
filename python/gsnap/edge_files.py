"""Graphs in files: edge lists, matrices of the Matrix Market, graphs of the DIMACS challenge of shortest paths; gzip or not."""
from __future__ import annotations

import array
import operator
import re
import zlib
from collections.abc import Iterator

from .comma_lists import Commas, first_line, is_by_commas
from .edge_lists import MOST_VERTICES, NATURAL, REAL, Edges, Form, Source, blocks, shown, texts
from .errors import Mistake
from .progress import Progress, Reading

BANNER = b"%%matrixmarket"
INTEGER = rb"[+-]?[0-9]+"
FIELDS: dict[str, list[bytes]] = {"pattern": [], "integer": [INTEGER], "real": [REAL], "complex": [REAL, REAL]}
SYMMETRIES = {
    "general": list(FIELDS),
    "symmetric": list(FIELDS),
    "skew-symmetric": ["integer", "real", "complex"],
    "hermitian": ["complex"],
}


class Matrix(Edges):
    """The edges of a matrix in coordinates."""

    comments = b"%"
    begins_with_ends = False

    def __init__(self, name: str, form: Form, banner: list[bytes]) -> None:
        super().__init__(name, form)
        self.first = 1
        self.last = None
        self.announced: int | None = None
        self.entries = 0
        words = [it.decode(errors="backslashreplace").lower() for it in banner]
        if len(words) != 5:
            self.fail(f"{len(words)} words, where 5 are wanted: %%MatrixMarket matrix coordinate FIELD SYMMETRY", 1)
        known = (["matrix"], ["coordinate"], list(FIELDS), list(SYMMETRIES))
        for word, it, choice in zip(banner[1:], words[1:], known):
            if it not in choice:
                self.fail(f"{shown(word)} is none of: {', '.join(choice)}", 1)
        self.field, self.symmetry = words[3:]
        if self.field not in SYMMETRIES[self.symmetry]:
            self.fail(f"{shown(banner[4])} does not go with {shown(banner[3])}", 1)
        if form.weights and self.field not in ("integer", "real"):
            self.fail(f"{shown(banner[3])} entries are no weights", 1)
        self.is_both_ways |= self.symmetry != "general"

    def look(self, line: bytes) -> None:
        if self.field in ("integer", "real"):
            self.note_unread("the values of the entries were not read", "them as weights")

    def passes(self, words: list[bytes]) -> bool:
        if not self.line or super().passes(words):
            return True
        if self.announced is not None:
            return False
        self.take_size(words)
        return True

    def take_size(self, words: list[bytes]) -> None:
        """Takes the line with the numbers of rows, columns and entries."""
        for word in words:
            if not re.fullmatch(NATURAL, word):
                self.fail(f"{shown(word)} is no number of rows, columns or entries", self.line + 1)
        if len(words) != 3:
            self.fail(f"{shown(b' '.join(words))} is not the numbers of rows, columns and entries", self.line + 1)
        rows, columns, self.announced = map(int, words)
        if rows != columns:
            self.fail(f"{rows} rows and {columns} columns, but a graph is a square matrix", self.line + 1)
        if rows < 1 or rows > MOST_VERTICES and self.numbers is None:
            self.fail(f"{rows} rows, but a graph has 1 to {MOST_VERTICES} vertices", self.line + 1)
        self.last = rows

    def form(self, words: list[bytes]) -> tuple[bytes, ...]:
        values = FIELDS[self.field]
        if len(words) != 2 + len(values):
            wanted = f"where {2 + len(values)} are wanted for an entry that is {self.field}"
            self.fail(f"{shown(b' '.join(words))} is {len(words)} words, {wanted}", self.line + 1)
        return (NATURAL, NATURAL, *values)

    def refuse(self, words: list[bytes]) -> None:
        for word in words[:2]:
            if not re.fullmatch(NATURAL, word):
                self.fail(self.no_vertex(word), self.line + 1)
        for word, value in zip(words[2:], FIELDS[self.field]):
            if not re.fullmatch(value, word):
                kind = "integer" if value == INTEGER else "real number"
                self.fail(f"{shown(word)} is no {kind}", self.line + 1)

    def no_vertex(self, word: bytes) -> str:
        return f"{shown(word)} is no row or column from 1 to {self.last}"

    def add(self, ends: list[bytes]) -> None:
        announced = self.announced or 0
        left = announced - self.entries
        self.entries += len(ends) // 2
        vertices = self.in_range(ends)
        if len(ends) // 2 > left:
            entry = b" ".join(ends[2 * left : 2 * left + 2])
            reason = f"{shown(entry)} comes after as many entries as announced, {announced}"
            self.fail(reason, self.line + 1 + left)
        if self.symmetry == "skew-symmetric" and any(map(operator.eq, vertices[0::2], vertices[1::2])):
            at = next(i for i in range(0, len(ends), 2) if vertices[i] == vertices[i + 1])
            reason = f"{shown(ends[at])} is row and column of an entry that is skew-symmetric"
            self.fail(reason, self.line + 1 + at // 2)
        self.ends.extend(vertices if self.numbers is None else self.renamed([b"%d" % (it + 1) for it in vertices], self.numbers))

    def finish(self) -> int:
        if self.announced is None:
            self.fail("it ends before its numbers of rows, columns and entries", self.line)
        if self.entries < self.announced:
            self.fail(f"it ends after {self.entries} entries, but {self.announced} are announced", self.line)
        if self.numbers is None and self.last is not None:
            return self.last
        return super().finish()

    def weight(self, word: bytes, line: int) -> int:
        weight = super().weight(word, line)
        if self.symmetry == "skew-symmetric" and weight == -(1 << 63):
            self.fail(f"{shown(word)} with the other sign is no weight from -2^63 to 2^63 - 1", line)
        return weight

    def back(self, weight: int) -> int:
        return -weight if self.symmetry == "skew-symmetric" else weight


class Paths(Edges):
    """The edges of a graph of the DIMACS challenge of shortest paths."""

    comments = b"c"
    source = 1
    begins_with_ends = False

    def __init__(self, name: str, form: Form) -> None:
        super().__init__(name, form)
        self.weights = array.array("q")
        self.first = 1
        self.last = None
        self.announced: int | None = None

    def passes(self, words: list[bytes]) -> bool:
        if not words or words[0] == b"c":
            return True
        if self.announced is not None:
            return False
        for word in words[2:]:
            if not re.fullmatch(NATURAL, word):
                self.fail(f"{shown(word)} is no number of vertices or edges", self.line + 1)
        vertices, self.announced = map(int, words[2:])
        if not 1 <= vertices <= MOST_VERTICES:
            self.fail(f"{vertices} vertices, but a graph has 1 to {MOST_VERTICES}", self.line + 1)
        self.last = vertices
        return True

    def form(self, words: list[bytes]) -> tuple[bytes, ...]:
        if len(words) != 4 or words[0] != b"a":
            self.fail(f"{shown(b' '.join(words))} is no edge, which is a, two vertices and a weight", self.line + 1)
        return (rb"a", NATURAL, NATURAL, REAL)

    def no_vertex(self, word: bytes) -> str:
        return f"{shown(word)} is no vertex from 1 to {self.last}"

    def finish(self) -> int:
        edges = len(self.ends) // 2
        if edges != self.announced:
            self.fail(f"it has {edges} edges, but {self.announced} are announced", self.line)
        return self.last if self.numbers is None and self.last is not None else super().finish()


def is_of_paths(block: bytes) -> bool:
    """Says whether these first lines are those of a graph of the DIMACS challenge."""
    for line in block.splitlines():
        words = line.split()
        if words and words[0] != b"c":
            return len(words) == 4 and words[:2] == [b"p", b"sp"]
    return False


# The first words of a file that has no edges, and what it is.
OTHERS = (
    (rb"\s*vertices [0-9]+( [0-9]+)?\s*", "this is a script, and not a list of edges"),
    (rb"\s*element\s+Vertex\b.*", "this is a program, and not a list of edges"),
)


def read_edges(name: str, found: Iterator[bytes], form: Form) -> tuple[Edges, int]:
    """Returns the edges in blocks of whole lines, and the number of vertices. `name` is what messages call the file."""
    block = next(found, b"")
    while not first_line(block)[1] and (more := next(found, b"")):
        block += more
    for other, said in OTHERS:
        if re.fullmatch(other, first_line(block)[1]):
            raise Mistake(f"{name}: {said}")
    words = block.partition(b"\n")[0].split()
    edges: Edges
    if words and words[0].lower() == BANNER:
        edges = Matrix(name, form, words)
    elif is_of_paths(block):
        edges = Paths(name, form)
    elif is_by_commas(name, block, form):
        edges = Commas(name, form)
    else:
        edges = Edges(name, form)
    edges.look(first_line(block)[1])
    while block:
        edges.read(block)
        block = next(found, b"")
    return edges, edges.finish()


def read_file(path: str, form: Form, progress: Progress | None = None) -> tuple[Edges, int]:
    """Returns the edges in a file, or in standard input if the path is `-`, and the number of vertices.

    `progress` shows how much of the file is read. Raises Mistake if the file cannot be read, or is not in its form; the text names
    the file, and the line and the word.
    """
    is_input = path == "-"
    name = "standard input" if is_input else path
    try:
        with open(0 if is_input else path, "rb", closefd=not is_input) as file:
            source: Source = file
            if progress:
                source = Reading(file, progress)
            return read_edges(name, blocks(texts(source)), form)
    except OSError as error:
        raise Mistake(f"{name}: {error.strerror}") from None
    except EOFError:
        raise Mistake(f"{name}: what gzip packed is cut") from None
    except zlib.error:
        raise Mistake(f"{name}: what gzip packed is damaged") from None
