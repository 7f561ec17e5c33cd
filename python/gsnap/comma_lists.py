"""The edges in a text of columns with commas between, as spreadsheets and data bases write it."""
from __future__ import annotations

import csv
import re

from .edge_lists import NATURAL, REAL, REMOVAL, SPACE, Edges, Form, shown
from .errors import Mistake

# Headings of columns: those of sources, of destinations and of weights.
HEADINGS = (
    {"source", "src", "from", "from_id", "source_id", "tail", "u", "start"},
    {"target", "destination", "dst", "dest", "to", "to_id", "target_id", "head", "v", "end"},
    {"weight", "w", "value", "length", "distance", "cost", "capacity"},
)
TEXT_IN_QUOTES = re.compile(rb'"(?:[^"]|"")*"')


def fields_of(line: str) -> list[str]:
    """Returns the fields of a line, without white space at their ends."""
    return [it.strip() for it in next(csv.reader([line], skipinitialspace=True, strict=True), [])]


def first_line(block: bytes) -> tuple[int, bytes]:
    """Returns the first line that is neither empty nor a comment, with its number."""
    lines = enumerate(block.splitlines(), 1)
    return next(((at, line) for at, line in lines if line.strip() and not line.startswith(Edges.comments)), (1, b""))


def is_by_commas(name: str, block: bytes, form: Form) -> bool:
    """Says whether commas part the words of a file, whose first lines are given.

    Raises Mistake if the first line has commas and spaces, so that both could part its words.
    """
    at, line = first_line(block)
    if form.separator or form.columns:
        return form.separator != "space"
    if re.search(r"\.csv(\.gz)?$", name, re.IGNORECASE):
        return True
    bare = TEXT_IN_QUOTES.sub(b"q", line)
    if b"," not in bare:
        return False
    if any(len(it.split()) > 1 for it in bare.split(b",")):
        raise Mistake(f"{name}:{at}: {shown(line)} may have commas or spaces between its words; {form.by_separator} says which")
    return True


class Commas(Edges):
    """The edges of a text of columns with commas between. The first row may be a heading."""

    separator = SPACE + rb"*," + SPACE + rb"*"

    def __init__(self, name: str, form: Form) -> None:
        super().__init__(name, form)
        self.columns: list[int] | None = None

    def look(self, line: bytes) -> None:
        """Leaves it to `is_heading`, which finds the columns."""

    def read(self, block: bytes) -> None:
        """Reads whole lines."""
        at = 0
        while self.columns is None and at < len(block):
            end = block.index(b"\n", at) + 1
            if self.passes(block[at:end].split()) or self.is_heading(block[at:end]):
                self.line += 1
                at = end
        rest = block[at:]
        if rest and not (self.columns == [0, 1, 2] and self.takes_rows(rest)):
            self.take_rows(rest)

    def takes_rows(self, block: bytes) -> bool:
        """Takes whole lines of numbers at once, and says whether it did."""
        if super().takes_rows(block):
            return True
        words = (NATURAL, NATURAL) if self.weights is None else (NATURAL, NATURAL, rb"-?[0-9]{1,17}")
        line = rb",".join(words) + rb"\r?\n"
        if self.numbers is not None or not re.fullmatch(rb"(?:%b)*" % line, block):
            return False
        self.take(block.replace(b",", b" ").split(), len(words))
        return True

    def is_heading(self, line: bytes) -> bool:
        """Says whether the first row is a heading, and finds the columns."""
        row = self.fields(line, self.line + 1)
        names = [it.lower() for it in row]
        wanted = self.options.columns
        if wanted:
            missing = [it for it in wanted if it not in row]
            if missing:
                self.fail(f"no column has the heading {missing[0]!r}; there are: {', '.join(row)}", self.line + 1)
            self.columns = [row.index(it) for it in wanted]
            return True
        self.columns = [0, 1, 2]
        known = [next((at for at, it in enumerate(names) if it in some), None) for some in HEADINGS]
        if known[0] is not None and known[1] is not None:
            self.columns = [known[0], known[1], 2 if known[2] is None else known[2]]
            if known[2] is not None:
                self.note_unread(f"the column {row[known[2]]!r} was not read", "it as the weights")
            return True
        is_number = [re.fullmatch("[+-]?[0-9]+", it) is not None for it in row[:2]]
        is_heading = self.numbers is None and not any(is_number)
        if not is_heading:
            self.note_third([it.encode("utf-8", "surrogateescape") for it in row])
        return is_heading

    def fields(self, line: bytes, number: int) -> list[str]:
        """Returns the fields of a line."""
        try:
            return fields_of(line.decode("utf-8", "surrogateescape").strip())
        except csv.Error:
            self.fail(f"{shown(line.rstrip())} has a text in quotes that does not end before a comma", number)

    def take_rows(self, block: bytes) -> None:
        """Takes lines one by one."""
        for line in block.removesuffix(b"\n").split(b"\n"):
            if self.passes(line.split()[:1]):
                self.line += 1
                continue
            row = self.fields(line, self.line + 1)
            is_removal = self.removals is not None and row[:1] == [REMOVAL.decode()]
            self.take_row(line, row[is_removal:], is_removal)

    def take_row(self, line: bytes, row: list[str], is_removal: bool) -> None:
        """Takes the fields of an edge's line."""
        columns = self.columns or [0, 1, 2]
        count = 2 if self.weights is None or is_removal else 3
        if len(row) <= max(columns[:count], default=0) or len(columns) < count:
            wanted = "two vertices" if count == 2 else "two vertices and a weight"
            self.fail(f"{shown(line)} has too few words; an edge needs {wanted}, separated by commas", self.line + 1)
        words = [row[at].encode("utf-8", "surrogateescape") for at in columns[:count]]
        for word in words[:2]:
            if not word or b"\r" in word:
                what = "a carriage return in a word" if word else "an empty word"
                self.fail(f"{shown(line)} has {what} for a vertex", self.line + 1)
            if self.numbers is None and not re.fullmatch(NATURAL, word):
                self.fail(self.no_vertex(word), self.line + 1)
        if count == 3 and not re.fullmatch(REAL, words[2]):
            self.fail(f"{shown(words[2])} is no weight; {self.options.by_columns} takes columns by the first row", self.line + 1)
        self.take([REMOVAL, *words] if is_removal else words, count + is_removal, is_removal)
