"""Files that the shell loads: graphs as edges, and scripts."""
from __future__ import annotations

import gzip
import re
from array import array
from collections.abc import Iterator, Sequence
from dataclasses import dataclass, field, replace
from typing import IO, Any

from .comma_lists import fields_of, is_by_commas
from .edge_files import read_file
from .edge_lists import BYTE_ORDER_MARK, Edges, Form
from .edge_scripts import columns_of
from .errors import Mistake
from .graph import Graph
from .numbers import Integers, integers_of

# How many bytes are read to see what a file holds.
LOOK = 1 << 16

# The words that may follow a file with edges, beside `scale N` and `columns A,B`.
WORDS = ("weights", "names", "one-based", "both-ways", "commas", "spaces")

# A line of a script that adds an edge, and how many of them are taken at a time.
ADD = re.compile(rb"add ([0-9]{1,7}) ([0-9]{1,7})(?: (-?[0-9]{1,18}))?\n")
MANY = 1 << 17


def opened(path: str) -> IO[bytes]:
    """Opens a file for its bytes, unpacked if gzip packed them."""
    with open(path, "rb") as file:
        is_packed = file.read(2) == b"\x1f\x8b"
    return gzip.open(path) if is_packed else open(path, "rb")  # type: ignore[return-value]


def first_lines(path: str) -> list[bytes]:
    """Returns the first lines of a file that are neither empty nor comments of an edge list."""
    try:
        with opened(path) as file:
            lines = file.read(LOOK).removeprefix(BYTE_ORDER_MARK).splitlines()
    except EOFError:
        return []
    return [it for it in lines if it.split() and (it.startswith(b"%%") or not it.startswith(Edges.comments))]


def is_script(path: str) -> bool:
    """Says whether a file is a script: its first line is `vertices N`."""
    return b"".join(first_lines(path)[:1]).split()[:1] == [b"vertices"]


def taken(rest: list[str], word: str) -> str | None:
    """Removes a word and the one after it, and returns that, or None if the word is not there."""
    if word not in rest:
        return None
    at = rest.index(word)
    if at + 1 == len(rest):
        raise ValueError(f"a word has to follow `{word}`")
    found = rest[at + 1]
    del rest[at : at + 2]
    return found


def form_of(path: str, words: Sequence[str], is_named: bool) -> Form:
    """Returns how a file with edges is read, by the words after its name, which `WORDS` lists.

    Vertices are names if this is asked for, or `is_named`, or if the first edge of a list has a word that is no number. Raises
    ValueError for another word.
    """
    rest = list(words)
    scale, columns = taken(rest, "scale"), taken(rest, "columns")
    if scale is not None and (not scale.isdecimal() or int(scale) < 1):
        raise ValueError("a number from 1 on has to follow `scale`")
    for word in rest:
        if word not in WORDS:
            raise ValueError(f"{word!r} is none of {', '.join(WORDS)}")
    separator = "comma" if "commas" in rest else "space" if "spaces" in rest else ""
    form = Form(
        "weights" in rest or int(scale or 1) > 1 or (columns or "").count(",") > 1,
        int(scale or 1),
        both_ways="both-ways" in rest,
        separator=separator,
        columns=tuple(columns.split(",")) if columns else (),
        by_names=f"`load {path} names`",
        by_weights=f"`load {path} weights`",
        by_scale=f"`load {path} scale N`",
        by_separator=f"`load {path} commas` or `spaces`",
        by_columns=f"`load {path} columns A,B`",
        by_removal="`del U V` removes an edge",
    )
    names = is_named or "names" in rest or ("one-based" not in rest and begins_with_names(path, form))
    return replace(form, names=names, one_based="one-based" in rest and not names)


def begins_with_names(path: str, form: Form) -> bool:
    """Says whether the first edge in a file is of words that are no numbers."""
    lines = first_lines(path)[:2]
    words = b"".join(lines[:1]).split()
    if not words or words[0].lower() == b"%%matrixmarket" or words[0] in (b"c", b"p"):
        return False
    if is_by_commas(path, lines[0], form):
        heading, *rows = [fields_of(it.decode(errors="replace")) for it in lines]
        row = (rows or [heading])[0]
        if set(form.columns) <= set(heading):
            row = [it for name in form.columns for it in row[heading.index(name) :][:1]] or row
        return not are_numbers(row)
    return len(words) > 1 and not are_numbers([it.decode(errors="replace") for it in words])


def are_numbers(words: Sequence[str]) -> bool:
    """Says whether the first two words are numbers."""
    return all(word.lstrip("+-").isdigit() for word in words[:2])


def spelled(name: bytes) -> str:
    """Returns a name in a file as text."""
    return name.decode(errors="backslashreplace")


def add_edges(graph: Graph, edges: Edges, count: int) -> None:
    """Adds the edges that a file has to the pending batch of a graph; vertices that it does not have come with them."""
    sources, destinations, weights = array("q"), array("q"), array("q")
    for u, v, w in columns_of(edges):
        sources.extend(u)
        destinations.extend(v)
        weights.extend(() if w is None else w)
    columns: list[Any] = [integers_of(sources), integers_of(destinations)]
    if edges.numbers is not None:
        names = [spelled(it) for it in edges.numbers]
        columns = [[names[v] for v in column] for column in (sources, destinations)]
    graph.add_edges(columns[0], columns[1], integers_of(weights) if weights else None)
    if edges.numbers is None and count > graph.vertices:
        graph.grow(count)


def opened_for(edges: Edges, count: int) -> Graph:
    """Opens a graph that has the vertices of a file, by name or by number."""
    return Graph(count) if edges.numbers is None else Graph(names=[spelled(it) for it in edges.numbers])


def load_edges(graph: Graph | None, path: str, words: Sequence[str]) -> tuple[Graph, int, str]:
    """Adds the edges in a file to the pending batch of a graph, or of a new one.

    Returns the graph, how many edges there are, and what may be weights and was not read, or an empty text.
    Raises Mistake if the file is not in its form, OSError if it cannot be read, and ValueError for a wrong word.
    """
    form = form_of(path, words, graph is not None and graph.names is not None)
    if form.names and graph is not None and graph.names is None:
        raise ValueError(f"{path} has names, and the graph that is open has numbers")
    edges, count = read_file(path, form)
    into = opened_for(edges, count) if graph is None else graph
    try:
        add_edges(into, edges, count)
    except BaseException:
        if graph is None:
            into.close()
        raise
    return into, len(edges.ends) // 2, edges.unread


@dataclass
class Adds:
    """Lines `add U V` or `add U V W` of a script, one after the other; `weights` is None if no line has one."""

    sources: list[int] = field(default_factory=list)
    destinations: list[int] = field(default_factory=list)
    weights: list[int] | None = None

    def note(self, source: bytes, destination: bytes, weight: bytes | None) -> None:
        """Adds a line."""
        if weight is not None and self.weights is None:
            self.weights = [1] * len(self.sources)
        self.sources.append(int(source))
        self.destinations.append(int(destination))
        if self.weights is not None:
            self.weights.append(1 if weight is None else int(weight))

    def columns(self) -> tuple[Integers, Integers, Integers | None]:
        """Returns the sources, destinations and weights as arrays."""
        weights = None if self.weights is None else integers_of(self.weights)
        return integers_of(self.sources), integers_of(self.destinations), weights

def script_parts(path: str) -> Iterator[tuple[int, Adds | str]]:
    """Yields the lines of a script in a file, each with its number, from 1; lines `add` come many at a time.

    Raises OSError if the file cannot be read, and Mistake for a line that is no text.
    """
    adds, first = Adds(), 1
    with opened(path) as lines:
        for at, line in enumerate(lines, 1):
            found = ADD.fullmatch(line)
            if found:
                first = first if adds.sources else at
                adds.note(*found.groups())
                if len(adds.sources) < MANY:
                    continue
            if adds.sources:
                yield first, adds
                adds = Adds()
            if not found:
                try:
                    yield at, line.rstrip(b"\n").decode()
                except UnicodeDecodeError:
                    raise Mistake(f"{path}:{at}: the line is no text") from None
    if adds.sources:
        yield first, adds
