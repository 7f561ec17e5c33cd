"""The edges in a text of lines: edge lists such as those of SNAP, and what the other kinds of files share with them."""
from __future__ import annotations

import array
import fractions
import functools
import re
import zlib
from collections.abc import Iterable, Iterator, Mapping
from dataclasses import dataclass
from typing import NoReturn, Protocol

from .errors import Mistake
from .numbers import rows_in

MOST_VERTICES = 16_777_216
# How many bytes are read at a time.
PIECE = 1 << 20
SPACE = rb"[^\S\n]"
NATURAL = rb"[0-9]{1,18}"
REAL = rb"[+-]?(?:[0-9]+\.?[0-9]*|\.[0-9]+)(?:[eEdD][+-]?[0-9]+)?"

BYTE_ORDER_MARK = b"\xef\xbb\xbf"
# The word before an edge that is to be removed.
REMOVAL = b"-"


class Source(Protocol):
    """What bytes are read from."""

    def read(self, count: int, /) -> bytes:
        """Returns at most so many bytes, and none at the end."""


@dataclass(frozen=True)
class Form:
    """How a file is read.

    With `weights` each edge has one, a whole number after it was multiplied by `scale`. With `names` any words are vertices; else
    they are numbers from 0, or from 1 if the file is `one_based`. With `both_ways` each edge is there reversed too.

    `separator` is `comma` or `space`, or empty if the first line decides. `columns` names the columns of a file with commas that
    are taken. `known` has the names of an earlier file, with their numbers; then a line that begins with the word `-` removes its
    edge. A field that begins with `by_` is what a message says for how to ask for something.
    """

    weights: bool = False
    scale: int = 1
    names: bool = False
    one_based: bool = False
    both_ways: bool = False
    separator: str = ""
    columns: tuple[str, ...] = ()
    known: Mapping[bytes, int] | None = None
    by_names: str = "--names TABLE"
    by_weights: str = "--weights"
    by_scale: str = "--scale N"
    by_separator: str = "--separator comma or --separator space"
    by_columns: str = "--columns A,B"
    by_removal: str = "--append edits a graph that exists"


def shown(word: bytes) -> str:
    """Returns a word of the file as a message shows it."""
    return repr(word[:60].decode(errors="replace"))


def texts(source: Source) -> Iterator[bytes]:
    """Yields the bytes of a stream, unpacked if gzip packed them. Raises EOFError or zlib.error if the packing is not whole."""
    piece = source.read(PIECE)
    if not piece.startswith(b"\x1f\x8b"):
        while piece:
            yield piece
            piece = source.read(PIECE)
        return
    member = zlib.decompressobj(wbits=31)
    while piece:
        if member.eof:
            member = zlib.decompressobj(wbits=31)
        yield member.decompress(piece)
        piece = member.unused_data or source.read(PIECE)
    if not member.eof:
        raise EOFError


def blocks(pieces: Iterable[bytes]) -> Iterator[bytes]:
    """Yields the same bytes as many whole lines at a time; the last line is ended too."""
    begun: list[bytes] = []
    is_first = True
    for piece in pieces:
        if is_first:
            piece, is_first = piece.removeprefix(BYTE_ORDER_MARK), False
        end = piece.rfind(b"\n") + 1
        if end:
            yield b"".join(begun) + piece[:end]
            begun = []
        begun.append(piece[end:])
    last = b"".join(begun)
    if last:
        yield last + b"\n"


@functools.lru_cache
def lines_of(words: tuple[bytes, ...], separator: bytes) -> re.Pattern[bytes]:
    """Makes the expression for lines that have a word for each expression."""
    line = SPACE + rb"*" + separator.join(words) + SPACE + rb"*\n"
    return re.compile(rb"(?:" + line + rb")*")


class Numbers(dict[bytes, int]):
    """The numbers of names; one that is asked for and new gets the next number. `cut` has those that are cut texts in quotes."""

    def __init__(self, known: Mapping[bytes, int]) -> None:
        super().__init__(known)
        self.cut: list[bytes] = []

    def __missing__(self, name: bytes) -> int:
        if name[:1] == b'"' and name[-1:] != b'"':
            self.cut.append(name)
        number = self[name] = len(self)
        return number


class Edges:
    """The edges of an edge list, as `read` has found them so far.

    `ends` has the source and the destination of each edge, and `weights` their weights, or is None if the edges have none.
    `removals` has for each edge 1 if it is to be removed and else 0, or is None if no line can remove one. `numbers` has the
    number of each name, in the order in which they came, or is None if the vertices are numbers. Each mistake raises Mistake,
    which names the file and the line.
    """

    comments: bytes | tuple[bytes, ...] = (b"#", b"%")
    # The place of the source on a line; the destination and the weight follow.
    source = 0
    # What parts the words of a line.
    separator = SPACE + rb"+"
    # Whether the first words of a line are an edge's, so that lines of numbers may be taken at once.
    begins_with_ends = True

    def __init__(self, name: str, form: Form) -> None:
        self.name = name
        self.options = form
        self.line = 0
        self.ends = array.array("I")
        self.weights = array.array("q") if form.weights else None
        self.removals = None if form.known is None else bytearray()
        self.scale = form.scale
        self.numbers = Numbers(form.known or {}) if form.names else None
        self.first = 1 if form.one_based else 0
        self.last: int | None = MOST_VERTICES - 1 + self.first
        self.is_both_ways = form.both_ways
        self.unread = ""

    def look(self, line: bytes) -> None:
        """Notes as `unread` what may be weights and is not read, by the line of the first edge."""
        words = line.split()
        if words[:1] != [REMOVAL]:
            self.note_third(words)

    def note_third(self, words: list[bytes]) -> None:
        """Notes the third of the words of the first edge, if it may be a weight and is not read."""
        if len(words) > 2 and re.fullmatch(REAL, words[2]):
            self.note_unread(f"the third word of the first edge, {shown(words[2])}, was not read", "such words as weights")

    def note_unread(self, reason: str, what: str) -> None:
        """Notes what is not read, unless weights are taken."""
        if self.weights is None:
            self.unread = f"{reason}; {self.options.by_weights} takes {what}"

    def fail(self, reason: str, line: int) -> NoReturn:
        """Raises the exception for a mistake."""
        raise Mistake(f"{self.name}:{line}: {reason}")

    def read(self, block: bytes) -> None:
        """Reads whole lines: at a time as many as have the same form."""
        at = 0
        is_tried = False
        while at < len(block):
            end = block.index(b"\n", at) + 1
            words = block[at:end].split()
            if self.passes(words):
                self.line += 1
                at = end
                continue
            if not is_tried:
                is_tried = True
                if self.takes_rows(block[at:]):
                    return
            at += self.take_lines(block, at, words)

    def takes_rows(self, block: bytes) -> bool:
        """Takes whole lines at once, and says whether it did: if NumPy is there, and all words are numbers in their ranges."""
        if self.numbers is not None or not self.begins_with_ends:
            return False
        rows = rows_in(block, b"," in self.separator, self.weights is not None)
        if rows is None:
            return False
        ends = rows[:, :2]
        last = self.last if self.last is not None else -1
        if ends.min() < self.first or ends.max() > last:
            return False
        if self.weights is not None:
            least, most = int(rows[:, 2].min()) * self.scale, int(rows[:, 2].max()) * self.scale
            if not -(1 << 63) <= least <= most < 1 << 63:
                return False
            self.weights.frombytes((rows[:, 2] * self.scale).tobytes())
        self.ends.frombytes((ends - self.first).astype("uint32").tobytes())
        self.line += len(rows)
        return True

    def take_lines(self, block: bytes, at: int, words: list[bytes]) -> int:
        """Takes the line of these words at a place, with those after it that have its form. Returns how many bytes they are."""
        is_removal = words[0] == REMOVAL and self.begins_with_ends
        if is_removal and self.removals is None:
            self.fail(f"'-' before an edge removes it, and here each line adds one; {self.options.by_removal}", self.line + 1)
        form = (REMOVAL, *self.form_of_removal(words)) if is_removal else self.form(words)
        found = lines_of(form, self.separator).match(block, at)
        lines = found.group() if found else b""
        if not lines:
            self.refuse(words[is_removal:])
        self.take(lines.split(), len(words), is_removal)
        return len(lines)

    def form_of_removal(self, words: list[bytes]) -> tuple[bytes, ...]:
        """Returns an expression for each word after the `-` of a line that removes an edge."""
        if len(words) < 3:
            self.fail(f"{shown(b' '.join(words))} has no two vertices after the '-'", self.line + 1)
        return (rb"\S+",) * (len(words) - 1)

    def take(self, found: list[bytes], width: int, is_removal: bool = False) -> None:
        """Takes the words of lines that have so many words each."""
        source = self.source + is_removal
        ends = [b""] * (2 * len(found) // width)
        ends[0::2] = found[source::width]
        ends[1::2] = found[source + 1 :: width]
        if is_removal:
            self.want_known(ends)
        self.add(ends)
        count = len(ends) // 2
        if self.weights is not None and is_removal:
            self.weights.extend([0] * count)
        elif self.weights is not None:
            self.weigh(found[source + 2 :: width], self.weights)
        if self.removals is not None:
            self.removals.extend(bytes([is_removal]) * count)
        self.line += count

    def want_known(self, ends: list[bytes]) -> None:
        """Looks that each end of an edge that is removed is a vertex."""
        for at, name in enumerate(ends):
            if self.numbers is not None and name not in self.numbers:
                self.fail(f"{shown(name)} is no vertex yet, so no edge of it can be removed", self.line + 1 + at // 2)

    def passes(self, words: list[bytes]) -> bool:
        """Says whether a line has no edge."""
        if words and words[0].lower().strip(b"%") == b"matrixmarket":
            self.fail(f"{shown(words[0])} begins no matrix: '%%MatrixMarket' on the first line does", self.line + 1)
        return not words or words[0].startswith(self.comments)

    def form(self, words: list[bytes]) -> tuple[bytes, ...]:
        """Returns an expression for each word of an edge's line, as many as this line has."""
        if len(words) < 2:
            wanted = "an edge needs two vertices, separated by spaces, tabs or commas"
            self.fail(f"{shown(words[0])} is only one word; {wanted}", self.line + 1)
        ends = (NATURAL, NATURAL) if self.numbers is None else (rb"(?!-\s)[^\s#%]\S*", rb"\S+")
        if self.weights is None:
            return ends + (rb"\S+",) * (len(words) - 2)
        if len(words) < 3:
            self.fail(f"{shown(b' '.join(words))} has no weight after the two vertices", self.line + 1)
        return ends + (REAL,) + (rb"\S+",) * (len(words) - 3)

    def refuse(self, words: list[bytes]) -> None:
        """Raises the exception for the first mistake on an edge's line that does not have its form."""
        for word in words[self.source : self.source + 2]:
            if self.numbers is None and not re.fullmatch(NATURAL, word):
                self.fail(self.no_vertex(word), self.line + 1)
        if self.weights is not None and not re.fullmatch(REAL, words[self.source + 2]):
            self.fail(f"{shown(words[self.source + 2])} is no weight", self.line + 1)

    def no_vertex(self, word: bytes) -> str:
        """Says of a word that it is no vertex."""
        return f"{shown(word)} is no vertex from {self.first} to {self.last}; {self.options.by_names} takes any words"

    def add(self, ends: list[bytes]) -> None:
        """Adds edges by the words of their ends."""
        self.ends.extend(self.in_range(ends) if self.numbers is None else self.renamed(ends, self.numbers))

    def weigh(self, words: list[bytes], weights: array.array[int]) -> None:
        """Adds the weights that the words are, while their lines are not counted yet."""
        try:
            weights.extend([int(word) * self.scale for word in words])
        except (ValueError, OverflowError):
            del weights[len(self.ends) // 2 - len(words) :]
            weights.extend(self.weight(word, self.line + 1 + at) for at, word in enumerate(words))

    def weight(self, word: bytes, line: int) -> int:
        """Returns the weight that a word is."""
        number = fractions.Fraction(word.decode().lower().replace("d", "e")) * self.scale
        if number.denominator != 1:
            cure = f"is no whole number; {self.options.by_scale} multiplies weights by N"
            self.fail(f"{shown(word)} {f'times {self.scale} is no whole number' if self.scale > 1 else cure}", line)
        if not -(1 << 63) <= number < 1 << 63:
            self.fail(f"{shown(word)} is no weight from -2^63 to 2^63 - 1", line)
        return int(number)

    def back(self, weight: int) -> int:
        """Returns the weight of the reversed edge."""
        return weight

    def in_range(self, ends: list[bytes]) -> list[int]:
        """Returns the vertices that the words are, from 0."""
        vertices = list(map(int, ends))
        first, last = self.first, self.last if self.last is not None else -1
        if min(vertices) < first or max(vertices) > last:
            at = next(i for i, it in enumerate(vertices) if not first <= it <= last)
            self.fail(self.no_vertex(ends[at]), self.line + 1 + at // 2)
        return [it - 1 for it in vertices] if first else vertices

    def renamed(self, ends: list[bytes], numbers: Numbers) -> list[int]:
        """Returns the numbers of names; a name that is new gets the next one."""
        found = list(map(numbers.__getitem__, ends))
        for name in numbers.cut:
            line = self.line + 1 + ends.index(name) // 2
            self.fail(f"{shown(name)} begins a text in quotes; {self.options.by_separator} says what parts words", line)
        if len(numbers) > MOST_VERTICES:
            at = next(i for i, it in enumerate(found) if it >= MOST_VERTICES)
            self.fail(f"{shown(ends[at])} is one more than {MOST_VERTICES} vertices", self.line + 1 + at // 2)
        return found

    def finish(self) -> int:
        """Returns the number of vertices, when all is read."""
        if not self.ends:
            raise Mistake(f"{self.name}: it has no edge")
        return max(self.ends) + 1 if self.numbers is None else len(self.numbers)
