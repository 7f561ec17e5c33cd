"""Numbers in bulk: what vectors and lists of edges are made of, with NumPy if it is there, else by the standard library."""
from __future__ import annotations

import functools
from array import array
from collections.abc import Sequence
from types import ModuleType
from typing import Any

numpy: ModuleType | None
try:
    import numpy
except ImportError:
    numpy = None

# An array of 64-bit whole numbers: a numpy.ndarray of dtype int64 if NumPy is there, else an array.array.
Integers = Any

# Vertices, and weights that are as short, have at most twice so many decimal digits.
DIGITS = 4
BOUND = 10**DIGITS


def integers(text: bytes) -> Integers:
    """Returns the numbers of a text such as b" 1 -2 3\\n", in which a space stands before each, or raises ValueError."""
    return numbers_in(text, text.count(b" "))


def numbers_in(text: bytes, count: int) -> Integers:
    """Returns the numbers of a text, which has white space between them, or raises ValueError if they are not so many."""
    if numpy is None:
        found = array("q", [int(word) for word in text.split()])
    elif text.isspace():
        found = numpy.array([], numpy.int64)
    else:
        found = numpy.fromstring(text, dtype=numpy.int64, sep=" ")
    if len(found) != count:
        raise ValueError(f"{text[:60]!r} has not {count} numbers")
    return found


# Kinds of bytes: a byte of a number, a space, the end of a line, a comma; 0 is any other.
DIGIT, BLANK, FEED, COMMA = 1, 2, 3, 4
MOST_DIGITS = 17


@functools.cache
def kinds_of_bytes() -> Any:
    """Returns the kind of each byte, as an array."""
    assert numpy is not None
    kinds = numpy.zeros(256, numpy.uint8)
    for kind, found in ((DIGIT, b"0123456789-"), (BLANK, b" \t\r\f\v"), (FEED, b"\n"), (COMMA, b",")):
        kinds[list(found)] = kind
    return kinds


def rows_in(text: bytes, by_comma: bool, is_weighted: bool) -> Any:
    """Returns the numbers of whole lines as the rows of a NumPy array, or None.

    It is None without NumPy, and if a line has a word that is no number of at most 17 digits, or fewer words than two, or three
    if edges are weighted, or more words than another line. Only the third number may have a `-`.
    """
    if numpy is None:
        return None
    kinds = kinds_of_bytes()[numpy.frombuffer(text, numpy.uint8)]
    is_digit = numpy.zeros(len(text) + 2, bool)
    numpy.equal(kinds, DIGIT, out=is_digit[1:-1])
    edges = numpy.flatnonzero(is_digit[1:] != is_digit[:-1])
    feeds = numpy.flatnonzero(kinds == FEED)
    width, rest = divmod(len(edges) // 2, len(feeds))
    if rest or width < 2 + is_weighted or not kinds.all() or (edges[1::2] - edges[0::2]).max() > MOST_DIGITS:
        return None
    starts = edges[0::2].reshape(-1, width)
    if (starts[:, -1] >= feeds).any() or (starts[1:, 0] <= feeds[:-1]).any():
        return None
    if not are_parted(starts, numpy.flatnonzero(kinds == COMMA), by_comma) or not are_signed(text, starts, is_weighted):
        return None
    return numbers_in(text.replace(b",", b" ") if by_comma else text, starts.size).reshape(-1, width)


def are_parted(starts: Any, commas: Any, by_comma: bool) -> bool:
    """Says whether there is one comma between the numbers of a line, and no other; or none at all, unless `by_comma`."""
    if not by_comma:
        return len(commas) == 0
    if len(commas) != len(starts) * (starts.shape[1] - 1):
        return False
    commas = commas.reshape(len(starts), -1)
    return bool((starts[:, :-1] < commas).all() and (commas < starts[:, 1:]).all())


def are_signed(text: bytes, starts: Any, is_weighted: bool) -> bool:
    """Says whether each `-` is the first byte of a third number, and a digit follows."""
    assert numpy is not None
    if b"-" not in text:
        return True
    found = numpy.frombuffer(text, numpy.uint8)
    signs = numpy.flatnonzero(found == ord("-"))
    if not is_weighted or not numpy.isin(signs, starts[:, 2]).all():
        return False
    return bool((kinds_of_bytes()[found[signs + 1]] == DIGIT).all())


def integers_of(numbers: Sequence[int]) -> Integers:
    """Returns whole numbers as an array."""
    if numpy is not None:
        return numpy.array(numbers, dtype=numpy.int64)
    return array("q", numbers)


def columns_of(lines: list[bytes]) -> tuple[Integers, Integers, Integers]:
    """Returns the sources, the destinations and the weights of the lines `U V` and `U V W`; a weight is 1 if none is given.

    Raises ValueError for other lines.
    """
    text = b"".join(lines)
    if text.count(b" ") == len(lines):
        ends = numbers_in(text, 2 * len(lines))
        return ends[0::2], ends[1::2], integers_of([1] * len(lines)) if numpy is None else numpy.ones(len(lines), numpy.int64)
    words = [line.split() for line in lines]
    if not all(2 <= len(it) <= 3 for it in words):
        raise ValueError("an edge has two vertices, and may have a weight")
    weights = [int(it[2]) if len(it) > 2 else 1 for it in words]
    return integers_of([int(it[0]) for it in words]), integers_of([int(it[1]) for it in words]), integers_of(weights)


def spelled(word: bytes, columns: Sequence[Any]) -> bytes:
    """Returns the lines of `lines_of` by Python alone."""
    form = word + b" %d" * len(columns) + b"\n"
    count = min(map(len, columns))
    rows = [0] * (len(columns) * count)
    for at, column in enumerate(columns):
        rows[at :: len(columns)] = column[:count]
    return form * count % tuple(rows)


@functools.cache
def digits() -> tuple[Any, Any]:
    """Returns for each number below 10,000 its four digits as one number of 32 bits, and the same with leading zeros as bytes 0."""
    assert numpy is not None
    full = [b"%04d" % it for it in range(BOUND)]
    short = [b"%d" % it for it in range(BOUND)]
    return (
        numpy.frombuffer(b"".join(full), "<u4"),
        numpy.frombuffer(b"".join(it.rjust(DIGITS, b"\0") for it in short), "<u4"),
    )


def spelled_at_once(word: bytes, columns: Sequence[Any]) -> bytes:
    """Returns the lines of `lines_of` for NumPy arrays of numbers from 0 to 99,999,999, by a table of their halves."""
    assert numpy is not None
    full, short = digits()
    head = word + b" "
    parts = [part for at in range(len(columns)) for part in ((f"high{at}", "<u4"), (f"low{at}", "<u4"), (f"space{at}", "S1"))]
    rows = numpy.empty(len(columns[0]), numpy.dtype([("head", f"S{len(head)}"), *parts]))
    rows["head"] = head
    for at, column in enumerate(columns):
        high, low = numpy.divmod(column, BOUND)
        rows[f"high{at}"] = numpy.where(high > 0, short[high], 0)
        rows[f"low{at}"] = numpy.where(high > 0, full[low], short[low])
        rows[f"space{at}"] = b"\n" if at + 1 == len(columns) else b" "
    text: bytes = rows.tobytes()
    return text.translate(None, b"\0")


def is_short(column: Any) -> bool:
    """Says whether a column is a NumPy array of numbers from 0 to 99,999,999."""
    assert numpy is not None
    return isinstance(column, numpy.ndarray) and int(column.min()) >= 0 and int(column.max()) < BOUND * BOUND


def lines_of(word: bytes, columns: Sequence[Any]) -> bytes:
    """Returns a line for each row of columns of whole numbers: the word, and its numbers, with a space between.

    >>> lines_of(b"add", [[0, 1], [2, 3]])
    b'add 0 2\\nadd 1 3\\n'
    """
    if numpy is not None and len(columns[0]) and all(map(is_short, columns)):
        return spelled_at_once(word, columns)
    return spelled(word, columns)
