"""The statements of a program's `main`, and a text of the same program that prints which loop each turn enters."""
from __future__ import annotations

import re
from collections.abc import Sequence
from dataclasses import dataclass

from ..places import statements, tokens_of_main

# What the marked text prints before each number that the program itself prints.
OWN = 0


@dataclass
class Statement:
    """A statement of `main`: its place in the text, its first word, and, for a loop, where its body begins.

    For a statement with a block the place ends before the block.
    """

    start: int
    end: int
    word: str
    body: int = 0


def statements_of(text: str) -> list[Statement]:
    """Returns the statements of `main`, in the order in which they are numbered from 1."""
    starts = list(statements(text))
    tokens = list(tokens_of_main(text))
    places = {offset: at for at, (offset, _) in enumerate(tokens)}
    return [statement_at(text, tokens, places[start], set(starts)) for start in starts]


def statement_at(text: str, tokens: Sequence[tuple[int, str]], at: int, starts: set[int]) -> Statement:
    """Returns the statement that begins at a token."""
    start = tokens[at][0]
    at += tokens[at][1].startswith("#")
    word = tokens[at][1]
    if word not in ("while", "for", "if"):
        end = next((offset + 1 for offset, token in tokens[at:] if token == ";"), len(text))
        return Statement(start, end, word)
    body = next(it for it in range(at + 1, len(tokens)) if tokens[it][0] in starts or tokens[it][1] in ("end", "else"))
    offset, token = tokens[body - 1]
    return Statement(start, offset + len(token), word, tokens[body][0])


def marked(text: str) -> str:
    """Returns a text of the same program that prints the number of a loop whenever a turn enters it.

    It prints 0 before each number that the program prints itself.

    >>> marked("func main() while true print 7; end end")
    'func main() while true print 1; print 0; print 7; end end'
    """
    inserts = []
    for number, it in enumerate(statements_of(text), 1):
        if it.word in ("while", "for"):
            inserts.append((it.body, f"print {number}; "))
        elif it.word == "print":
            inserts.append((it.start, f"print {OWN}; "))
    pieces, before = [], 0
    for offset, said in sorted(inserts, key=lambda it: it[0]):
        pieces += [text[before:offset], said]
        before = offset
    return "".join([*pieces, text[before:]])


def loops_entered(printed: Sequence[str]) -> list[int]:
    """Returns the loop that each turn entered, by what the marked text printed.

    >>> loops_entered(["1", "0", "7", "1"])
    [1, 1]
    """
    loops, lines = [], iter(printed)
    for line in lines:
        if line == str(OWN):
            next(lines)
        else:
            loops.append(int(line))
    return loops


def next_statement(found: Sequence[Statement], loop: int) -> int:
    """Returns the number of the statement that comes first in the body of a loop, or the loop's own if its body is empty."""
    starts = [it.start for it in found]
    body = found[loop - 1].body
    return starts.index(body) + 1 if body in starts else loop


def pieces_of(text: str) -> list[tuple[str, int]]:
    """Returns the text in pieces, each with the number of the statement that it is, or 0.

    >>> pieces_of("func main() print 7; end")
    [('func main() ', 0), ('print 7;', 1), (' end', 0)]
    """
    pieces, before = [], 0
    for number, it in enumerate(statements_of(text), 1):
        pieces += [(text[before : it.start], 0), (text[it.start : it.end], number)]
        before = it.end
    return [it for it in [*pieces, (text[before:], 0)] if it[0]]


def initial_numbers(text: str) -> dict[str, int]:
    """Returns the number that each vector begins with at every vertex; a vector that begins in another way is left out."""
    code = re.sub(r"//.*", "", text)
    found = re.findall(r"\bconst\s+(\w+)\s*:\s*vector\s*\{\s*Vertex\s*\}\s*\(\s*int\s*\)\s*=\s*(-?)\s*([0-9]+)\s*;", code)
    return {name: int(sign + digits) for name, sign, digits in found}
