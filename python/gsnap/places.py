"""Where in a program a refusal or a fault is, and the likely cause of a refusal by the grammar."""
from __future__ import annotations

import re
from collections.abc import Iterator, Sequence

from .refusals import row_of

TOKEN = re.compile(r"//.*|#\w+#|\"[^\"]*\"|min=|max=|\w+|\s+|[<>=!+-][=>]|.")

# What ends before the place of a refusal 211, what begins there, and the cause then. The first that fits is taken.
CAUSES = [
    (r"\A\s*\Z", r"(vertices|add|del|commit)\b", "this is a script: `gsnap script` takes it before the programs"),
    (r"\belif\s*\Z", r"", "there is no `elif`: write `else if ..`, and an `end` more"),
    (r"", r"\{", "blocks have no braces: a body goes up to its `end`"),
    (r"/\Z", r"\*", "a comment begins with `//` and goes up to the end of its line"),
    (r"", r"/\*", "a comment begins with `//` and goes up to the end of its line"),
    (r"\bprint\s*\Z", r"\"", "`print` takes a number or a truth value: there are no texts"),
    (r"[0-9]\Z", r"\.", "there are no fractions: count in hundredths or millionths"),
    (r"", r"[-*/%]\s*=", "there is no such statement but `+=`: write `x += -1;` or `x = x * 2;`"),
    (r"", r"\+=|min=|max=", "a reduction is a statement, `x += 1;` or `x[v] += 1;`, and no part of an expression"),
    (r"\.\s*to\s*\([^()]*\)\s*\.\s*\Z", r"from\b", "`from` comes before `to`"),
    (r"\.\s*\Z", r"applyModified\b", "its set has to go somewhere: `s = edges.applyModified(f, x);`, or take `apply`"),
    (r"\bfor\s+\w+\s+in\s+[^:;]*\Z", r"", "a `for` has two bounds: `for i in 0:10` goes from 0 to 9"),
    (r"[\w\])]\s*\n\s*\Z", r"", "a `;` may be missing at the end of the line before"),
]

# What a run's end by a fault means, behind the statement.
FAULT = "401: an index of this statement, or what it adds to a set, is no vertex of the graph"


def as_bytes(text: str | bytes) -> bytes:
    """Returns the bytes of a text, in which offsets are counted."""
    return text.encode("utf-8", "surrogateescape") if isinstance(text, str) else text


def shown(name: str, text: str | bytes, offset: int) -> list[str]:
    """Returns the lines that show a place in a text: file, line and column, the line itself, and a caret.

    `name` is what the file is called. `offset` is counted in bytes from 0.
    """
    data = as_bytes(text)
    number = data.count(b"\n", 0, offset) + 1
    start = data.rfind(b"\n", 0, offset) + 1
    line = data[start:].split(b"\n", 1)[0].decode(errors="replace").replace("\t", " ").rstrip("\r")
    column = len(data[start:offset].decode(errors="replace"))
    margin = " " * len(str(number))
    return [
        f"{margin}--> {name}:{number}:{column + 1}",
        f"{margin} |",
        f"{number} | {line}",
        f"{margin} | {' ' * column}^",
    ]


def cause(text: str | bytes, offset: int) -> str | None:
    """Returns the likely cause of a refusal 211 at an offset in bytes, or None if nothing there suggests one."""
    data = as_bytes(text)
    before, after = data[:offset].decode(errors="replace"), data[offset:].decode(errors="replace")
    if not after.strip():
        return "the text ends here: an `end` or a `;` is missing, for a `func`, a block or a statement"
    for left, right, said in CAUSES:
        if re.search(left, before) and re.match(right, after):
            return said
    return None


def meaning(number: int, cure: str | None = None) -> list[str]:
    """Returns lines with the meaning of a refusal and its cure: the table's, if none is given."""
    row = row_of(number)
    lines = [] if row is None else [f" = {number}: {row.means}"]
    cure = cure or (row.cure if row else None)
    return lines + [f" = {cure}"] if cure else lines


def refusal_text(name: str, text: str | bytes, number: int, offset: int, told: Sequence[str] = ()) -> str:
    """Returns lines that explain the refusal of a program: its place, what the number means, and what to do.

    `told` are the lines of gsnap after the place. If there are none, the meaning is that of the table, and the cause is a guess.
    """
    if told:
        meant = [f" = {number}: {told[0]}", *(f" = {it}" for it in told[1:])]
    else:
        meant = meaning(number, cause(text, offset) if number == 211 else None)
    return "\n".join(shown(name, text, offset) + meant)


def tokens_of_main(text: str) -> Iterator[tuple[int, str]]:
    """Yields the offset and the text of each token in the body of `main`."""
    head = re.search(r"\bfunc\s+main\s*\(\s*\)", text)
    for token in TOKEN.finditer(text, head.end() if head else len(text)):
        if not token[0].isspace() and not token[0].startswith("//"):
            yield token.start(), token[0]


def begins_statement(token: str, before: str) -> bool:
    """Says whether a token of `main` is the first of a statement, by the token before it."""
    if not re.match(r"\w|#", token) or token in ("in", "and", "or", "else", "end", "min=", "max="):
        return False
    if before in ("var", "print", "while", "if", "for", "in", "new", "not", "and", "or"):
        return False
    return token in ("while", "for", "if") or before == ";" or re.fullmatch(r"\w+|[)\]]", before) is not None


def statements(text: str) -> Iterator[int]:
    """Yields the offset of each statement of `main`, in the order in which they are numbered."""
    opened = 1
    before = ";"
    for offset, token in tokens_of_main(text):
        if begins_statement(token, before):
            yield offset
        opened += (token in ("while", "for", "if")) - (token == "end")
        if not opened:
            return
        before = "var" if token.startswith("#") else token


def statement_text(name: str, text: str | bytes, statement: int) -> str:
    """Returns lines that show a statement of `main`, numbered from 1, at which a run ended by a fault 401.

    The text is empty if `main` has fewer statements.
    """
    data = as_bytes(text)
    found = list(statements(data.decode("latin-1")))
    if not 1 <= statement <= len(found):
        return ""
    return "\n".join([*shown(name, data, found[statement - 1]), f" = {FAULT}"])
