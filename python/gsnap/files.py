"""Graphs in files: scripts that make the versions that are kept again, and the names beside them."""
from __future__ import annotations

import errno
import gzip
import json
import os
import re
from collections.abc import Iterable, Iterator
from pathlib import Path
from typing import IO

from .errors import Mistake
from .graph import Graph
from .journal import PIECE, Journal
from .names import Names
from .saving import checkpoint
from .session import Session

# Each line of a script that neither adds an edge nor takes one away.
COMMAND = re.compile(rb"(?m)^(?!add |del ).+$")

# The beginning of each line that joins the pending batch.
EDIT = re.compile(rb"(?m)^(?:add|del|grow) ")
COMMIT = re.compile(rb"(?m)^commit$")


def names_path(path: Path) -> Path:
    """Returns where the names of a graph in a file are."""
    return path.with_name(path.name + ".names")


def spelled(names: Names) -> str:
    """Returns a line for each name, as JSON. Raises TypeError for a name that is no text, whole number or truth value."""
    lines = []
    for name in names.first(len(names)):
        if not isinstance(name, (str, int)):
            raise TypeError(f"{name!r} cannot be saved: names in a file are texts, whole numbers or truth values")
        lines.append(json.dumps(name) + "\n")
    return "".join(lines)


def opened(path: Path, is_packed: bool, mode: str) -> IO[bytes]:
    """Opens a file, which is packed by gzip or not."""
    return gzip.open(path, mode) if is_packed else open(path, mode)  # type: ignore[return-value]


def replace(path: Path, pieces: Iterable[bytes], is_packed: bool = False) -> None:
    """Writes a file beside its place and then moves it there, so that there is never half of it."""
    if not path.name or path.is_dir():
        raise IsADirectoryError(errno.EISDIR, os.strerror(errno.EISDIR), os.fspath(path))
    if not path.parent.is_dir():
        raise FileNotFoundError(errno.ENOENT, os.strerror(errno.ENOENT), os.fspath(path.parent))
    part = path.with_name(f".{path.name}.{os.getpid()}")
    try:
        with opened(part, is_packed, "wb") as out:
            for piece in pieces:
                out.write(piece)
        os.replace(part, path)
    except BaseException:
        part.unlink(missing_ok=True)
        raise


def save(session: Session, names: Names | None, given: str | os.PathLike[str]) -> None:
    """Writes the versions of a session that are kept to a file, and the names, if there are any, to one beside it."""
    path = Path(given)
    text = None if names is None else spelled(names)
    replace(path, checkpoint(session.kept()), path.suffix == ".gz")
    if text is None:
        names_path(path).unlink(missing_ok=True)
    else:
        replace(names_path(path), [text.encode()])


def pieces_of(path: Path) -> Iterator[bytes]:
    """Yields what a file holds, unpacked if it is packed by gzip."""
    with open(path, "rb") as file:
        is_packed = file.read(2) == b"\x1f\x8b"
    with opened(path, is_packed, "rb") as file:
        while piece := file.read(PIECE):
            yield piece


def whole_lines(pieces: Iterable[bytes]) -> Iterator[bytes]:
    """Yields a text as many whole lines at a time; the last one is ended too."""
    begun = b""
    for piece in pieces:
        lines, ended, begun = (begun + piece).rpartition(b"\n")
        yield lines + ended
    if begun:
        yield begun + b"\n"


def read_script(path: Path) -> tuple[Journal, list[bytes], int]:
    """Returns a script that is in a file, its lines that neither add an edge nor take one away, and how many edits are last."""
    journal = Journal()
    commands: list[bytes] = []
    pending = 0
    for lines in whole_lines(pieces_of(path)):
        journal.append(lines)
        commands += COMMAND.findall(lines)
        commits = [it.end() for it in COMMIT.finditer(lines)]
        pending = len(EDIT.findall(lines, commits[-1])) if commits else pending + len(EDIT.findall(lines))
    return journal, commands, pending


def read_names(path: Path) -> Names | None:
    """Returns the names that are beside a file, or None if there are none."""
    if not path.name or not names_path(path).exists():
        return None
    names = Names()
    with open(names_path(path), encoding="utf-8") as lines:
        for at, line in enumerate(lines, 1):
            try:
                names.number(json.loads(line))
            except (ValueError, TypeError):
                raise Mistake(f"{names_path(path)}:{at}: {line.rstrip()[:60]!r} is no name, as in '\"ann\"'") from None
    return names


def open_graph(given: str | os.PathLike[str]) -> Graph:
    """Makes the graph again that `Graph.save` wrote to a file, or any other whose script has no runs and lists no edges.

    It has the same versions by the same numbers; those that were held are in `Graph.holds`. Raises OSError if the file cannot be
    read, and Mistake if a line of it is refused.
    """
    path = Path(given)
    names = read_names(path)
    journal, commands, pending = read_script(path)
    return Graph(names=names, session=Session.of_script(journal, commands, pending, os.fspath(path)))
