"""A program for graphs, compiled before anything runs it."""
from __future__ import annotations

import functools
import os
import re
import subprocess
import tempfile
import weakref
from collections.abc import Mapping
from pathlib import Path

from . import data
from .errors import GsnapError, ProgramRefused
from .places import refusal_text

# What `gsnap check` says of a text that does not compile.
REFUSAL = re.compile(r"refused (?P<number>[0-9]+)(?: at (?P<offset>[0-9]+))?$", re.MULTILINE)

# With what the text of a program begins, comments aside. No other str without a line feed is a text.
BEGINNING = re.compile(r"\s*element\s")

# A declaration of a constant number in a program's text.
CONSTANT = r"(?m)^(?P<head>const {name} : int = )-?[0-9]+;"


@functools.cache
def folder() -> tempfile.TemporaryDirectory[str]:
    """Returns the folder with the texts of all programs of this interpreter, which goes with it."""
    return tempfile.TemporaryDirectory(prefix="gsnap-programs-")


def written(text: str) -> Path:
    """Writes a program's text to a file, and returns its path."""
    handle, path = tempfile.mkstemp(suffix=".program", dir=folder().name)
    with open(handle, "w", encoding="utf-8", newline="") as out:
        out.write(text)
    return Path(path)


def read(text_or_path: str | os.PathLike[str]) -> tuple[str, str]:
    """Returns the name and the text of a program; a str that has a line feed or begins with `element` is a text, another a path."""
    if isinstance(text_or_path, str) and ("\n" in text_or_path or BEGINNING.match(text_or_path)):
        return "program", text_or_path
    if not isinstance(text_or_path, (str, os.PathLike)):
        call = "; call it, as in gsnap.components()" if callable(text_or_path) else ""
        raise TypeError(f"a program is a text or a path, not {type(text_or_path).__name__}{call}")
    with open(text_or_path, encoding="utf-8", newline="") as file:
        return os.fspath(text_or_path), file.read()


class Program:
    """A program, compiled by `gsnap check`.

    `text_or_path` is the program's text, if it has a line feed or begins with `element`, else the path of a file that is read now.
    `constants` puts other numbers into declarations `const NAME : int = NUMBER;` of the text. Two programs of one text are equal.

    Raises ProgramRefused if the program does not compile, with the line, the place, the cause and the cure; OSError if the file
    cannot be read; KeyError for a constant that the text does not declare so; and NoProgram if there is no gsnap.

    >>> Program("element Vertex end\\nelement Edge end\\nfunc main() print 1 + true; end\\n")
    Traceback (most recent call last):
        ...
    gsnap.errors.ProgramRefused:  --> program:3:13
      |
    3 | func main() print 1 + true; end
      |             ^
     = 223: the type or the kind is wrong there
     = what is printed is an int or a bool; `+` and `<` take ints, `and` and `not` bools
    """

    def __init__(self, text_or_path: str | os.PathLike[str], constants: Mapping[str, int] | None = None) -> None:
        self.name, text = read(text_or_path)
        for name, number in (constants or {}).items():
            text, count = re.subn(CONSTANT.format(name=re.escape(name)), rf"\g<head>{number};", text)
            if count != 1:
                raise KeyError(f"{self.name} declares no constant number {name!r}")
        self.text = text
        self.path = written(text)
        self._end = weakref.finalize(self, self.path.unlink, missing_ok=True)
        self._check()

    @staticmethod
    def text_of(text_or_path: str | os.PathLike[str]) -> str:
        """Returns the text of a program that is given by its text or its path."""
        return read(text_or_path)[1]

    def _check(self) -> None:
        words = [os.fspath(data.program()), "check", os.fspath(self.path)]
        found = subprocess.run(words, capture_output=True, stdin=subprocess.DEVNULL, check=False)
        if found.returncode == 0:
            return
        said = found.stderr.decode(errors="replace")
        refusal = REFUSAL.search(said)
        if refusal is None:
            raise GsnapError(f"gsnap check ended with status {found.returncode}: {said.strip()}")
        number = int(refusal["number"])
        offset = int(refusal["offset"]) if refusal["offset"] else None
        if offset is None:
            raise ProgramRefused(f"{self.name}: refused {number}", number, offset)
        told = [it.removeprefix(" = ") for it in said.splitlines() if it.startswith(" = ")]
        raise ProgramRefused(refusal_text(self.name, self.text, number, offset, told), number, offset)

    def __eq__(self, other: object) -> bool:
        return isinstance(other, Program) and self.text == other.text

    def __hash__(self) -> int:
        return hash(self.text)

    def __repr__(self) -> str:
        return f"<gsnap.Program {self.name}>"
