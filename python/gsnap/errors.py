"""What can go wrong, by kind. Every exception of the package but TypeError, ValueError and KeyError is a GsnapError."""
from __future__ import annotations

import signal


class GsnapError(Exception):
    """Any of the errors below."""


class NoProgram(GsnapError):
    """There is no program gsnap to run where it was looked for."""


class Closed(GsnapError):
    """The graph, or what it held, was closed before."""


class Mistake(GsnapError, ValueError):
    """A file, or a text of replies, is not in its form: what is wrong, and in which line."""


class Refused(GsnapError):
    """A line of the graph's script was refused. The graph can still be used, and has the version that it had.

    `number` is the refusal's number, `line` the line, `cause` and `cure` what the table of refusals says of the number, and
    `entry` the entry of the batch because of which a `commit` was refused, or None.
    """

    def __init__(self, number: int, line: str, cause: str, cure: str, entry: str | None = None) -> None:
        super().__init__(f"`{line}` was refused by {number}: {entry or cause}; {cure}")
        self.number = number
        self.line = line
        self.cause = cause
        self.cure = cure
        self.entry = entry


class ProgramRefused(GsnapError):
    """A program does not compile. The text shows the line and the place, the cause and the cure.

    `number` is the refusal's number, and `offset` its place in bytes from 0, or None if none is known.
    """

    def __init__(self, text: str, number: int, offset: int | None) -> None:
        super().__init__(text)
        self.number = number
        self.offset = offset


class Ended(GsnapError):
    """The process of gsnap ended by itself, and the graph is gone.

    `status` is its exit status, or minus the number of the signal that ended it, and `words` what it wrote to standard error.
    """

    def __init__(self, status: int, words: str) -> None:
        said = f"; its last words: {words}" if words else "; it said nothing"
        super().__init__(f"gsnap {how_it_ended(status)}, and the graph is gone{said}")
        self.status = status
        self.words = words


class OutOfStep(GsnapError):
    """A reply does not fit the line that asked for it. The graph was closed, since no later answer could be believed."""

    def __init__(self, line: str, wanted: str, reply: str) -> None:
        super().__init__(f"`{line}` was answered by `{reply}` where `{wanted}` was due; the graph is closed")


def how_it_ended(status: int) -> str:
    """Says how a process ended, as in `was ended by signal 9 (SIGKILL)`."""
    if status >= 0:
        return f"ended with status {status}"
    try:
        return f"was ended by signal {-status} ({signal.Signals(-status).name})"
    except ValueError:
        return f"was ended by signal {-status}"
