"""Ends in order if a signal asks for it: servers and folders that a program made go with it."""
from __future__ import annotations

import signal
import sys
from collections.abc import Iterator
from contextlib import contextmanager
from typing import NoReturn

# A closed terminal, and a request to end.
ENDINGS = (signal.SIGHUP, signal.SIGTERM)


def ignore_endings() -> None:
    """Takes no such signal any more."""
    for number in ENDINGS:
        signal.signal(number, signal.SIG_IGN)


def end(number: int, _frame: object) -> NoReturn:
    """Ends in order; a second signal does not cut that off."""
    ignore_endings()
    sys.exit(128 + number)


@contextmanager
def delayed() -> Iterator[None]:
    """Keeps a signal that comes in the body of a `with`, and raises SystemExit after it. A second signal raises it at once."""
    came: list[int] = []

    def keep(number: int, _frame: object) -> None:
        came.append(number)
        end_in_order()

    for number in ENDINGS:
        signal.signal(number, keep)
    try:
        yield
    finally:
        end_in_order()
    if came:
        end(came[0], None)


def end_in_order() -> None:
    """Lets the signals raise SystemExit, so that what a `with` or a `finally` clears away is cleared away."""
    for number in ENDINGS:
        signal.signal(number, end)
