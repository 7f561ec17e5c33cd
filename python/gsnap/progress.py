"""A bar that shows on a terminal how far a long task is."""
from __future__ import annotations

import os
import stat
import time
from typing import IO

WIDTH = 40
# After so many seconds a task is long, and so often the bar is drawn.
PATIENCE = 1.0
PAUSE = 0.1


class Progress:
    """A bar on standard error, which is drawn only if that is a terminal and the task lasts longer than a second."""

    def __init__(self, terminal: IO[str]) -> None:
        self.terminal = terminal
        self.is_used = terminal.isatty()
        self.is_drawn = False
        self.next = time.monotonic() + PATIENCE

    def show(self, what: str, done: int, whole: int) -> None:
        """Draws the bar: how much is done of the whole, or as many MB as are done if the whole is 0, which means unknown."""
        if not self.is_used or time.monotonic() < self.next:
            return
        part = min(done / whole, 1.0) if whole else 0.0
        bar = f"[{'#' * int(part * WIDTH):<{WIDTH}}] {part:4.0%}" if whole else f"{done / 1e6:,.0f} MB"
        self.terminal.write(f"\r{what} {bar}\x1b[K")
        self.terminal.flush()
        self.is_drawn = True
        self.next = time.monotonic() + PAUSE

    def clear(self) -> None:
        """Takes the bar away."""
        if self.is_drawn:
            self.terminal.write("\r\x1b[K")
            self.terminal.flush()
            self.is_drawn = False


class Reading:
    """A file that is read, with the bar of a task for its bytes."""

    def __init__(self, source: IO[bytes], progress: Progress) -> None:
        self.source = source
        self.progress = progress
        self.done = 0
        found = os.fstat(source.fileno())
        self.whole = found.st_size if stat.S_ISREG(found.st_mode) else 0

    def read(self, count: int) -> bytes:
        """Returns at most so many bytes, and none at the end."""
        piece = self.source.read(count)
        self.done += len(piece)
        self.progress.show("reading", self.done, self.whole)
        return piece
