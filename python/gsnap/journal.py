"""The script of a graph so far, in a file that nobody else sees and that goes with the process."""
from __future__ import annotations

import os
import tempfile
from collections.abc import Iterator

# How many bytes are read at a time.
PIECE = 1 << 20


class Journal:
    """Lines of a script. What was appended behind a place can be cut off again."""

    def __init__(self) -> None:
        self._file = tempfile.TemporaryFile()
        self.length = 0

    def append(self, text: bytes) -> None:
        """Adds lines; if this is interrupted, the journal is as it was."""
        done = 0
        while done < len(text):
            done += os.pwrite(self._file.fileno(), text[done:] if done else text, self.length + done)
        self.length += len(text)

    def cut(self, length: int) -> None:
        """Takes all away but the first `length` bytes."""
        self.length = length

    def pieces(self) -> Iterator[bytes]:
        """Yields the text, some bytes at a time."""
        at = 0
        while at < self.length:
            piece = os.pread(self._file.fileno(), min(PIECE, self.length - at), at)
            at += len(piece)
            yield piece

    def close(self) -> None:
        """Lets the file go."""
        self._file.close()
