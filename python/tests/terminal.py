"""A terminal, by tmux, in which a test types as a person would."""
from __future__ import annotations

import os
import shlex
import subprocess
import time
import uuid
from pathlib import Path

# After so many seconds a text that is waited for does not come.
PATIENCE = 30
PACKAGE = Path(__file__).resolve().parents[1]


class Terminal:
    """A window in which a command runs, in a folder of its own, with its history in that folder too."""

    def __init__(self, folder: Path, *words: str, settings: dict[str, str] | None = None) -> None:
        self.server = f"gsnap-{uuid.uuid4().hex}"
        given = {"PYTHONPATH": str(PACKAGE), "XDG_STATE_HOME": str(folder / "state"), "GSNAP": os.environ.get("GSNAP", "")}
        settings = {**given, **(settings or {})}
        command = shlex.join(["env", *(f"{name}={value}" for name, value in settings.items() if value), *words])
        self.tmux("new-session", "-d", "-s", "it", "-x", "150", "-y", "50", "-c", str(folder), f"{command}; echo ended; sleep 60")
        self.tmux("set-option", "-t", "it", "history-limit", "10000")

    def tmux(self, *words: str) -> str:
        """Runs a command of tmux, and returns what it prints."""
        return subprocess.run(["tmux", "-L", self.server, "-f", "/dev/null", *words], check=True, capture_output=True, text=True).stdout

    def press(self, *keys: str) -> None:
        """Presses keys, such as Enter, Tab, Up, C-c."""
        self.tmux("send-keys", "-t", "it", *keys)

    def type(self, *lines: str) -> None:
        """Types lines, each with Enter."""
        for line in lines:
            self.tmux("send-keys", "-t", "it", "-l", line)
            self.press("Enter")

    def screen(self) -> str:
        """Returns all that the window has shown."""
        return self.tmux("capture-pane", "-p", "-J", "-S", "-", "-t", "it")

    def wait(self, text: str, count: int = 1) -> str:
        """Waits until a text has been shown so many times, and returns all that has."""
        until = time.monotonic() + PATIENCE
        while (shown := self.screen()).count(text) < count:
            assert time.monotonic() < until, f"{text!r} did not come:\n{shown}"
            time.sleep(0.05)
        return shown

    def close(self) -> None:
        """Ends the window and all that runs in it."""
        subprocess.run(["tmux", "-L", self.server, "kill-server"], check=False, capture_output=True)

    def __enter__(self) -> Terminal:
        return self

    def __exit__(self, *_: object) -> None:
        self.close()
