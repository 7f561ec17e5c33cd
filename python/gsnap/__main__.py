"""The command `python3 -m gsnap`: the shell, and `python3 -m gsnap page`, which writes a page."""
from __future__ import annotations

import argparse
import os
import sys
from pathlib import Path

from .data import version
from .endings import end_in_order, ignore_endings
from .page.command import write_page
from .shell import Shell

# How many lines of history are kept.
MOST_HISTORY = 1000

ABOUT = """\
A shell for a graph with versions: edits and questions, line by line. `help` lists the commands. On a terminal there are a
history and completion by the tab key, and Ctrl-C ends a run, not the graph.

`python3 -m gsnap page SCRIPT PROGRAM ..` writes a page of a script's versions; its --help says more."""


def history_path() -> Path:
    """Returns the path of the file that keeps the history."""
    state = os.environ.get("XDG_STATE_HOME") or os.path.join(os.path.expanduser("~"), ".local", "state")
    return Path(state, "gsnap", "history")


def read_history() -> None:
    """Reads the history, if there is one, and sets what parts the words that are completed."""
    try:
        import readline
    except ImportError:
        return
    readline.set_completer_delims(" \t\n")
    readline.set_history_length(MOST_HISTORY)
    try:
        readline.read_history_file(history_path())
    except OSError:
        pass


def write_history() -> None:
    """Writes the history; a folder that cannot be written keeps none."""
    try:
        import readline

        history_path().parent.mkdir(parents=True, exist_ok=True, mode=0o700)
        readline.write_history_file(history_path())
    except (ImportError, OSError):
        pass


def talk(shell: Shell) -> None:
    """Does the lines of a terminal until one ends the shell. Ctrl-C at the prompt drops the line."""
    read_history()
    try:
        talk_on(shell)
    finally:
        write_history()


def talk_on(shell: Shell) -> None:
    """Does the lines, and then takes no signal: a terminal that is closed ends the input too, before or after its signal, and the
    second of both must not cut off what the first began."""
    try:
        while True:
            try:
                shell.cmdloop()
                return
            except KeyboardInterrupt:
                shell.intro = None
                shell.say("")
    finally:
        ignore_endings()


def main() -> int:
    """Writes a page if the first word is `page`, else runs the shell."""
    if sys.argv[1:2] != ["page"]:
        return run_shell()
    end_in_order()
    try:
        return write_page(sys.argv[2:])
    except KeyboardInterrupt:
        return 130


def run_shell() -> int:
    """Runs the shell. The status is 1 if input is no terminal and a line could not be done, 130 after Ctrl-C there, else 0."""
    parser = argparse.ArgumentParser(
        prog="python3 -m gsnap", description=ABOUT, formatter_class=argparse.RawDescriptionHelpFormatter
    )
    parser.add_argument("file", metavar="FILE", nargs="?", help="a file that is loaded first, as by `load FILE`")
    parser.add_argument("--version", action="version", version=f"gsnap {version()}")
    options = parser.parse_args()
    end_in_order()
    shell = Shell(sys.stdin.isatty() and sys.stdout.isatty())
    try:
        if options.file:
            shell.onecmd(f'load "{options.file}"' if '"' not in options.file else f"load {options.file}")
        if shell.is_terminal:
            talk(shell)
            return 0
        shell.cmdloop()
        return 1 if shell.failures else 0
    except KeyboardInterrupt:
        return 130
    except BrokenPipeError:
        os.dup2(os.open(os.devnull, os.O_WRONLY), sys.stdout.fileno())
        return 1
    finally:
        shell.drop()


if __name__ == "__main__":
    sys.exit(main())
