"""What the commands of the shell share: one graph and its tickets, words of a line, what is said if a line fails, and completion."""
from __future__ import annotations

import cmd
import glob
import inspect
import os
import shlex
import time
from collections.abc import Callable, Hashable, Iterator
from contextlib import contextmanager

from . import ready
from .data import version
from .errors import Closed, Ended, GsnapError, OutOfStep
from .graph import Graph, Held
from .loading import WORDS
from .program import Program
from .refusals import rows
from .script_check import LineRefused, command

# The makers of ready programs, by the words that run them.
READY: dict[str, Callable[..., ready.Ready]] = {
    name: make for name, make in vars(ready).items() if inspect.isfunction(make) and make.__annotations__.get("return") == "Ready"
}

GROUPS = {
    "The graph": "vertices names add del grow commit hold release edges status",
    "Programs": " ".join(["program", "run", *READY]),
    "Files": "load save open",
    "Others": "explain help close quit",
}

# The words that files follow.
OF_FILES = ("load", "save", "open", "program")


def parted(words: str) -> list[str]:
    """Returns the words of a text. One in double quotes may have spaces, such as the name of a file."""
    parts = shlex.shlex(words, posix=True)
    parts.whitespace_split, parts.quotes, parts.escape, parts.commenters = True, '"', "", ""
    try:
        return list(parts)
    except ValueError:
        raise Wrong('a `"` is not closed') from None


def file_of(words: str) -> str:
    """Returns the file that a text names, perhaps in double quotes."""
    is_quoted = len(words) > 2 and words[0] == words[-1] == '"'
    return os.path.expanduser(words[1:-1] if is_quoted else words)


class Wrong(Exception):
    """A line that cannot be done: why, and what can be done."""


class Console(cmd.Cmd):
    """A graph, the versions that it holds by their tickets, and programs by their numbers.

    On a terminal there are a banner and a prompt, and times are said. `failures` counts the lines that could not be done. The
    docstring of the method of a word is its help: `USAGE: what it does`, and then more.
    """

    def __init__(self, is_terminal: bool) -> None:
        super().__init__()
        self.is_terminal = self.use_rawinput = is_terminal
        self.prompt = "gsnap> " if is_terminal else ""
        self.intro = f"gsnap {version()}. `help` lists the commands, `quit` ends." if is_terminal else None
        self.graph: Graph | None = None
        self.held: dict[int, Held] = {}
        self.programs: list[Program] = []
        self.failures = 0

    # Lines

    def say(self, *lines: str) -> None:
        """Prints lines."""
        for line in lines:
            print(line, file=self.stdout, flush=True)

    def fail(self, *lines: str) -> None:
        """Prints why a line could not be done."""
        self.failures += 1
        self.say(*lines)

    def onecmd(self, line: str) -> bool:
        """Does a line, and says whether it ends the shell. On a terminal Ctrl-C ends the line, and the graph stays."""
        try:
            return self.attempt(line)
        except KeyboardInterrupt:
            if not self.is_terminal:
                raise
            self.fail("", "interrupted; the graph is as it was before this line")
            return False

    def attempt(self, line: str) -> bool:
        """Does a line, and says whether it ends the shell. A line that cannot be done says why."""
        try:
            return bool(super().onecmd(line))
        except (Ended, OutOfStep, Closed) as error:
            self.fail(str(error))
            self.drop()
        except KeyError as error:
            self.fail(str(error.args[0]))
        except OSError as error:
            self.fail(f"{error.filename}: {error.strerror}" if error.filename else str(error))
        except (Wrong, GsnapError, ValueError, TypeError) as error:
            self.fail(str(error))
        except MemoryError:
            self.fail("there is not enough memory")
        return False

    def emptyline(self) -> bool:
        """Does nothing."""
        return False

    @contextmanager
    def timed(self) -> Iterator[None]:
        """Says on a terminal how long the body of a `with` took."""
        begun = time.perf_counter()
        yield
        if self.is_terminal:
            self.say(f"{time.perf_counter() - begun:.3f} s")

    # The graph

    def opened(self) -> Graph:
        """Returns the graph, which has to be open."""
        if self.graph is None:
            raise Wrong("no graph is open: `vertices N`, `names`, `load FILE` or `open FILE` opens one")
        return self.graph

    def want_none(self) -> None:
        """Raises Wrong if a graph is open."""
        if self.graph is not None:
            raise Wrong("a graph is open already; `close` closes it")

    def take(self, graph: Graph) -> None:
        """Puts a graph in the place of the one that is open."""
        self.drop()
        self.graph = graph
        self.held = {it.ticket: it for it in graph.holds}

    def drop(self) -> None:
        """Closes the graph, if one is open."""
        graph, self.graph, self.held = self.graph, None, {}
        if graph is not None:
            graph.close()

    def held_by(self, ticket: int) -> Held:
        """Returns what an open ticket holds."""
        if ticket not in self.held:
            raise Wrong(f"refused 122: ticket {ticket} is not open; {self.tickets()}")
        return self.held[ticket]

    def tickets(self) -> str:
        """Says which tickets are open."""
        found = [f"{ticket} (version {it.version})" for ticket, it in self.held.items()]
        return f"open tickets: {', '.join(found)}" if found else "no ticket is open"

    # Words

    def numbers_of(self, word: str, words: list[str]) -> list[int]:
        """Returns the numbers of a line of a script, or raises Wrong with the refusal that gsnap would answer."""
        try:
            return command(" ".join([word, *words]).encode())[1]
        except LineRefused as refused:
            raise Wrong(f"refused {refused.number}: {refused.reason}") from None

    def number_of(self, word: str) -> int:
        """Returns the number that a word is, from 0 to 2^64 - 1."""
        return self.numbers_of("release", [word])[0]

    def vertex_of(self, word: str) -> Hashable:
        """Returns the vertex that a word means: a name, if the graph has names, else a number."""
        return word if self.opened().names is not None else self.number_of(word)

    def place_of(self, words: list[str]) -> tuple[list[str], Held | None]:
        """Returns the words before `at T`, and what ticket T holds, or None if there is no `at T`."""
        if len(words) < 2 or words[-2] != "at":
            return words, None
        return words[:-2], self.held_by(self.number_of(words[-1]))

    def ready_of(self, name: str, words: list[str]) -> ready.Ready:
        """Returns a ready program with its arguments."""
        parameters = list(inspect.signature(READY[name]).parameters.values())
        least = sum(it.default is it.empty for it in parameters)
        if not least <= len(words) <= len(parameters):
            raise Wrong(f"it is `{self.usage_of(name)}`")
        takes = [self.vertex_of if it.annotation == "Hashable" else self.number_of for it in parameters]
        return READY[name](*(take(word) for take, word in zip(takes, words)))

    # Help

    def usage_of(self, name: str) -> str:
        """Returns how a word is used, such as `bfs START [at T]`."""
        if name not in READY:
            return str(getattr(self, f"do_{name}").__doc__).partition("\n")[0].partition(":")[0]
        parameters = inspect.signature(READY[name]).parameters.values()
        words = [it.name.upper() if it.default is it.empty else f"[{it.name.upper()}]" for it in parameters]
        return " ".join([name, *words, "[at T]"])

    def help_of(self, name: str) -> list[str]:
        """Returns lines that say what a word does, the first of them in short."""
        if name in READY:
            return (inspect.getdoc(READY[name]) or "").splitlines()
        lines = inspect.getdoc(getattr(self, f"do_{name}")) or ""
        return lines.partition(": ")[2].splitlines()

    def do_help(self, arg: str) -> None:
        """help [COMMAND]: lists the commands, or says what one does"""
        word = arg.strip()
        if word in self.all_words():
            self.say(self.usage_of(word), *(f"  {line}".rstrip() for line in self.help_of(word)))
        elif word:
            raise Wrong(f"`{word}` is not a command; `help` lists the commands")
        else:
            for group, words in GROUPS.items():
                self.say(f"{group}:", *(f"  {self.usage_of(it):<34} {self.short_help_of(it)}" for it in words.split()))

    def short_help_of(self, name: str) -> str:
        """Says what a word does in a few words."""
        first = self.help_of(name)[0]
        return first.partition(":")[0] if name in READY else first

    def all_words(self) -> list[str]:
        """Returns the words that begin a line."""
        return [word for words in GROUPS.values() for word in words.split()]

    # Completion

    def completenames(self, text: str, *ignored: object) -> list[str]:
        """Returns the words that begin with a text."""
        return [f"{it} " for it in self.all_words() if it.startswith(text)]

    def complete_help(self, *args: object) -> list[str]:
        """Returns the words that begin with a text."""
        return self.completenames(str(args[0]))

    def completedefault(self, *args: object) -> list[str]:
        """Returns what may follow a word and begins with a text: files, tickets, numbers."""
        text, line = str(args[0]), str(args[1])
        before = line[: int(str(args[2]))].split()
        found: list[str] = []
        if before[0] in OF_FILES and len(before) == 1:
            paths = sorted(glob.glob(glob.escape(os.path.expanduser(text)) + "*"))
            return [f"{it}/" if os.path.isdir(it) else f"{it} " for it in paths]
        if before[0] in ("release", "edges") or before[-1] == "at":
            found = [str(it) for it in self.held]
        elif before == ["explain"]:
            found = [str(it) for it in rows()]
        elif before == ["run"]:
            found = [str(it) for it in range(1, len(self.programs) + 1)]
        elif before[0] == "load":
            found = sorted([*WORDS, "columns", "scale"])
        return [f"{it} " for it in found if it.startswith(text)]
