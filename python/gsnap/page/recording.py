"""What gsnap answers to a script: its versions, tickets, runs and refusals, read from the replies.

The script is done once, with lines of the recorder's own among its lines: `edges` on each version, and a run of each program on
each version that the script does not run it on. Such a line changes no answer to another.
"""
from __future__ import annotations

import subprocess
import tempfile
from collections.abc import Iterator, Sequence
from dataclasses import dataclass, field
from pathlib import Path

from .. import data
from ..errors import Ended, Mistake
from ..listing import Listing
from ..program import Program
from ..replies import Committed, Listed, Opened, ReadNumbers, RefusedLine, Released, Reply, RunReply, Ticketed, list_of, parse
from ..script_check import EDIT, LineRefused, Script, command

# The bound on turns of a run on a version that the script does not run the program on, if no line of the script names one.
TURNS = 1_000_000

# How many edges are listed in all; if there may be more, those of the newest version are listed alone.
MOST_LISTED = 4_000_000

# How many entries the runs have in all that the recorder adds.
MOST_ADDED_ENTRIES = 4_000_000

# How many refused lines are remembered.
MOST_REFUSED = 1000


@dataclass
class Line:
    """A line of a script that is due a reply: its number, its words, and what is known of it before it is done.

    `refusal` is the number of the refusal that it is due, or 0. `version` is the one that it makes, holds, lists or runs on.
    `edits` are the lines right before it that are due no reply.
    """

    at: int
    text: bytes
    word: str
    numbers: list[int]
    refusal: int
    version: int
    edits: list[bytes] = field(default_factory=list)


@dataclass
class Version:
    """One version: how many vertices it has, its edges if they were listed, and the line of the script that made it."""

    number: int
    vertices: int
    line: int
    edges: Listing | None = None


@dataclass
class Ticket:
    """A ticket: the version that it holds, and which versions were the newest when it was given and when it was closed."""

    ticket: int
    version: int
    first: int
    last: int | None = None


@dataclass
class RecordedRun:
    """The answer of a program, numbered from 1, on a version with a bound on turns.

    `line` is the line of the script that asked for it, and 0 if the recorder did.
    """

    program: int
    version: int
    bound: int
    workers: int
    line: int
    reply: RunReply


@dataclass
class Refusal:
    """A line of the script that was refused, by a number."""

    line: int
    text: str
    number: int


@dataclass
class Recording:
    """What was answered to a script. `edits` are its lines that make the versions, by the version that each batch makes."""

    programs: Sequence[Program]
    versions: list[Version] = field(default_factory=list)
    tickets: list[Ticket] = field(default_factory=list)
    runs: list[RecordedRun] = field(default_factory=list)
    refusals: list[Refusal] = field(default_factory=list)
    notes: list[str] = field(default_factory=list)
    edits: list[bytes] = field(default_factory=list)

    def main_runs(self) -> list[RecordedRun]:
        """Returns, for each program and version, the run with the greatest bound, ascending by program and version."""
        found: dict[tuple[int, int], RecordedRun] = {}
        for it in self.runs:
            place = (it.program, it.version)
            if place not in found or it.bound > found[place].bound:
                found[place] = it
        return [found[place] for place in sorted(found)]


def joined(lines: list[bytes]) -> bytes:
    """Returns lines as the text of a script."""
    return b"".join(it + b"\n" for it in lines)


class Outline:
    """What the lines of a script will do: those that are due a reply, and the edits of each version.

    Raises Mistake if the script opens no graph.
    """

    def __init__(self, text: bytes, programs: int) -> None:
        self.lines: list[Line] = []
        self.edits: list[bytes] = []
        self.vertices: list[int] = []
        self.added: list[int] = []
        self._state = Script(programs)
        self._batch: list[bytes] = []
        self._unsent: list[bytes] = []
        self._adds = 0
        for at, line in enumerate(text.split(b"\n"), 1):
            if line:
                self._take(at, line)
        if self._state.vertices is None:
            raise Mistake("the script opens no graph: its first line is `vertices N`")

    def _take(self, at: int, line: bytes) -> None:
        edit = EDIT.fullmatch(line + b"\n")
        if edit and self._state.vertices:
            self._state.edit(at, [int(end) for end in edit.groups() if end])
            self._keep(line)
            return
        word, refusal = "", 0
        numbers: list[int] = []
        try:
            name, numbers = command(line)
            word = name.decode()
            self._state.take(at, name, numbers)
        except LineRefused as refused:
            refusal = refused.number
        if word in ("add", "del", "grow") and not refusal:
            self._keep(line)
            return
        self.lines.append(Line(at, line, word, numbers, refusal, self._version_of(word, numbers, refusal), self._unsent))
        self._unsent = []
        self._note(word, line, refusal)

    def _keep(self, line: bytes) -> None:
        """Notes an edit, which is due no reply."""
        self._batch.append(line)
        self._unsent.append(line)
        self._adds += line.startswith(b"add")

    def _version_of(self, word: str, numbers: list[int], refusal: int) -> int:
        """Returns the version that a line makes, holds, lists or runs on."""
        ticket = {"edges": numbers[:1], "run": numbers[3:4]}.get(word)
        if refusal or not ticket:
            return numbers[0] if word == "hold at" and numbers else self._state.newest
        return self._state.tickets[ticket[0]]

    def _note(self, word: str, line: bytes, refusal: int) -> None:
        """Notes the edits and the size of the version that a line makes."""
        if word == "commit" and refusal:
            self._batch = []
        elif word in ("vertices", "commit") and not refusal:
            self.edits.append(joined([*self._batch, line]))
            self._batch = []
            assert self._state.vertices is not None
            self.vertices.append(self._state.vertices)
            self.added.append(self._adds)


def replies_to(script: bytes, programs: Sequence[Program], read: ReadNumbers = list_of) -> Iterator[Reply]:
    """Yields the replies of gsnap to a script with programs. Raises Ended if it did not do the script to its end."""
    with tempfile.TemporaryDirectory(prefix="gsnap-page-") as folder, tempfile.TemporaryFile() as said:
        path = Path(folder, "script")
        path.write_bytes(script)
        words = [str(data.program()), "script", str(path), *(str(it.path) for it in programs)]
        with subprocess.Popen(words, stdin=subprocess.DEVNULL, stdout=subprocess.PIPE, stderr=said) as process:
            assert process.stdout
            try:
                yield from parse(process.stdout, read)
            except BaseException:
                process.kill()
                raise
        if process.returncode not in (0, 3):
            said.seek(0)
            raise Ended(process.returncode, said.read(2000).decode(errors="replace").strip())


class Recorder:
    """Does a script with its programs, and records what is answered."""

    def __init__(self, text: bytes, programs: Sequence[Program]) -> None:
        self.outline = Outline(text, len(programs))
        self.recording = Recording(programs, edits=self.outline.edits)
        self.lists_all = sum(self.outline.added) <= MOST_LISTED
        self._asked: list[Line] = []
        self._script: list[bytes] = []
        self._answers: dict[tuple[int, int, int], RecordedRun] = {}

    def record(self) -> Recording:
        """Returns what was answered."""
        self._write()
        replies = replies_to(b"".join(self._script), self.recording.programs)
        count = 0
        for line, reply in zip(self._asked, replies):
            self._note(line, reply)
            count += 1
        if count < len(self._asked) or next(replies, None) is not None:
            raise Mistake("gsnap gave another number of replies than the script's lines are due")
        if not self.lists_all:
            self.recording.notes.append(
                f"The versions have more than {MOST_LISTED:,} edges in all, so the edges of the newest version are counted alone."
            )
        return self.recording

    # What is asked

    def _write(self) -> None:
        """Writes the script that is done: the script's own lines, and behind each version what the recorder asks."""
        bounds, wanted = self._bounds(), self._wanted()
        for line in self.outline.lines:
            self._ask(line)
            if line.word in ("vertices", "commit") and not line.refusal:
                self._ask_of_version(line.version, bounds, wanted)

    def _ask(self, line: Line) -> None:
        self._script.append(joined([*line.edits, line.text]))
        self._asked.append(line)

    def _ask_of_version(self, version: int, bounds: dict[int, int], wanted: set[tuple[int, int]]) -> None:
        """Asks for the edges of a version that was just made, and for the runs that the script does not have on it."""
        if self.lists_all or version == len(self.outline.edits) - 1:
            self._ask(Line(0, b"edges", "edges", [], 0, version))
        for program in range(1, len(self.recording.programs) + 1):
            if (program, version) in wanted:
                numbers = [program, bounds[program], 1]
                self._ask(Line(0, b"run %d %d %d" % tuple(numbers), "run", numbers, 0, version))

    def _bounds(self) -> dict[int, int]:
        """Returns the bound on turns of the runs that are added, by program: the greatest that the script has for it."""
        least = max(TURNS, 4 * max(self.outline.vertices))
        found: dict[int, int] = {}
        for line in self.outline.lines:
            if line.word == "run" and not line.refusal:
                found[line.numbers[0]] = max(line.numbers[1], found.get(line.numbers[0], 0))
        return {program: found.get(program, least) for program in range(1, len(self.recording.programs) + 1)}

    def _wanted(self) -> set[tuple[int, int]]:
        """Returns the runs that are added, newest versions first, up to the greatest number of entries."""
        has = {(it.numbers[0], it.version) for it in self.outline.lines if it.word == "run" and not it.refusal}
        wanted: set[tuple[int, int]] = set()
        entries = left_out = 0
        for version in reversed(range(len(self.outline.vertices))):
            for program, it in enumerate(self.recording.programs, 1):
                size = self.outline.vertices[version] * max(1, it.text.count("vector{"))
                if (program, version) in has:
                    continue
                if entries + size > MOST_ADDED_ENTRIES:
                    left_out += 1
                else:
                    entries += size
                    wanted.add((program, version))
        if left_out:
            self.recording.notes.append(
                f"{left_out:,} runs that the script does not ask for were left out, since all of them would have more than "
                f"{MOST_ADDED_ENTRIES:,} entries."
            )
        return wanted

    # What is answered

    def _note(self, line: Line, reply: Reply) -> None:
        """Notes the reply to a line, or raises Mistake if it is not the one that the line is due."""
        match reply:
            case RefusedLine(number) if number == line.refusal:
                if len(self.recording.refusals) < MOST_REFUSED:
                    self.recording.refusals.append(Refusal(line.at, line.text.decode(errors="replace"), number))
            case _ if line.refusal:
                raise self._misfit(line, reply)
            case Opened() | Committed():
                self._note_version(line, reply)
            case Ticketed(ticket, version) if line.word.startswith("hold") and version == line.version:
                newest = self.recording.versions[-1].number
                self.recording.tickets.append(Ticket(ticket, version, newest))
            case Released(ticket) if line.word == "release":
                next(it for it in self.recording.tickets if it.ticket == ticket).last = self.recording.versions[-1].number
            case Listed() if line.word == "edges":
                self.recording.versions[line.version].edges = Listing(reply)
            case RunReply() if line.word == "run":
                self._note_run(line, reply)
            case _:
                raise self._misfit(line, reply)

    def _note_version(self, line: Line, reply: Opened | Committed) -> None:
        number = 0 if isinstance(reply, Opened) else reply.version
        if number != len(self.recording.versions) or line.word != ("commit" if number else "vertices"):
            raise self._misfit(line, reply)
        self.recording.versions.append(Version(number, self.outline.vertices[number], line.at))

    def _note_run(self, line: Line, reply: RunReply) -> None:
        program, bound, workers, *_ = line.numbers
        vertices = self.outline.vertices[line.version]
        if any(len(it) != vertices for it in reply.vectors.values()):
            raise self._misfit(line, reply)
        run = RecordedRun(program, line.version, bound, workers, line.at, reply)
        first = self._answers.setdefault((program, line.version, bound), run)
        if first.reply != reply:
            raise Mistake(f"line {line.at} of the script was answered in another way than line {first.line}")
        self.recording.runs.append(run)

    @staticmethod
    def _misfit(line: Line, reply: Reply) -> Mistake:
        return Mistake(
            f"`{line.text.decode(errors='replace')[:60]}`, line {line.at} of the script, was answered by {str(reply)[:80]}"
        )


def record(text: bytes, programs: Sequence[Program]) -> Recording:
    """Does a script with its programs, and returns what was answered.

    Raises Mistake if the script opens no graph, and Ended if gsnap did not do it to its end.
    """
    return Recorder(text, programs).record()
