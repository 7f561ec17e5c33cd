"""How the runs of a recording went on turn by turn: the reply to each bound on turns is the state at that turn."""
from __future__ import annotations

from collections.abc import Callable, Iterator
from dataclasses import dataclass

from ..errors import Mistake, ProgramRefused
from ..program import Program
from ..replies import Committed, Opened, Reply, RunReply
from .recording import RecordedRun, Recording, replies_to
from .statements import loops_entered, marked

# How many entries of vectors all states have at most, and how many turns all runs with each bound take together; a run with which
# there would be more is shown without turns.
MOST_TURN_ENTRIES = 3_000_000
MOST_TURNS_RUN = 4_000_000


@dataclass
class Turns:
    """What happened in the turns of a run: which loop each turn entered; with one more if the run would have gone on."""

    run: RecordedRun
    loops: list[int]


def entries_of_turns(run: RecordedRun, vertices: int) -> int:
    """Returns how many entries of vectors the states of a run have before its end."""
    return run.reply.turns * vertices * max(1, len(run.reply.vectors))


def with_turns(recording: Recording) -> list[RecordedRun]:
    """Returns the runs whose turns are looked at: first those that the script asks for, of them the newest versions first."""
    order = sorted(recording.main_runs(), key=lambda it: (it.line == 0, -it.version, it.program))
    found, entries, turns = [], 0, 0
    for it in order:
        more_entries = entries_of_turns(it, recording.versions[it.version].vertices)
        more_turns = it.reply.turns * (it.reply.turns + 1) // 2
        if entries + more_entries <= MOST_TURN_ENTRIES and turns + more_turns <= MOST_TURNS_RUN:
            entries, turns = entries + more_entries, turns + more_turns
            found.append(it)
    left_out = len(order) - len(found)
    if left_out:
        recording.notes.append(
            f"The turns of {left_out:,} runs were left out: all states together would have more than {MOST_TURN_ENTRIES:,} "
            f"entries, or runs with each bound would take more than {MOST_TURNS_RUN:,} turns."
        )
    return found


def marked_program(program: Program) -> Program | None:
    """Returns the program that prints which loops it enters, or None if it does not compile."""
    try:
        return Program(marked(program.text) + "\n")
    except ProgramRefused:
        return None


def by_version(runs: list[RecordedRun]) -> dict[int, list[RecordedRun]]:
    """Returns runs by the version that they are on."""
    found: dict[int, list[RecordedRun]] = {}
    for it in runs:
        found.setdefault(it.version, []).append(it)
    return found


def script_of(recording: Recording, runs: dict[int, list[RecordedRun]], marks: dict[int, int]) -> bytes:
    """Returns the script that makes all versions again, and runs each of the runs with each bound, and marked at last."""
    lines: list[bytes] = []
    for version, edits in enumerate(recording.edits):
        lines.append(edits)
        for run in runs.get(version, []):
            lines += [b"run %d %d 1\n" % (run.program, bound) for bound in range(run.reply.turns)]
            if run.program in marks:
                lines.append(b"run %d %d 1\n" % (marks[run.program], run.reply.turns + 1))
    return b"".join(lines)


def checked(reply: Reply | None, run: RecordedRun, bound: int) -> RunReply:
    """Returns the reply to a bound, or raises Mistake if it is not a state of the run."""
    printed = run.reply.printed
    is_state = isinstance(reply, RunReply) and (reply.end, reply.turns) == ("turns-over", bound)
    if not isinstance(reply, RunReply) or not is_state or reply.printed != printed[: len(reply.printed)]:
        raise Mistake(
            f"the run of program {run.program} on version {run.version} with {bound} turns was answered by {str(reply)[:80]}"
        )
    return reply


def read_turns(recording: Recording, take: Callable[[RecordedRun, int, RunReply], None]) -> list[Turns]:
    """Calls `take` with each run, each bound below the turns that it used, and the state at that turn; returns the turns.

    The runs come ascending by version, and in the order of their programs on one version.
    """
    found = with_turns(recording)
    runs = by_version(sorted(found, key=lambda it: it.program))
    programs = list(recording.programs)
    marks: dict[int, int] = {}
    for number in sorted({it.program for it in found}):
        program = marked_program(recording.programs[number - 1])
        if program is not None:
            programs.append(program)
            marks[number] = len(programs)
    replies = replies_to(script_of(recording, runs, marks), programs)
    turns = list(turns_of(recording, runs, marks, replies, take))
    if next(replies, None) is not None:
        raise Mistake("gsnap gave more replies than the runs with each bound are due")
    return turns


def turns_of(
    recording: Recording,
    runs: dict[int, list[RecordedRun]],
    marks: dict[int, int],
    replies: Iterator[Reply],
    take: Callable[[RecordedRun, int, RunReply], None],
) -> Iterator[Turns]:
    """Yields the turns of each run by the replies to the script of `script_of`."""
    for version in range(len(recording.edits)):
        made = next(replies, None)
        if not isinstance(made, (Opened, Committed)):
            raise Mistake(f"version {version} was not made again: {str(made)[:80]}")
        for run in runs.get(version, []):
            for bound in range(run.reply.turns):
                take(run, bound, checked(next(replies, None), run, bound))
            yield Turns(run, loops_of(next(replies, None)) if run.program in marks else [])


def loops_of(reply: Reply | None) -> list[int]:
    """Returns which loops a marked run entered."""
    if not isinstance(reply, RunReply):
        raise Mistake(f"a run was answered by {str(reply)[:80]}")
    return loops_entered(reply.printed)
