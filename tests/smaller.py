"""Makes a failing case smaller: lines of its script, statements, declarations, calls of schedules and operands are taken away as long
as it still fails."""
import time
from typing import NamedTuple

from plain_language import Binary, If, Number, Program


class Case(NamedTuple):
    """A script, and a program under some schedules."""

    program: Program
    schedules: tuple
    lines: tuple


def without_program(case, number):
    """Returns the case without the schedule of a number, from 1, and without the runs by it."""
    lines = []
    for line in case.lines:
        words = line.split(" ")
        if words[0] == "run" and len(words) > 3 and words[1].isdigit():
            if int(words[1]) == number:
                continue
            words[1] = str(int(words[1]) - (int(words[1]) > number))
        lines.append(" ".join(words))
    return case._replace(schedules=case.schedules[: number - 1] + case.schedules[number:], lines=tuple(lines))


def fewer_programs(case):
    for number in range(len(case.schedules), 0, -1):
        if len(case.schedules) > 1:
            yield without_program(case, number)


def shorter(items):
    """Yields a list without some of its parts: halves first, single ones last."""
    size = len(items) // 2
    while size > 0:
        for start in range(0, len(items), size):
            yield items[:start] + items[start + size:]
        size //= 2


def fewer_lines(case):
    for rest in shorter(case.lines[1:]):
        yield case._replace(lines=(case.lines[0], *rest))


def fewer_calls(case):
    for number, calls in enumerate(case.schedules):
        for place in range(len(calls)):
            less = calls[:place] + calls[place + 1:]
            yield case._replace(schedules=case.schedules[:number] + (less,) + case.schedules[number + 1:])


def fewer_declarations(case):
    for rest in shorter(case.program.declarations):
        yield case._replace(program=case.program._replace(declarations=rest))


def is_block(it):
    return isinstance(it, tuple) and not hasattr(it, "_fields")


def smaller_trees(it):
    """Yields trees that are smaller than a tree in one place: a block without a statement, with the statements of a block in its
    place, a choice without its `else`, an apply without an end, an operand in place of an operator, a small number in place of another
    one."""
    if is_block(it):
        for place, part in enumerate(it):
            yield it[:place] + it[place + 1:]
            inner = getattr(part, "body", None)
            if is_block(inner) and not hasattr(part, "parameters"):
                yield it[:place] + inner + it[place + 1:]
                yield it[:place] + (getattr(part, "other", None) or ()) + it[place + 1:]
            for less in smaller_trees(part):
                yield it[:place] + (less,) + it[place + 1:]
        return
    if not hasattr(it, "_fields"):
        return
    if isinstance(it, If) and it.other is not None:
        yield it._replace(other=None)
    if isinstance(it, Binary):
        yield it.left
        yield it.right
    if hasattr(it, "operand") or hasattr(it, "inner"):
        yield it[0]
    for end in ("source", "destination"):
        if getattr(it, end, None) is not None:
            yield it._replace(**{end: None})
    if isinstance(it, Number) and it.value > 1:
        yield Number(1)
    for field in it._fields:
        for less in smaller_trees(getattr(it, field)):
            yield it._replace(**{field: less})


def smaller_programs(case):
    for less in smaller_trees(case.program.main):
        yield case._replace(program=case.program._replace(main=less))
    for less in smaller_trees(case.program.declarations):
        yield case._replace(program=case.program._replace(declarations=less))


def made_small(case, fails, seconds, keeps_tree):
    """Returns a case that still fails and that no single step makes smaller, or the smallest that was found in some seconds. A
    tree is kept if its text alone is what fails."""
    end = time.monotonic() + seconds
    steps = [fewer_programs, fewer_lines, fewer_calls]
    steps += [] if keeps_tree else [fewer_declarations, smaller_programs]
    is_smaller = True
    while is_smaller:
        is_smaller = False
        for step in steps:
            while time.monotonic() < end and (less := next((it for it in step(case) if time.monotonic() < end and fails(it)), None)):
                case, is_smaller = less, True
    return case
