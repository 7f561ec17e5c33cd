"""The command `python3 -m gsnap page`: writes the page of a script and programs."""
from __future__ import annotations

import argparse
import os
import sys
from pathlib import Path

from ..errors import GsnapError
from ..names import read_table
from ..program import Program
from . import make_page

ABOUT = """\
Writes a page of a script's versions and of the programs' runs on them: one HTML file, which a browser opens without a
network. The script is done by gsnap, and each program is run on each version too that the script does not run it on."""

EXAMPLE = """\
Example: python3 -m gsnap page examples/components.script examples/components.program --out components.html"""


def parser() -> argparse.ArgumentParser:
    """Returns the parser of the command's words."""
    found = argparse.ArgumentParser(
        prog="python3 -m gsnap page", description=ABOUT, epilog=EXAMPLE, formatter_class=argparse.RawDescriptionHelpFormatter
    )
    found.add_argument("script", metavar="SCRIPT", help="a file with lines of a script; - is standard input")
    found.add_argument("programs", metavar="PROGRAM", nargs="*", help="files with programs, numbered from 1 as in the script")
    found.add_argument("--names", metavar="TABLE", help="show vertices by the names in TABLE, lines `NUMBER NAME`")
    found.add_argument("--out", metavar="FILE", help="where the page is written; else the script's name with .html, here")
    return found


def out_path(script: str, out: str | None) -> Path:
    """Returns where the page is written."""
    return Path(out) if out else Path("page.html" if script == "-" else Path(script).stem + ".html")


def write_page(words: list[str]) -> int:
    """Does the command with its words, and returns its status: 0, 1 if something was refused, or 2 if a file fails."""
    options = parser().parse_intermixed_args(words)
    try:
        names = read_table(options.names) if options.names else {}
        text = sys.stdin.buffer.read() if options.script == "-" else Path(options.script).read_bytes()
        title = "standard input" if options.script == "-" else Path(options.script).name
        page = make_page(text, [Program(Path(it)) for it in options.programs], title, names)
        path = out_path(options.script, options.out)
        page.save(path)
    except OSError as error:
        print(f"page: {error.filename}: {error.strerror}", file=sys.stderr)
        return 2
    except UnicodeDecodeError as error:
        print(f"page: a program is no text in UTF-8: {error.reason}", file=sys.stderr)
        return 1
    except GsnapError as error:
        print(f"page: {error}", file=sys.stderr)
        return 1
    size = os.path.getsize(path)
    print(f"{path}: {page.versions:,} versions, {page.runs:,} runs, {page.states:,} states of turns, {size:,} bytes")
    return 0
