"""A page of a graph's versions and of the runs on them: one HTML file that needs no network."""
from __future__ import annotations

import html
import json
import os
from collections.abc import Mapping, Sequence
from pathlib import Path

from ..files import replace
from ..program import Program
from .contents import Contents
from .recording import record

# Where the page's own text is, in the order in which it stands in a page.
HERE = Path(__file__).resolve().parent
PARTS = ("dom", "states", "view", "colours", "layout", "versions", "graph", "turns", "entries", "page")
SCRIPTS = tuple(f"{it}.js" for it in PARTS)

# How high a page is in a notebook.
HEIGHT = 900


class Page:
    """A page. `html` is its text; a notebook shows it."""

    def __init__(self, text: str, versions: int, runs: int, states: int) -> None:
        self.html = text
        self.versions = versions
        self.runs = runs
        self.states = states

    def save(self, path: str | os.PathLike[str]) -> None:
        """Writes the page to a file. A file that was there is replaced as a whole, or not at all."""
        replace(Path(path), [self.html.encode()])

    def __repr__(self) -> str:
        return f"<gsnap.Page: {self.versions} versions, {self.runs} runs, {self.states} states of turns>"

    def _repr_html_(self) -> str:
        """Returns the frame that a notebook shows."""
        return f'<iframe srcdoc="{html.escape(self.html)}" style="width: 100%; height: {HEIGHT}px; border: 0"></iframe>'


def assembled(values: object) -> str:
    """Returns the text of a page with these values of JSON."""
    texts = {name: (HERE / name).read_text(encoding="utf-8") for name in ("page.html", "page.css", *SCRIPTS)}
    data = json.dumps(values, separators=(",", ":")).replace("<", "\\u003c")
    parts = {"STYLE": texts["page.css"], "SCRIPT": "".join(texts[name] for name in SCRIPTS), "DATA": data}
    page = texts["page.html"]
    for name, part in parts.items():
        before, mark, after = page.partition(f"<!-- {name} -->")
        assert mark, name
        page = before + part + after
    return page


def make_page(script: bytes, programs: Sequence[Program], title: str, names: Mapping[int, str]) -> Page:
    """Makes the page of a script and programs. `names` has the vertices' names by number.

    Raises Mistake if the script opens no graph, and Ended if gsnap did not do it to its end.
    """
    values = Contents(record(script, programs), title, names).values()
    states = sum(len(it["states"]) + 1 for it in values["runs"] if it["states"] is not None)
    return Page(assembled(values), len(values["versions"]), len(values["runs"]), states)
