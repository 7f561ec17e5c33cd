"""The edges that one reply lists, and what changed from one such list to another."""
from __future__ import annotations

from collections.abc import Sequence
from typing import NamedTuple

from .errors import Mistake
from .replies import Listed, RunReply

# The two ends of an edge.
Edge = tuple[int, int]


class Changes(NamedTuple):
    """What changed: the edges that came, those that went, and those whose weight is another, each ascending."""

    added: list[Edge]
    removed: list[Edge]
    reweighted: list[Edge]


class Listing:
    """The edges of one version; `weights` has the weight of each."""

    def __init__(self, listed: Listed | None = None) -> None:
        self.weights: dict[Edge, int] = dict(zip(listed.edges, listed.weights)) if listed else {}

    def __len__(self) -> int:
        return len(self.weights)

    def changes_since(self, before: Listing) -> Changes:
        """Returns what changed since the list of another version."""
        old, new = before.weights, self.weights
        return Changes(
            sorted(new.keys() - old.keys()),
            sorted(old.keys() - new.keys()),
            sorted(edge for edge in new.keys() & old.keys() if new[edge] != old[edge]),
        )


def entries_of(run: RunReply, name: str | None) -> Sequence[int] | None:
    """Returns the vector of a run with a name, or the first one if None is given; None if the run shows no vector.

    Raises Mistake if the run shows no vector of the name.
    """
    if name is None:
        return next(iter(run.vectors.values()), None)
    if name not in run.vectors:
        raise Mistake(f"{name!r} is no vector of a run, which has: {' '.join(run.vectors)}")
    entries: Sequence[int] = run.vectors[name]
    return entries
