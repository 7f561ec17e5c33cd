"""One number for each version of a graph."""
from __future__ import annotations

from collections.abc import Iterator, Mapping
from typing import TYPE_CHECKING, Any

if TYPE_CHECKING:
    from .graph import AnyProgram, Graph, Held


class Counts(Mapping[int, Any]):
    """The last number that a program prints, for each version: those that were kept when it was made, and each later one.

    A version on which the program prints nothing has None.
    """

    def __init__(self, graph: Graph, program: AnyProgram, how: Mapping[str, Any]) -> None:
        self._graph = graph
        self._program = program
        self._how: dict[str, Any] = {**how, "only": ()}
        self._numbers: dict[int, Any] = {}

    def note(self, version: int, held: Held | None = None) -> None:
        """Runs the program on a version, the newest if none is held."""
        printed = self._graph.run(self._program, held=held, **self._how).printed
        self._numbers[version] = printed[-1] if printed else None

    def close(self) -> None:
        """Counts no further version."""
        self._graph.forget(self)

    def to_pandas(self) -> Any:
        """Returns a pandas.Series of the numbers by version."""
        import pandas

        return pandas.Series(self._numbers, name="count").rename_axis("version")

    def __getitem__(self, version: int) -> Any:
        return self._numbers[version]

    def __iter__(self) -> Iterator[int]:
        return iter(self._numbers)

    def __len__(self) -> int:
        return len(self._numbers)

    def __repr__(self) -> str:
        return f"<gsnap.Counts {self._numbers}>"
