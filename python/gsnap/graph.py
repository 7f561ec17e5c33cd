"""A graph that is edited, whose versions programs are run on."""
from __future__ import annotations

import os
import sys
import threading
from collections.abc import Hashable, Iterable, Iterator, Sequence, Sized
from contextlib import contextmanager
from itertools import islice
from types import TracebackType
from typing import TYPE_CHECKING, Any, Union

from . import checks
from .counts import Counts
from .edges import Edges
from .errors import Closed
from .names import Names
from .numbers import lines_of, numpy
from .program import Program
from .ready import Ready
from .run import Run
from .session import Session

if TYPE_CHECKING:
    from .page import Page

# What a run takes for a program: one that is compiled, one of the ready ones, or a text or a path.
AnyProgram = Union[Program, Ready, str, "os.PathLike[str]"]

# How many edges are checked and sent at a time, and from how many on a terminal shows how far it is.
PIECE = 1 << 17
MANY = 1 << 19

# How many turns a run may take at least if its caller does not say.
TURNS = 1_000_000


class Held:
    """A version that is held by a ticket, and so kept until `release`, or until the `with` that it was made for ends.

    `version` is its number, `ticket` the ticket's, and `vertices` how many vertices it has.
    """

    def __init__(self, graph: Graph, ticket: int, version: int, vertices: int) -> None:
        self.graph = graph
        self.ticket = ticket
        self.version = version
        self.vertices = vertices

    @property
    def is_open(self) -> bool:
        """Whether the ticket is open."""
        return self.graph.holds_ticket(self.ticket)

    def release(self) -> None:
        """Closes the ticket. A second call does nothing."""
        self.graph.release_ticket(self.ticket)

    def __enter__(self) -> Held:
        return self

    def __exit__(self, kind: type[BaseException] | None, error: BaseException | None, trace: TracebackType | None) -> None:
        self.release()

    def __repr__(self) -> str:
        return f"<gsnap.Held version {self.version}, ticket {self.ticket}{'' if self.is_open else ', released'}>"


class Graph:
    """A graph with versions, in a process of gsnap of its own.

    It has the vertices 0 to `vertices` - 1 and no edges as version 0. With `names` each hashable but None is a vertex, which gets
    the next number when an edge first names it; an iterable of names gives the first ones. `programs` are those that will be run:
    a program that is first seen by `run` starts another process, which does all edits again.

    An edit joins the pending batch. `commit` makes the next version by it. All calls may come from any thread; one waits for
    another. What a call is given is checked before anything is sent, so a TypeError, a ValueError and a KeyError change nothing.
    KeyboardInterrupt ends a run, and leaves the graph as it was. A `with` ends the process.

    >>> with Graph(3) as graph:
    ...     graph.add_edge(0, 1)
    ...     graph.commit()
    1
    """

    def __init__(
        self,
        vertices: int = 1,
        names: bool | Iterable[Hashable] | Names | None = False,
        programs: AnyProgram | Iterable[AnyProgram] = (),
        *,
        session: Session | None = None,
    ) -> None:
        self._lock = threading.RLock()
        self._names = names_from(names)
        self._compiled: dict[str, Program] = {}
        self._counts: list[Counts] = []
        least = checks.whole(vertices, "vertices", 1, checks.MOST_VERTICES + 1)
        self._session = session or Session(max(least, len(self._names or ())))
        try:
            self.prepare(programs)
        except BaseException:
            self._session.close()
            raise

    # What it has

    @property
    def version(self) -> int:
        """The number of the newest version."""
        return self._session.version

    @property
    def vertices(self) -> int:
        """How many vertices the newest version has."""
        return self._session.vertices

    @property
    def pending(self) -> int:
        """How many entries the pending batch has."""
        return self._session.batch.entries

    @property
    def names(self) -> list[Hashable] | None:
        """The names of the vertices by their numbers, or None in a graph without names."""
        return None if self._names is None else self._names.first(len(self._names))

    @property
    def pid(self) -> int:
        """The number of the process."""
        with self._lock:
            return self._session.pid

    def number(self, vertex: Hashable) -> int:
        """Returns the number of a vertex: of a name, or the number itself. Raises KeyError for a name that is not there."""
        return checks.vertex(vertex) if self._names is None else self._names.known(vertex)

    # Edits

    def add_edge(self, source: Hashable, destination: Hashable, weight: int = 1) -> None:
        """Adds an edge to the pending batch, with a weight from -2^63 to 2^63 - 1.

        If the edge is there already, it gets the weight. Raises TypeError or ValueError for an argument that is no vertex or no
        weight. A vertex that is not in the graph is found out by `commit`, since a `grow` may still come.
        """
        weight = checks.weight(weight)
        with self._lock, self._whole():
            u, v = self._ends(source, destination)
            line = f"add {u} {v} {weight}" if weight != 1 else f"add {u} {v}"
            self._session.edit(line.encode() + b"\n", 1, max(u, v), 0, line)

    def remove_edge(self, source: Hashable, destination: Hashable) -> None:
        """Takes an edge away by the pending batch; one that is not there is no error.

        Raises TypeError or ValueError for an argument that is no vertex, and KeyError for a name that is not there.
        """
        with self._lock, self._whole():
            u, v = self._known_ends(source, destination)
            line = f"del {u} {v}"
            self._session.edit(line.encode() + b"\n", 1, max(u, v), 0, line)

    def add_edges_from(self, edges: Iterable[Any], weight: int = 1) -> None:
        """Adds edges to the pending batch: pairs, or with a weight, or a mapping that may have a `weight`, as third part.

        An integer NumPy array of two or three columns is taken in one go. `weight` is that of an edge without one. If an edge is
        wrong, TypeError or ValueError names it by its place, from 0, and none of the call's edges is added.
        """
        if numpy is not None and isinstance(edges, numpy.ndarray) and edges.ndim == 2 and edges.shape[1] in (2, 3):
            self.add_edges(edges[:, 0], edges[:, 1], edges[:, 2] if edges.shape[1] == 3 else None)
            return
        checks.weight(weight)
        with self._lock, self._whole():
            for first, piece in pieces(edges):
                self._add_columns(*checks.edge_parts(piece, first, weight), first)

    def add_edges(self, sources: Iterable[Any], destinations: Iterable[Any], weights: Iterable[Any] | None = None) -> None:
        """Adds edges to the pending batch by columns of equal length, such as NumPy arrays; weights are 1 if none are given.

        A wrong entry is named by its place, from 0, by TypeError or ValueError, and none of the call's edges is added.
        """
        columns: list[Any] = [it if hasattr(it, "__len__") else list(it) for it in (sources, destinations, weights) if it is not None]
        count = len(columns[0])
        if any(len(it) != count for it in columns):
            raise ValueError(f"columns have to be of one length, and are of {' and '.join(str(len(it)) for it in columns)}")
        with self._lock, self._whole():
            for at in range(0, count, PIECE):
                piece = [it[at : at + PIECE] for it in columns]
                self._add_columns(piece[0], piece[1], piece[2] if len(piece) > 2 else None, at)
                progress(min(at + PIECE, count), count)

    def remove_edges_from(self, edges: Iterable[Any]) -> None:
        """Takes edges away by the pending batch: pairs, whose third part is not read. If one is wrong, none of them is."""
        with self._lock, self._whole():
            for first, piece in pieces(edges):
                sources, destinations, _ = checks.edge_parts(piece, first, 1)
                self._send(b"del", *self._numbers(sources, destinations, False, first))

    def add_vertex(self, vertex: Hashable) -> None:
        """Adds a vertex without edges: a name, or all numbers up to this one. One that is there already is no error."""
        with self._lock, self._whole():
            if self._names is not None:
                self._named(vertex)
            else:
                number = checks.vertex(vertex)
                if number >= self._session.vertices:
                    self._session.grow(number + 1)

    def grow(self, vertices: int) -> None:
        """Asks for so many vertices by the pending batch, from as many as there are to 16,777,216.

        Raises ValueError for fewer, or in a graph with names, which grows by them.
        """
        if self._names is not None:
            raise ValueError("a graph with names grows by its names: add_vertex adds one")
        with self._lock, self._whole():
            least = self._session.vertices
            self._session.grow(checks.whole(vertices, "vertices", least, checks.MOST_VERTICES + 1))

    def add_farthest(self) -> None:
        """Asks for as many vertices as the edges of the pending batch need."""
        with self._lock:
            if self._names is None and self._session.batch.farthest >= self._session.vertices:
                self._session.grow(self._session.batch.farthest + 1)

    def commit(self) -> int:
        """Makes the next version by the pending batch, and returns its number.

        Raises Refused, and drops the whole batch, if it names a vertex that is not there (111; the exception names the entry), or
        if the history is full (123).
        """
        with self._lock:
            if self._names is not None and len(self._names) > self._session.vertices:
                self._session.grow(len(self._names))
            version = self._session.commit()
            for it in self._counts:
                it.note(version)
            return version

    # Versions

    def held(self, version: int | None = None) -> Held:
        """Holds the newest version, or the one of that number, which is held already.

        `with graph.held() as held:` releases it at the end. Raises Refused by 121 if the version is not kept.

        >>> with Graph(2) as graph, graph.held() as held:
        ...     graph.add_edge(0, 1)
        ...     graph.commit(), held.version, len(graph.edges(held)), len(graph.edges())
        (1, 0, 0, 1)
        """
        with self._lock:
            if version is not None:
                version = checks.whole(version, "version", 0, 1 << 64)
            ticket = self._session.hold(version)
            return self._held(ticket)

    @property
    def holds(self) -> list[Held]:
        """What is held now, by tickets: for a graph that was opened from a file, what its script holds."""
        with self._lock:
            return [self._held(ticket) for ticket in self._session.tickets]

    def holds_ticket(self, ticket: int) -> bool:
        """Says whether a ticket is open."""
        return not self._session.is_closed and ticket in self._session.tickets

    def release_ticket(self, ticket: int) -> None:
        """Closes a ticket if it is open."""
        with self._lock:
            if self.holds_ticket(ticket):
                self._session.release(ticket)

    def edges(self, held: Held | None = None) -> Edges:
        """Lists the edges of the newest version, or of one that is held, ascending by their vertices' numbers."""
        with self._lock:
            version, vertices, ticket = self._place(held)
            columns = self._session.edges(ticket)
            return Edges(version, vertices, columns, self._names_of(vertices))

    # Runs

    def prepare(self, programs: AnyProgram | Iterable[AnyProgram]) -> None:
        """Compiles programs that will be run, so that all of them cost one new process, and not one each."""
        given = [programs] if isinstance(programs, (Program, Ready, str, os.PathLike)) else programs
        with self._lock:
            self._session.prepare([self._program(it) for it in given])

    def run(
        self,
        program: AnyProgram,
        turns: int | None = None,
        workers: int = 1,
        held: Held | None = None,
        only: str | Iterable[str] | None = None,
    ) -> Run:
        """Runs a program on the newest version, or on one that is held.

        `turns` bounds the entries of loops, from 0 to 2^64 - 1; if none is given, the bound is 1,000,000 or, if that is more, 4
        times the number of vertices. `workers` is 1 to 64 and changes no answer. `only` names the vectors and sets that the
        answer has; a line of another is passed over unread.

        Raises TypeError or ValueError for another argument, ProgramRefused for a text that does not compile, KeyError if `only`
        names what the program does not show, and Closed if the version was released.

        >>> from gsnap import distances, from_edges
        >>> with from_edges([(0, 1), (1, 2)]) as graph:
        ...     run = graph.run(distances(0))
        ...     run.version, run.end, list(map(int, run.distance))
        (1, 'finished', [0, 1, 2])
        """
        wanted = None if only is None else frozenset([only] if isinstance(only, str) else only)
        workers = checks.whole(workers, "workers", 1, 65)
        with self._lock:
            version, vertices, ticket = self._place(held)
            bound = max(TURNS, 4 * vertices) if turns is None else checks.whole(turns, "turns", 0, 1 << 64)
            compiled = self._program(program, vertices)
            reply = self._session.run(compiled, bound, workers, ticket, wanted)
            missing = sorted((wanted or frozenset()) - reply.vectors.keys() - reply.sets.keys())
            if missing:
                raise KeyError(f"the program shows no vector or set {missing[0]!r}")
            return Run(version, vertices, reply, self._names_of(vertices))

    def watch(self, batches: Iterable[Iterable[Any]], program: AnyProgram, **how: Any) -> Iterator[Run]:
        """Commits each batch, and yields a run of the program on the version that it made.

        A batch is a sequence of edits: `("add", u, v)`, `("add", u, v, weight)` or `("remove", u, v)`. `how` are the arguments of
        `run`. If an edit is wrong, ValueError or TypeError is raised, and nothing of its batch is pending.

        >>> from gsnap import components
        >>> with Graph(3) as graph:
        ...     for run in graph.watch([[("add", 0, 1), ("add", 1, 0)], [("add", 1, 2), ("add", 2, 1)]], components()):
        ...         print(run.version, run.printed)
        1 [2]
        2 [1]
        """
        for batch in batches:
            with self._lock:
                with self._whole():
                    for edit in batch:
                        self._edit(*edit)
                self.commit()
                found = self.run(program, **how)
            yield found

    def counts(self, program: AnyProgram, **how: Any) -> Counts:
        """Counts each version: a mapping from its number to the last number that the program prints on it.

        It begins with the versions that are kept, and grows by each later commit, until its `close`. `how` are the arguments of
        `run`; vectors and sets are not read.

        >>> from gsnap import components
        >>> with Graph(3) as graph:
        ...     counts = graph.counts(components())
        ...     graph.add_edges_from([(0, 1), (1, 0)])
        ...     graph.commit(), dict(counts)
        (1, {0: 3, 1: 2})
        """
        with self._lock:
            counts = Counts(self, program, how)
            for it in {it.version: it for it in self.holds}.values():
                counts.note(it.version, it)
            counts.note(self.version)
            self._counts.append(counts)
            return counts

    def forget(self, counts: Counts) -> None:
        """Lets `commit` count no more for this one."""
        with self._lock:
            self._counts = [it for it in self._counts if it is not counts]

    # To a page, to other libraries, and to a file

    def page(self, *programs: AnyProgram, out: str | os.PathLike[str] | None = None) -> Page:
        """Makes a page of all versions and of runs of the programs on each of them; `out` is the path of a file to write it to.

        A notebook shows the page; `save(path)` writes it, one HTML file that a browser opens without a network.

        >>> from gsnap import components
        >>> with Graph(3) as graph:
        ...     graph.add_edges_from([(0, 1), (1, 0)])
        ...     graph.commit()
        ...     graph.page(components())
        1
        <gsnap.Page: 2 versions, 2 runs, 5 states of turns>
        """
        from .page import make_page

        with self._lock:
            given = [self._program(it) for it in programs]
            names = {} if self._names is None else {number: str(it) for number, it in enumerate(self._names.first(len(self._names)))}
            found = make_page(self._session.script(), given, "Graph", names)
        if out is not None:
            found.save(out)
        return found

    def to_networkx(self, held: Held | None = None) -> Any:
        """Returns a networkx.DiGraph of the newest version, or of one that is held; each edge has its `weight`.

        The graph's attribute `version` is the version's number.
        """
        from .convert import to_networkx

        return to_networkx(self.edges(held))

    def to_scipy_sparse(self, held: Held | None = None) -> Any:
        """Returns a scipy.sparse.csr_matrix of int64: the weight of the edge from u to v in row u and column v."""
        from .convert import to_scipy_sparse

        return to_scipy_sparse(self.edges(held))

    def save(self, path: str | os.PathLike[str]) -> None:
        """Writes a script that makes the newest version, and those that are held, again, by the same numbers.

        It is packed by gzip if the path ends in `.gz`. The names of a graph with names go to a file beside it, whose name ends in
        `.names` besides; they have to be texts, whole numbers or truth values, else TypeError is raised and nothing is written.
        What is pending is not saved.
        """
        from .files import save

        with self._lock:
            save(self._session, self._names, path)

    def close(self) -> None:
        """Ends the process. A second call does nothing; any other raises Closed."""
        with self._lock:
            self._session.close()

    def __enter__(self) -> Graph:
        return self

    def __exit__(self, kind: type[BaseException] | None, error: BaseException | None, trace: TracebackType | None) -> None:
        self.close()

    def __repr__(self) -> str:
        return f"<gsnap.Graph version {self.version} with {self.vertices} vertices>"

    # Within

    def _held(self, ticket: int) -> Held:
        it = self._session.tickets[ticket]
        return Held(self, ticket, it.version, it.vertices)

    def _place(self, held: Held | None) -> tuple[int, int, int | None]:
        """Returns the number of a version, how many vertices it has, and its ticket; it is the newest if none is held."""
        if held is None:
            return self._session.version, self._session.vertices, None
        if not isinstance(held, Held):
            raise TypeError(f"held is {held!r}, and has to be what graph.held() gave")
        if held.graph is not self:
            raise ValueError("held is a version of another graph")
        self._session.want_open()
        if not held.is_open:
            raise Closed(f"version {held.version} was released, and ticket {held.ticket} is not open any more")
        return held.version, held.vertices, held.ticket

    def _names_of(self, vertices: int) -> Sequence[Hashable] | None:
        return None if self._names is None else self._names.first(vertices)

    def _program(self, program: AnyProgram, vertices: int | None = None) -> Program:
        """Returns a program, compiled."""
        if isinstance(program, Program):
            return program
        if isinstance(program, Ready):
            return program.compiled(lambda it, name: self._start(it, name, vertices))
        found = Program.text_of(program)
        if found not in self._compiled:
            self._compiled[found] = Program(program)
        return self._compiled[found]

    def _start(self, vertex: Hashable, name: str, vertices: int | None) -> int:
        """Returns the number of a vertex that a ready program begins at."""
        number = self._names.known(vertex) if self._names is not None else checks.vertex(vertex, name)
        if vertices is not None and number >= vertices:
            raise ValueError(f"{name} is {vertex!r}, and the version has {vertices} vertices")
        return number

    def _edit(self, kind: str, source: Hashable, destination: Hashable, *weight: Any) -> None:
        if kind == "add":
            self.add_edge(source, destination, *weight)
        elif kind == "remove" and not weight:
            self.remove_edge(source, destination)
        else:
            raise ValueError(f"{(kind, source, destination, *weight)!r} is no edit, such as ('add', u, v) or ('remove', u, v)")

    def _named(self, name: Hashable) -> int:
        assert self._names is not None
        number = self._names.number(name)
        if number >= checks.MOST_VERTICES:
            raise ValueError(f"{name!r} is one name too many: a graph has at most {checks.MOST_VERTICES} vertices")
        return number

    def _ends(self, source: Hashable, destination: Hashable) -> tuple[int, int]:
        """Returns the numbers of an edge's ends; new names get theirs."""
        if self._names is not None:
            return self._named(source), self._named(destination)
        return checks.vertex(source, "source"), checks.vertex(destination, "destination")

    def _known_ends(self, source: Hashable, destination: Hashable) -> tuple[int, int]:
        if self._names is not None:
            return self._names.known(source), self._names.known(destination)
        return checks.vertex(source, "source"), checks.vertex(destination, "destination")

    def _numbers(self, sources: Any, destinations: Any, is_new: bool, first: int) -> tuple[Any, Any]:
        """Returns columns of vertices as numbers; new names get theirs, edge by edge, or are refused."""
        if self._names is None:
            return (
                checks.column(sources, "source", 0, checks.MOST_VERTICES, first),
                checks.column(destinations, "destination", 0, checks.MOST_VERTICES, first),
            )
        number = self._named if is_new else self._names.known
        names = [it.tolist() if hasattr(it, "tolist") else it for it in (sources, destinations)]
        known = [self._names.all_known(it) for it in names]
        if known[0] is not None and known[1] is not None:
            return known[0], known[1]
        found = [(number(source), number(destination)) for source, destination in zip(*names)]
        return [u for u, _ in found], [v for _, v in found]

    def _add_columns(self, sources: Any, destinations: Any, weights: Any, first: int) -> None:
        """Sends the edges of columns of equal length; `first` is the place of the first, for what is said of a wrong one."""
        if weights is not None:
            weights = checks.column(weights, "weight", checks.LEAST_WEIGHT, checks.WEIGHT_BOUND, first)
        ends = self._numbers(sources, destinations, True, first)
        self._send(b"add", *ends, *([] if weights is None or checks.are_ones(weights) else [weights]))

    def _send(self, word: bytes, *columns: Any) -> None:
        """Sends a line for each row of columns, of which the first two are vertices."""
        if len(columns[0]):
            farthest, at = checks.greatest(columns[0], columns[1])
            line = lines_of(word, [it[at : at + 1] for it in columns]).decode().rstrip()
            self._session.edit(lines_of(word, columns), len(columns[0]), farthest, at, line)

    @contextmanager
    def _whole(self) -> Iterator[None]:
        """Makes the pending batch and the names what they were if what is done in it raises an exception."""
        mark, names = self._session.mark(), len(self._names or ())
        try:
            yield
        except BaseException:
            self._session.undo(mark)
            if self._names is not None:
                self._names.cut(names)
            raise


def names_from(names: bool | Iterable[Hashable] | Names | None) -> Names | None:
    """Returns the names that a graph begins with, or None for a graph without names."""
    if names is None or names is False:
        return None
    return names if isinstance(names, Names) else Names(() if names is True else names)


def pieces(edges: Iterable[Any]) -> Iterator[tuple[int, list[Any]]]:
    """Yields some edges at a time, with the place of the first of them, and shows on a terminal how many they are."""
    total = len(edges) if isinstance(edges, Sized) else None
    rest, done = iter(edges), 0
    while piece := list(islice(rest, PIECE)):
        yield done, piece
        done += len(piece)
        progress(done, total)


def progress(done: int, total: int | None) -> None:
    """Shows on a terminal how many of many edges were sent."""
    if not sys.stderr.isatty() or (done if total is None else total) < MANY:
        return
    if total is None:
        text = f"\r{done:,} edges"
    else:
        bar = "#" * (30 * done // total)
        text = f"\r[{bar:<30}] {done:,} of {total:,} edges" + ("\n" if done >= total else "")
    print(text, end="", file=sys.stderr, flush=True)
