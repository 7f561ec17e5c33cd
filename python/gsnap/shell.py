"""The shell, `python3 -m gsnap`: a graph that is edited and asked line by line."""
from __future__ import annotations

import os
from itertools import islice

from . import files
from .console import READY, Console, Wrong, file_of, parted
from .graph import Graph, Held
from .loading import Adds, is_script, load_edges, script_parts
from .places import FAULT, statement_text
from .program import Program
from .ready import Ready
from .refusals import row_of
from .tables import MOST_ROWS, run_lines, table

# The words that begin a line of a script.
SCRIPT_WORDS = "vertices add del grow commit hold release edges run".split()


class Shell(Console):
    """The lines of the shell, a method for each word."""

    # Lines as scripts have them

    def do_vertices(self, words: str) -> None:
        """vertices N: opens a graph with the vertices 0 to N - 1 and no edges, as version 0"""
        numbers = self.numbers_of("vertices", words.split())
        self.want_none()
        self.take(Graph(numbers[0]))
        self.say(f"open {numbers[0]}")

    def do_names(self, words: str) -> None:
        """names: opens a graph whose vertices are words"""
        self.want_none()
        self.take(Graph(names=True))
        self.say("open, with names")

    def do_add(self, words: str) -> None:
        """add U V [W]: adds an edge, of weight W or 1, to the pending batch"""
        graph, given = self.opened(), words.split()
        if graph.names is None:
            u, v, *weight = self.numbers_of("add", given)
            graph.add_edge(u, v, *weight)
            return
        if len(given) not in (2, 3):
            raise Wrong("it is `add U V [W]`")
        weight = self.numbers_of("add", ["0", "0", *given[2:]])[2:]
        graph.add_edge(given[0], given[1], *weight)

    def do_del(self, words: str) -> None:
        """del U V: adds the removal of an edge to the pending batch"""
        graph, given = self.opened(), words.split()
        if graph.names is not None and len(given) != 2:
            raise Wrong("it is `del U V`")
        if graph.names is None:
            self.numbers_of("del", given)
        graph.remove_edge(self.vertex_of(given[0]), self.vertex_of(given[1]))

    def do_grow(self, words: str) -> None:
        """grow N: gives the next version the vertices 0 to N - 1"""
        self.opened().grow(self.numbers_of("grow", words.split())[0])

    def do_commit(self, words: str) -> None:
        """commit: makes the next version by the pending batch"""
        self.numbers_of("commit", words.split())
        with self.timed():
            self.say(f"version {self.opened().commit()}")

    def do_hold(self, words: str) -> None:
        """hold [at K]: holds the newest version, or version K, by a new ticket"""
        held = self.opened().held(*self.numbers_of("hold", words.split()))
        self.held[held.ticket] = held
        self.say(f"ticket {held.ticket} version {held.version}")

    def do_release(self, words: str) -> None:
        """release T: closes ticket T"""
        ticket = self.numbers_of("release", words.split())[0]
        self.opened()
        self.held_by(ticket).release()
        del self.held[ticket]
        self.say(f"released {ticket}")

    def do_edges(self, words: str) -> None:
        """edges [T]: lists the edges of the newest version, or of the one that ticket T holds"""
        numbers = self.numbers_of("edges", words.split())
        graph = self.opened()
        with self.timed():
            found = graph.edges(self.held_by(numbers[0]) if numbers else None)
            self.say(f"version {found.version}: {len(found)} edges")
            if len(found):
                self.say(*table(["from", "to", "weight"], islice(found, MOST_ROWS), len(found)))

    def do_status(self, words: str) -> None:
        """status: says which version is the newest, what is pending, and which tickets are open"""
        graph = self.opened()
        self.say(f"version {graph.version}: {graph.vertices} vertices; {graph.pending} entries are pending; {self.tickets()}")

    # Programs

    def do_program(self, words: str) -> None:
        """program [FILE]: compiles the program in FILE, and gives it the next number; else lists the programs"""
        if words:
            self.programs.append(Program(file_of(words)))
        first = len(self.programs) - 1 if words else 0
        for number, it in enumerate(self.programs[first:], first + 1):
            self.say(f"program {number}: {it.name}")

    def do_run(self, words: str) -> None:
        """run P [TURNS [WORKERS [T]]]: runs program P on the newest version, or on the one that ticket T holds"""
        given = words.split()
        program, turns, workers, *ticket = self.numbers_of("run", given + ["1", "1", "1"][len(given) :])
        if not given or not 1 <= program <= len(self.programs):
            raise Wrong(f"refused 412: there is no program {program}; `program FILE` takes one" if given else "it is `run P`")
        held = self.held_by(ticket[0]) if ticket else None
        self.show_run(self.programs[program - 1], held, turns if len(given) > 1 else None, workers)

    def default(self, line: str) -> None:
        """Runs a ready program, whose name is the first word of the line."""
        word, *words = line.split()
        if word not in READY:
            raise Wrong(f"`{word}` is not a command; `help` lists the commands")
        self.opened()
        words, held = self.place_of(words)
        self.show_run(self.ready_of(word, words), held)

    def show_run(self, program: Program | Ready, held: Held | None, turns: int | None = None, workers: int = 1) -> None:
        """Runs a program, and shows the outcome as a table."""
        graph = self.opened()
        with self.timed():
            run = graph.run(program, turns, workers, held)
            self.say(*run_lines(run))
            if run.statement is not None:
                name = program.name if isinstance(program, Program) else program.recipe
                self.say(statement_text(name, program.text, run.statement))

    # Files

    def do_load(self, words: str) -> None:
        """load FILE [WORDS]: takes a graph's edges, or a script, from a file; `help load` says more

        If the first line of FILE is `vertices N`, it is a script, whose lines are done as if they were typed. Else it has edges:
        an edge list, a matrix of the Matrix Market, or a graph of the DIMACS challenge of shortest paths, packed by gzip or not.
        If no graph is open, they are version 1 of a new one; else they join the pending batch. A FILE with spaces is written in
        double quotes. Words after FILE:
          weights      each edge has a weight, a whole number
          scale N      weights are taken and multiplied by N, such as 1000 for three decimal places
          names        vertices are any words; that is so without this word if the first edge has words that are no numbers
          one-based    vertices are numbered from 1
          both-ways    each edge is added reversed too
          commas       commas separate words; that is so without this word for a file .csv, and if the first line has commas alone
          spaces       spaces or tabs separate words
          columns A,B  of a file with commas: the columns with these headings have the sources and the destinations;
                       `columns A,B,W` takes the column W as weights too
        """
        path, *more = parted(words) or [""]
        if not path:
            raise Wrong("it is `load FILE`; `help load` says more")
        path = os.path.expanduser(path)
        with self.timed():
            if is_script(path):
                self.load_script(path)
            else:
                self.load_edges(path, more)

    def load_edges(self, path: str, words: list[str]) -> None:
        """Takes the edges in a file."""
        graph, count, unread = load_edges(self.graph, path, words)
        if self.graph is not None:
            self.say(f"{count} edges are pending; `commit` makes the next version")
        else:
            self.take(graph)
            graph.commit()
            self.do_status("")
        if unread:
            self.say(unread)

    def load_script(self, path: str) -> None:
        """Does the lines of a script; a line that fails is named by its place."""
        self.want_none()
        at = 0
        try:
            for at, part in script_parts(path):
                if isinstance(part, Adds):
                    self.opened().add_edges(*part.columns())
                elif not self.do_script_line(f"{path}:{at}", part):
                    return
        except KeyboardInterrupt:
            if not self.is_terminal:
                raise
            raise Wrong(f"interrupted at {path}:{at}; the lines before it are done") from None

    def do_script_line(self, place: str, line: str) -> bool:
        """Does a line of a script, and says whether those after it can be done."""
        before = self.failures
        word = line.partition(" ")[0]
        if line and word not in SCRIPT_WORDS:
            self.fail(f"refused 801: `{word}` is not a command of a script")
        else:
            self.attempt(line)
        if self.failures > before:
            self.say(f"{place}: `{line[:60]}` was not done")
        return self.graph is not None or word != "vertices"

    def do_save(self, words: str) -> None:
        """save FILE: writes a script that makes the newest version and those that are held again, by gzip if it ends in .gz"""
        if not words:
            raise Wrong("it is `save FILE`")
        graph = self.opened()
        graph.save(file_of(words))
        left = f"; {graph.pending} pending entries are not in it" if graph.pending else ""
        self.say(f"saved version {graph.version}{left}")

    def do_open(self, words: str) -> None:
        """open FILE: opens a graph that `save` wrote, in place of the one that is open"""
        if not words:
            raise Wrong("it is `open FILE`")
        with self.timed():
            self.take(files.open_graph(file_of(words)))
            self.do_status("")

    # Others

    def do_explain(self, words: str) -> None:
        """explain N: says what the number of a refusal or a fault means, and what to do"""
        row = row_of(int(words)) if words.isdecimal() else None
        if words == "401":
            self.say(FAULT)
        elif row is None:
            raise Wrong(f"{words!r} is no number of a refusal" if words else "it is `explain N`")
        else:
            self.say(f"{row.number}: {row.means}", row.cure)

    def do_close(self, words: str) -> None:
        """close: closes the graph; the programs stay"""
        self.opened()
        self.drop()

    def do_quit(self, words: str) -> bool:
        """quit: ends the shell, and the graph with it, as Ctrl-D does"""
        return True

    do_exit = do_quit

    def do_EOF(self, words: str) -> bool:
        """Ends the shell at the end of its input."""
        if self.is_terminal:
            self.say("")
        return True
