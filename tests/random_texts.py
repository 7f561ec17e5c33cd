"""Random programs that keep all rules, random schedules for them, and random scripts."""
from plain_language import (
    AddVertex, AllSet, Assign, Binary, Constant, CopySet, EdgeApply, Entry, FilterSet, For, Function, Group, If, Minus, Modified, Name,
    NewSet, Not, Number, Print, Program, Put, Reduce, Size, Truth, Var, VertexApply, While,
)

LITERALS = (0, 0, 1, 1, 2, 3, 5, 7, 100, 2**31, 2**63 - 1)
REDUCTIONS = ("min=", "max=", "+=")
SUMS = ("+", "-", "*", "/", "%")
COMPARISONS = ("==", "!=", "<", "<=", ">", ">=")
WEIGHTS = (0, -1, 2, 5, -7, 300, 2**63 - 1, -(2**63))


class Scope:
    """The names that are visible at a place, and how entries of vectors may be read there: at these parameters, or, in `main`, at
    any vertex."""

    def __init__(self, constants, ints=(), bools=(), at=None):
        self.sets, self.vectors = list(constants.sets), list(constants.vectors)
        self.ints, self.bools = [*constants.ints, *ints], [*constants.bools, *bools]
        # what may be assigned: variables alone
        self.own = {"int": [], "bool": [], "set": []}
        self.at = at

    def lists(self):
        return self.sets, self.vectors, self.ints, self.bools, *self.own.values()

    def sizes(self):
        return [len(it) for it in self.lists()]

    def cut(self, sizes):
        """Forgets the names that a block declared, and returns those of ints and bools."""
        freed = [name for it, size in zip(self.lists()[2:4], sizes[2:4]) for name in it[size:]]
        for it, size in zip(self.lists(), sizes):
            del it[size:]
        return freed


class Constants:
    def __init__(self):
        self.sets, self.vectors, self.ints, self.bools = [], [], [], []


class Maker:
    """Makes a random program. `chance` is the source of numbers, `vertices` about how many vertices graphs have."""

    def __init__(self, chance, vertices, size):
        self.chance, self.vertices, self.size = chance, vertices, size
        self.constants, self.declarations = Constants(), []
        self.functions = {"edge": [], "vertex": [], "filter": []}
        self.has_weights = chance.random() < 0.6
        self.count = 0
        # names that are visible no more, and may be declared again
        self.freed = []

    def name(self, begin):
        if begin in "nb" and self.freed and self.is_so(0.3):
            return self.freed.pop(self.chance.randrange(len(self.freed)))
        self.count += 1
        return f"{begin}{self.count}"

    def one(self, *ways):
        """Does one of some ways, each a weight and a function without arguments. Ways of None are left out."""
        ways = [it for it in ways if it]
        return self.chance.choices([it for _, it in ways], [weight for weight, _ in ways])[0]()

    def is_so(self, share):
        return self.chance.random() < share

    # --- expressions

    def number(self):
        return Number(self.chance.choice(LITERALS) if self.is_so(0.8) else self.chance.randrange(2**self.chance.randrange(1, 64)))

    def int_of(self, scope, depth):
        """Returns an expression of type int."""
        inner = lambda: self.int_of(scope, depth - 1)
        leaf = depth <= 0
        return self.one(
            (3, self.number),
            (4, lambda: Name(self.chance.choice(scope.ints))) if scope.ints else None,
            (3, lambda: self.entry(scope, depth)) if scope.vectors else None,
            (1, lambda: Size(self.chance.choice(scope.sets))) if scope.sets else None,
            (1, lambda: Minus(inner())) if not leaf else None,
            (4, lambda: Binary(self.chance.choice(SUMS), inner(), inner())) if not leaf else None,
            (0.5, lambda: Group(inner())) if not leaf else None,
        )

    def bool_of(self, scope, depth):
        """Returns an expression of type bool."""
        inner = lambda: self.bool_of(scope, depth - 1)
        number = lambda: self.int_of(scope, depth - 1)
        leaf = depth <= 0
        return self.one(
            (1, lambda: Truth(self.is_so(0.5))),
            (2, lambda: Name(self.chance.choice(scope.bools))) if scope.bools else None,
            (5, lambda: Binary(self.chance.choice(COMPARISONS), number(), number())),
            (1, lambda: Binary(self.chance.choice(("==", "!=")), inner(), inner())) if not leaf else None,
            (1, lambda: Not(inner())) if not leaf else None,
            (2, lambda: Binary(self.chance.choice(("and", "or")), inner(), inner())) if not leaf else None,
            (0.5, lambda: Group(inner())) if not leaf else None,
        )

    def entry(self, scope, depth):
        """Returns a read of a vector at an index that the scope may read."""
        return Entry(self.chance.choice(scope.vectors), self.index(scope, depth))

    def index(self, scope, depth):
        """Returns an index: a parameter in a function, and in `main` most often a vertex. It holds no entry."""
        if scope.at is not None:
            at = Name(self.chance.choice(scope.at))
            return Group(at) if self.is_so(0.1) else at
        vectors, scope.vectors = scope.vectors, []
        try:
            return self.one(
                (6, lambda: Number(self.chance.randrange(self.vertices))),
                (3, lambda: self.within(self.int_of(scope, depth - 1))),
                (1, lambda: self.int_of(scope, min(depth - 1, 1))) if self.is_so(0.3) else None,
            )
        finally:
            scope.vectors = vectors

    def within(self, it):
        """Returns an expression that is a vertex, whatever another one is."""
        count = Number(self.vertices)
        return Binary("%", Binary("+", Binary("%", it, count), count), count)

    # --- functions

    def function_body(self, scope, write, depth, count):
        """Returns statements of a function. `write` makes one that it is there for."""
        sizes, found = scope.sizes(), []
        for _ in range(count):
            found.append(self.one(
                (4, write),
                (2, lambda: self.declared(scope)),
                (1, lambda: self.assigned(scope, "int")) if scope.own["int"] else None,
                (1, lambda: self.assigned(scope, "bool")) if scope.own["bool"] else None,
                (1, lambda: self.reduced(scope)) if scope.own["int"] else None,
                (2, lambda: self.choice(scope, write, depth)) if depth > 0 else None,
            ))
        self.freed += scope.cut(sizes)
        return tuple(found)

    def choice(self, scope, write, depth):
        body = lambda: self.function_body(scope, write, depth - 1, self.chance.randrange(3))
        test = self.bool_of(scope, 2)
        return If(test, body(), body() if self.is_so(0.4) else None)

    def declared(self, scope):
        """Returns a variable, which is visible from then on."""
        kind = self.chance.choice(("int", "int", "bool"))
        value = self.int_of(scope, 2) if kind == "int" else self.bool_of(scope, 2)
        name = self.name("n" if kind == "int" else "b")
        (scope.ints if kind == "int" else scope.bools).append(name)
        scope.own[kind].append(name)
        return Var(None, kind, name, value)

    def assigned(self, scope, kind):
        name = self.chance.choice(scope.own[kind])
        return Assign(None, name, self.int_of(scope, 2) if kind == "int" else self.bool_of(scope, 2))

    def reduced(self, scope):
        return Reduce(self.chance.choice(scope.own["int"]), self.chance.choice(REDUCTIONS), self.int_of(scope, 2))

    def edge_function(self):
        """Declares an edge function, which reduces each vector that it writes in one way."""
        ends = self.parameters("u", "v")
        parameters = (*ends, *self.parameters("w")) if self.has_weights and self.is_so(0.6) else ends
        ways = {vector: self.chance.choice(REDUCTIONS) for vector in self.constants.vectors}
        written = self.chance.sample(self.constants.vectors, min(len(self.constants.vectors), self.chance.choice((1, 1, 2))))
        scope = Scope(self.constants, ints=parameters, at=ends)

        def write():
            vector = self.chance.choice(written)
            return Put(vector, Name(ends[1]), ways[vector], self.int_of(scope, 2))

        body = self.function_body(scope, write, 1, self.chance.randrange(1, 4))
        self.function("edge", parameters, None, body if written_in(body) else (*body, write()))

    def vertex_function(self):
        own, = self.parameters("v")
        scope = Scope(self.constants, ints=(own,), at=(own,))

        def write():
            return Put(self.chance.choice(self.constants.vectors), Name(own), self.chance.choice(("=", *REDUCTIONS)), self.int_of(scope, 2))

        self.function("vertex", (own,), None, self.function_body(scope, write, 1, self.chance.randrange(1, 4)))

    def filter(self):
        (own,), (result,) = self.parameters("v"), self.parameters("r")
        scope = Scope(self.constants, ints=(own,), bools=(result,), at=(own,))
        write = lambda: Assign(None, result, self.bool_of(scope, 2))
        self.function("filter", (own,), result, self.function_body(scope, write, 1, self.chance.randrange(1, 3)))

    def parameters(self, *names):
        """Returns names of parameters, which other functions may have too."""
        return names if self.is_so(0.7) else tuple(map(self.name, names))

    def function(self, kind, parameters, result, body):
        it = Function(kind, self.name("f"), parameters, result, body)
        self.functions[kind].append(it)
        self.declarations.append(it)

    def constant(self, kind, begin, value, names):
        it = Constant(kind, self.name(begin), value)
        names.append(it.name)
        self.declarations.append(it)

    # --- main

    def block(self, scope, depth, count):
        sizes, found = scope.sizes(), []
        while len(found) < count:
            found += self.statements(scope, depth)
        self.freed += scope.cut(sizes)
        return tuple(found)

    def statements(self, scope, depth):
        """Returns the next statement of `main`, or two applies that may be fused."""
        own, some = scope.own, self.functions
        return self.one(
            (3, lambda: [self.declared(scope)]),
            (2, lambda: [self.set_declared(scope)]),
            (2, lambda: [self.set_assigned(scope)]) if own["set"] else None,
            (1, lambda: [self.assigned(scope, "int")]) if own["int"] else None,
            (1, lambda: [self.assigned(scope, "bool")]) if own["bool"] else None,
            (2, lambda: [self.reduced(scope)]) if own["int"] else None,
            (3, lambda: [self.put(scope)]) if scope.vectors else None,
            (2, lambda: [Print(self.int_of(scope, 3) if self.is_so(0.7) else self.bool_of(scope, 3))]),
            (2, lambda: [AddVertex(self.chance.choice(own["set"]), self.added(scope))]) if own["set"] else None,
            (4, lambda: self.applies(scope)) if some["edge"] else None,
            (2, lambda: self.vertex_applies(scope)) if some["vertex"] and scope.sets else None,
            (1.5, lambda: [self.loop(scope, depth)]) if depth > 0 else None,
            (1.5, lambda: [self.main_choice(scope, depth)]) if depth > 0 else None,
        )

    def label(self):
        return self.name("l") if self.is_so(0.85) else None

    def put(self, scope):
        return Put(self.chance.choice(scope.vectors), self.index(scope, 2), self.chance.choice(("=", *REDUCTIONS)), self.int_of(scope, 2))

    def added(self, scope):
        return self.index(scope, 1) if self.is_so(0.8) else self.within(self.int_of(scope, 2))

    def set_declared(self, scope):
        value, name = self.set_value(scope), self.name("s")
        scope.sets.append(name)
        scope.own["set"].append(name)
        return Var(self.label() if isinstance(value, Modified) else None, "set", name, value)

    def set_assigned(self, scope):
        value = self.set_value(scope)
        return Assign(self.label() if isinstance(value, Modified) else None, self.chance.choice(scope.own["set"]), value)

    def set_value(self, scope):
        filters = self.functions["filter"]
        return self.one(
            (1, NewSet),
            (1, AllSet),
            (1, lambda: CopySet(self.chance.choice(scope.sets))) if scope.sets else None,
            (2, lambda: FilterSet(self.chance.choice(scope.sets), self.chance.choice(filters).name)) if scope.sets and filters else None,
            (5, lambda: self.modified(scope)) if self.functions["edge"] else None,
        )

    def end(self, scope):
        """Returns an end of an apply: none, a set or a filter."""
        names = scope.sets * 2 + [it.name for it in self.functions["filter"]]
        return self.chance.choice(names) if names and self.is_so(0.6) else None

    def modified(self, scope):
        function = self.chance.choice(self.functions["edge"])
        return Modified(self.end(scope), self.end(scope), function.name, self.chance.choice(sorted(written_in(function.body))))

    def applies(self, scope):
        """Returns an edge apply, and perhaps a second one with the same ends."""
        first = EdgeApply(self.label(), self.end(scope), self.end(scope), self.chance.choice(self.functions["edge"]).name)
        if self.is_so(0.5):
            return [first]
        return [first, first._replace(label=self.label(), function=self.chance.choice(self.functions["edge"]).name)]

    def vertex_applies(self, scope):
        of = self.chance.choice(scope.sets)
        count = self.chance.choice((1, 2))
        return [VertexApply(self.label(), of, self.chance.choice(self.functions["vertex"]).name) for _ in range(count)]

    def loop(self, scope, depth):
        """Returns a loop, which may be endless: turns are bounded."""
        count = self.chance.randrange(4)
        if self.is_so(0.5):
            test = self.bool_of(scope, 2)
            if scope.own["set"] and self.is_so(0.5):
                test = Binary("!=", Size(self.chance.choice(scope.own["set"])), Number(0))
            return While(test, self.block(scope, depth - 1, count))
        first = self.one((3, lambda: Number(self.chance.randrange(3))), (1, lambda: self.int_of(scope, 1)))
        end = self.one((3, lambda: Number(self.chance.randrange(6))), (1, lambda: self.int_of(scope, 1)))
        name = self.name("i")
        scope.ints.append(name)
        body = self.block(scope, depth - 1, count)
        scope.ints.remove(name)
        return For(name, first, end, body)

    def main_choice(self, scope, depth):
        block = lambda: self.block(scope, depth - 1, self.chance.randrange(3))
        return If(self.bool_of(scope, 2), block(), block() if self.is_so(0.5) else None)

    def vector_value(self):
        """Returns the value of a vector: None is the out-degrees."""
        return self.chance.choice((None, 0, 0, -1, 1, 3, 2**63 - 1, -(2**63 - 1)))

    def program(self):
        """Returns a whole program."""
        chance, some = self.chance, self.constants
        for _ in range(chance.randrange(1, 5)):
            self.constant("vector", "x", self.vector_value(), some.vectors)
        makers = [
            *[lambda: self.constant("set", "a", None, some.sets)] * chance.randrange(3),
            *[lambda: self.constant("int", "c", chance.choice((0, 1, 2, -3, 2**63 - 1)), some.ints)] * chance.randrange(3),
            *[lambda: self.constant("bool", "d", self.is_so(0.5), some.bools)] * chance.randrange(2),
            *[self.edge_function] * chance.randrange(1, 4),
            *[self.vertex_function] * chance.randrange(3),
            *[self.filter] * chance.randrange(3),
        ]
        chance.shuffle(makers)
        for make in makers:
            make()
        main = self.block(Scope(some), 2, chance.randrange(3, self.size))
        return Program(self.has_weights, tuple(self.declarations), main)


def written_in(body):
    """Returns the vectors that statements of a function write."""
    return {it.vector for it in inside(body) if isinstance(it, Put)}


def read_in(body):
    """Returns the vectors that statements of a function read."""
    return {it.vector for it in inside(body) if isinstance(it, Entry)}


def inside(it):
    """Yields all trees in a tree."""
    if isinstance(it, tuple):
        if hasattr(it, "_fields"):
            yield it
        for part in it:
            yield from inside(part)


# --- schedules

DIRECTIONS = ("SparsePush", "DensePush", "DensePull", "DensePull-SparsePush")
PARALLELIZATIONS = ("serial", "static-vertex-parallel", "dynamic-vertex-parallel", "edge-aware-dynamic-vertex-parallel")
DENSE_SETS = ("bool-array", "bitvector")


class Apply:
    """What a schedule's rules look at in an apply: its label, its kind and ends, its function, and the set that its changes are."""

    def __init__(self, statement):
        self.label, self.kind, self.ends, self.function, self.target = statement.label, None, None, None, None
        match statement:
            case VertexApply(_, of, function):
                self.kind, self.ends, self.function = "vertex", (of,), function
            case EdgeApply(_, source, destination, function):
                self.kind, self.ends, self.function = "edge", (source, destination), function
            case Var(_, _, name, Modified(source, destination, function, _)) | Assign(_, name, Modified(source, destination, function, _)):
                self.kind, self.ends, self.function, self.target = "edge", (source, destination), function, name


def blocks_in(statements):
    """Yields the blocks of `main`."""
    yield statements
    for it in statements:
        for block in (getattr(it, "body", ()), getattr(it, "other", None) or ()):
            if block:
                yield from blocks_in(block)


def applies_in(program):
    """Returns the labelled applies of a program, and the pairs of them that may be fused."""
    bodies = {it.name: it.body for it in program.declarations if isinstance(it, Function)}
    applies, pairs = [], []
    for block in blocks_in(program.main):
        found = [Apply(it) if getattr(it, "label", None) else None for it in block]
        applies += [it for it in found if it]
        pairs += [(first, second) for first, second in zip(found, found[1:]) if first and second and may_be_fused(first, second, bodies)]
    return applies, pairs


def may_be_fused(first, second, bodies):
    """Whether two applies that follow one another keep the rules 306 and 307."""
    if first.kind != second.kind or first.ends != second.ends:
        return False
    if first.kind == "vertex":
        return True
    written = written_in(bodies[first.function])
    seen = written_in(bodies[second.function]) | read_in(bodies[second.function])
    for end in second.ends:
        seen |= read_in(bodies.get(end, ()))
    return not written & seen and (first.target is None or first.target not in second.ends)


def random_schedule(chance, program):
    """Returns the calls of a schedule that keeps all rules."""
    applies, pairs = applies_in(program)
    calls, fused = [], set()
    for it in applies:
        if it.kind == "edge":
            for setting, values in (("Direction", DIRECTIONS), ("Parallelization", PARALLELIZATIONS), ("DenseVertexSet", DENSE_SETS)):
                if chance.random() < 0.8:
                    calls.append(f'configApply{setting}("{it.label}", "{chance.choice(values)}")')
    for first, second in pairs:
        if chance.random() < 0.8 and not {first.label, second.label} & fused:
            fused |= {first.label, second.label}
            calls.append(f'fuseApplyFunctions("{first.label}", "{second.label}")')
    vectors = [it.name for it in program.declarations if isinstance(it, Constant) and it.type == "vector"]
    chance.shuffle(vectors)
    while len(vectors) > 1 and chance.random() < 0.5:
        count = chance.randrange(2, len(vectors) + 1)
        group, vectors = vectors[:count], vectors[count:]
        calls.append("fuseFields(" + ", ".join(f'"{name}"' for name in group) + ")")
    chance.shuffle(calls)
    return tuple(calls)


# --- scripts

WORKERS = (1, 2, 7)
TURNS = (0, 1, 2, 3, 5, 8, 13, 30)


class Lines:
    """Makes the lines of a script. It knows about how many versions and tickets there are."""

    def __init__(self, chance, vertices, programs):
        self.chance, self.count, self.programs = chance, vertices, programs
        self.commits = self.tickets = 0
        self.lines = [f"vertices {vertices}" + chance.choice(("", "", " 1", " 2", " 4", " 16", " 64", " 256"))]

    def edge(self):
        return f"{self.chance.randrange(self.count)} {self.chance.randrange(self.count)}"

    def weight(self):
        return self.chance.choice(("", "", f" {self.chance.choice(WEIGHTS)}", f" {self.chance.randrange(-20, 20)}"))

    def batch(self, count):
        for _ in range(count):
            kind = self.chance.random()
            if kind < 0.7:
                self.lines.append(f"add {self.edge()}{self.weight()}")
            elif kind < 0.95:
                self.lines.append(f"del {self.edge()}")
            else:
                self.count += self.chance.randrange(0, 3)
                self.lines.append(f"grow {self.count}")
        if self.chance.random() < 0.03:
            self.lines.append(self.chance.choice((f"add {self.count} 0", f"grow {max(self.count - 1, 0)}", "add 0", f"del  {self.edge()}")))
        self.lines.append("commit")
        self.commits += 1

    def hold(self):
        at = f" at {self.chance.randrange(self.commits + 2)}" if self.chance.random() < 0.3 else ""
        self.lines.append(f"hold{at}")
        self.tickets += 1

    def ticket(self):
        return self.chance.randrange(1, self.tickets + 2) if self.tickets else 1

    def release(self):
        self.lines.append(f"release {self.ticket()}")

    def edges(self):
        self.lines.append("edges" + (f" {self.ticket()}" if self.chance.random() < 0.5 else ""))

    def run(self):
        """Runs all programs, each by some number of workers."""
        ticket = f" {self.ticket()}" if self.tickets and self.chance.random() < 0.4 else ""
        turns = self.chance.choice(TURNS)
        for program in range(1, self.programs + 1):
            self.lines.append(f"run {program} {turns} {self.chance.choice(WORKERS)}{ticket}")
        if self.chance.random() < 0.05:
            self.lines.append(self.chance.choice((f"run {self.programs + 1} 1 1", "run 1 1 65", "run 1 1 0", "run 1 1", "run 0 1 1")))


def random_lines(chance, vertices, programs):
    """Returns the lines of a script on a small graph."""
    it = Lines(chance, vertices, programs)
    it.batch(chance.randrange(vertices * 3 + 1))
    it.run()
    for _ in range(chance.randrange(8)):
        ways = (lambda: it.batch(chance.randrange(6)), it.hold, it.release, it.edges, it.run, it.run)
        chance.choice(ways)()
    it.run()
    return it.lines


def large_lines(chance, vertices, edges, programs):
    """Returns the lines of a script on a graph with edges for several workers, whose runs have few turns."""
    lines = [f"vertices {vertices}"]
    # few destinations get most of the edges, so that workers meet
    ends = lambda: (chance.randrange(vertices), int(vertices * chance.random() ** 3))
    lines += ["add {} {} {}".format(*ends(), chance.randrange(-9, 9)) for _ in range(edges)]
    lines.append("commit")
    turns = chance.choice((1, 2))
    return lines + [f"run {program} {turns} {workers}" for program in range(1, programs + 1) for workers in WORKERS]
