"""The rules 221 to 229 of names and types, read from docs/LANGUAGE.md alone: which rule a text breaks first, and where.

`first_fault` reads a text by the grammar and goes over it once. It keeps all faults and answers the one with the least offset, of several
there the one with the least number.
"""
from typing import NamedTuple

from checked_texts import TOKEN, tokens

KEYWORDS = set(
    "element Vertex Edge end edgeset vertexset vector int bool const var func while for in if else print true false and or not new load "
    "argv schedule program from to apply applyModified filter getVertices getOutDegrees addVertex getVertexSetSize configApplyDirection "
    "configApplyParallelization configApplyDenseVertexSet fuseApplyFunctions fuseFields".split()
)
REDUCTIONS = ("min=", "max=", "+=")
LEVELS = (("or",), ("and",), ("==", "!=", "<", "<=", ">", ">="), ("+", "-"), ("*", "/", "%"))


class NotInGrammar(Exception):
    """The text is no source."""


# --- trees: names are pairs of a text and its offset

class Node(NamedTuple):
    """A part of a source: its kind, the offset of its first token, and its parts."""

    kind: str
    at: int
    parts: tuple


class Reader:
    """Reads the tokens of a text by the grammar."""

    def __init__(self, text):
        self.spans = [(text[start:end], start) for start, end in tokens(text)]
        self.place = 0

    def next(self):
        return self.spans[self.place][0] if self.place < len(self.spans) else None

    def at(self):
        return self.spans[self.place][1] if self.place < len(self.spans) else -1

    def take(self, *wanted):
        """Takes these tokens, one after the other."""
        for it in wanted:
            if self.next() != it:
                raise NotInGrammar(f"{it} is wanted at {self.at()}")
            self.place += 1

    def takes(self, wanted):
        """Whether a token is the next one, which is taken then."""
        if self.next() == wanted:
            self.place += 1
            return True
        return False

    def name(self):
        it = self.next()
        if it is None or not (it[0].isalpha() or it[0] == "_") or it in KEYWORDS or it in REDUCTIONS:
            raise NotInGrammar(f"a name is wanted at {self.at()}")
        self.place += 1
        return self.spans[self.place - 1]

    def number(self):
        it = self.next()
        if it is None or not it.isdigit():
            raise NotInGrammar(f"a number is wanted at {self.at()}")
        self.place += 1
        return int(it)

    # declarations

    def source(self):
        self.take("element", "Vertex", "end", "element", "Edge", "end")
        found = []
        while self.next() is not None:
            found.append(self.declaration())
        return found

    def declaration(self):
        at = self.at()
        if self.takes("const"):
            name, kind = self.parameter()
            self.take("=")
            value = self.initial()
            self.take(";")
            return Node("const", at, (name, kind, value))
        self.take("func")
        name, parameters, result = self.name(), [], None
        self.take("(")
        while not self.takes(")"):
            if parameters:
                self.take(",")
            parameters.append(self.parameter())
        if self.takes("->"):
            result = self.parameter()
        body = self.block("end")
        self.take("end")
        return Node("func", at, (name, parameters, result, body))

    def parameter(self):
        name = self.name()
        self.take(":")
        return name, self.type()

    def type(self):
        it = self.next()
        if it in ("int", "bool", "Vertex"):
            self.place += 1
            return it
        if self.takes("vertexset"):
            self.take("{", "Vertex", "}")
            return "vertexset"
        if self.takes("vector"):
            self.take("{", "Vertex", "}", "(", "int", ")")
            return "vector"
        self.take("edgeset", "{", "Edge", "}", "(", "Vertex", ",", "Vertex")
        kind = "weighted edgeset" if self.takes(",") else "edgeset"
        self.take(*(("int", ")") if kind != "edgeset" else (")",)))
        return kind

    # statements

    def block(self, *ends):
        found = []
        while self.next() not in ends:
            label = None
            if self.next() is not None and self.next().startswith("#"):
                label = self.spans[self.place]
                self.place += 1
            found.append((label, self.action()))
        return found

    def action(self):
        at = self.at()
        if self.takes("var"):
            name, kind = self.parameter()
            self.take("=")
            return self.ended(Node("var", at, (name, kind, self.initial())))
        if self.takes("while"):
            return self.closed(Node("while", at, (self.expression(), self.block("end"))))
        if self.takes("for"):
            name = self.name()
            self.take("in")
            first = self.expression()
            self.take(":")
            return self.closed(Node("for", at, (name, first, self.expression(), self.block("end"))))
        if self.takes("if"):
            test, body = self.expression(), self.block("end", "else")
            return self.closed(Node("if", at, (test, body, self.block("end") if self.takes("else") else [])))
        if self.takes("print"):
            return self.ended(Node("print", at, (self.expression(),)))
        return self.ended(self.on_name(at))

    def on_name(self, at):
        """Returns a statement that begins with a name."""
        name = self.name()
        if self.takes("["):
            index = self.expression()
            self.take("]")
            by = self.way()
            return Node("put", at, (name, index, by, self.expression()))
        if self.next() == ".":
            return self.call(at, name)
        by = self.way()
        return Node("assign", at, (name, self.initial())) if by == "=" else Node("reduce", at, (name, by, self.expression()))

    def way(self):
        it = self.next()
        if it not in ("=", *REDUCTIONS):
            raise NotInGrammar(f"an assignment is wanted at {self.at()}")
        self.place += 1
        return it

    def call(self, at, name):
        if self.spans[self.place + 1 : self.place + 2] and self.spans[self.place + 1][0] == "addVertex":
            self.take(".", "addVertex", "(")
            vertex = self.expression()
            self.take(")")
            return Node("add", at, (name, vertex))
        ends = self.ends()
        self.take(".", "apply", "(")
        function = self.name()
        self.take(")")
        return Node("apply", at, (name, ends, function))

    def ends(self):
        """Returns the names after `from` and `to`, each None if it is not there."""
        found = []
        for word in ("from", "to"):
            name = None
            if self.next() == "." and self.spans[self.place + 1 : self.place + 2] and self.spans[self.place + 1][0] == word:
                self.take(".", word, "(")
                name = self.name()
                self.take(")")
            found.append(name)
        return found

    def ended(self, it):
        self.take(";")
        return it

    def closed(self, it):
        self.take("end")
        return it

    def initial(self):
        at = self.at()
        if self.takes("new"):
            self.take("vertexset", "{", "Vertex", "}", "(")
            size = self.number()
            self.take(")")
            return Node("new", at, (size,))
        if self.takes("load"):
            self.take("(", "argv", "[")
            argument = self.number()
            self.take("]", ")")
            return Node("load", at, (argument,))
        words = [it for it, _ in self.spans[self.place + 1 : self.place + 3]]
        if len(words) == 2 and words[0] == "." and words[1] in ("getVertices", "getOutDegrees", "filter", "from", "to", "applyModified"):
            return self.made(at, words[1])
        return Node("value", at, (self.expression(),))

    def made(self, at, word):
        """Returns an initial value that begins with a name and a full stop."""
        name = self.name()
        if word in ("getVertices", "getOutDegrees"):
            self.take(".", word, "(", ")")
            return Node(word, at, (name,))
        if word == "filter":
            self.take(".", "filter", "(")
            test = self.name()
            self.take(")")
            return Node("filter", at, (name, test))
        ends = self.ends()
        self.take(".", "applyModified", "(")
        function = self.name()
        self.take(",")
        vector = self.name()
        self.take(")")
        return Node("modified", at, (name, ends, function, vector))

    # expressions

    def expression(self, level=0):
        """Returns an expression of a level: a row of operands, each of the next level, if there is more than one."""
        if level == len(LEVELS):
            return self.unary()
        at, operands, operators = self.at(), [self.expression(level + 1)], []
        while self.next() in LEVELS[level] and not (level == 2 and operators):
            operators.append(self.next())
            self.place += 1
            operands.append(self.expression(level + 1))
        return Node("row", at, (level, tuple(operators), tuple(operands))) if operators else operands[0]

    def unary(self):
        at, sign = self.at(), self.next()
        if sign in ("-", "not"):
            self.place += 1
            return Node("sign", at, (sign, self.unary()))
        return self.primary()

    def primary(self):
        at, it = self.at(), self.next()
        if it in ("true", "false"):
            self.place += 1
            return Node("truth", at, ())
        if self.takes("("):
            inner = self.expression()
            self.take(")")
            return Node("group", at, (inner,))
        if it is not None and it.isdigit():
            return Node("number", at, (self.number(),))
        name = self.name()
        if self.takes("["):
            index = self.expression()
            self.take("]")
            return Node("entry", at, (name, index))
        if self.next() == ".":
            self.take(".", "getVertexSetSize", "(", ")")
            return Node("size", at, (name,))
        return Node("name", at, (name,))


def holds_entry(it):
    """Whether an entry of a vector is read in an expression."""
    match it:
        case Node("entry"):
            return True
        case Node("row", _, (_, _, operands)):
            return any(map(holds_entry, operands))
        case Node("sign", _, (_, inner)) | Node("group", _, (inner,)):
            return holds_entry(inner)
    return False


def bare(it):
    """Returns the name that an expression is, perhaps in parentheses, or None."""
    while it.kind == "group":
        it, = it.parts
    return it.parts[0] if it.kind == "name" else None


def is_literal(value, kind):
    """Whether an initial value is a literal of type int or bool."""
    if value.kind != "value":
        return False
    it, = value.parts
    if kind == "bool":
        return it.kind == "truth"
    if it.kind == "sign" and it.parts[0] == "-":
        it = it.parts[1]
    return it.kind == "number"


# --- the rules. What a name means is a pair of a kind and what else is known of it. The types of values are int, bool, set, error, and
# for a vertex the number of its parameter.

VALUES = {
    "int": "int", "constant int": "int", "for": "int", "weight": "int", "bool": "bool", "constant bool": "bool", "set": "set",
    "constant set": "set", "error": "error",
}


def is_int(it):
    """Whether a value reads as an int: a vertex is its number."""
    return it == "int" or isinstance(it, int)


class Rules:
    def __init__(self):
        self.faults = []
        self.names = {}
        self.labels = set()
        self.has_edges = self.has_main = False
        # the kind of function around a place, and how its vectors were reduced so far
        self.inside, self.reduced = "main", {}

    def fault(self, at, number):
        self.faults.append((at, number))
        return "error"

    def used(self, name):
        """Returns what a name means, which has to be visible."""
        if name[0] not in self.names:
            self.fault(name[1], 221)
            return "error", None
        return self.names[name[0]]

    def declare(self, name, kind, known=None):
        if name[0] in self.names:
            self.fault(name[1], 222)
        else:
            self.names[name[0]] = kind, known

    # expressions: each call answers with a type, and `at` is the offset of the statement around it

    def type_of(self, it, at):
        match it:
            case Node("number"):
                return "int"
            case Node("truth"):
                return "bool"
            case Node("group", _, (inner,)):
                return self.type_of(inner, at)
            case Node("sign", _, (sign, inner)):
                found = self.type_of(inner, at)
                if found == "error":
                    return found
                fits = is_int(found) if sign == "-" else found == "bool"
                return ("int" if sign == "-" else "bool") if fits else self.fault(at, 223)
            case Node("name", _, (name,)):
                return self.value_of(*self.used(name), at)
            case Node("size", _, (name,)):
                found = VALUES.get(self.used(name)[0])
                return {"error": "error", "set": "int"}.get(found) or self.fault(at, 223)
            case Node("entry", _, (name, index)):
                return self.entry(name, index, at)
            case Node("row", _, (level, operators, operands)):
                return self.row(level, operators, [self.type_of(operand, at) for operand in operands], at)

    def value_of(self, kind, known, at):
        """Returns the type of a name that stands as a value."""
        if kind == "parameter":
            return known
        return VALUES.get(kind) or self.fault(at, 223)

    def row(self, level, operators, found, at):
        if "error" in found:
            return "error"
        ints, bools = all(map(is_int, found)), all(it == "bool" for it in found)
        if level >= 3:
            return "int" if ints else self.fault(at, 223)
        fits = bools if level < 2 else ints or (bools and operators[0] in ("==", "!="))
        return "bool" if fits else self.fault(at, 223)

    def index_type(self, index, at):
        """Returns the type of an index. In a function of a user the bare name of a thing that is no value has no fault."""
        name = bare(index)
        if self.inside != "main" and name and name[0] in self.names:
            kind, known = self.names[name[0]]
            if kind != "parameter" and kind not in VALUES:
                return "no value"
        return self.type_of(index, at)

    def entry(self, name, index, at):
        kind, _ = self.used(name)
        found = self.index_type(index, at)
        if "error" in (kind, found):
            return "error"
        if kind != "vector":
            return self.fault(at, 223)
        if self.inside == "main":
            return self.main_index(found, index, at) or "int"
        return "int" if isinstance(found, int) else self.fault(at, 226)

    def main_index(self, found, index, at):
        """Looks at an index of main that is not faulty. Returns None if it fits."""
        wrong = None if is_int(found) else self.fault(at, 223)
        return self.fault(at, 226) if holds_entry(index) and found != "set" else wrong

    def want(self, it, kind, at):
        """Looks at an expression where an int or a bool is wanted."""
        self.fits(self.type_of(it, at), kind, at)

    def fits(self, found, kind, at):
        if found != "error" and not (is_int(found) if kind == "int" else found == kind):
            self.fault(at, 223)

    # initial and assigned values

    def initial(self, value, at):
        """Returns the type of an initial value: that of an expression, or set, loaded or degrees."""
        match value:
            case Node("new", _, (size,)):
                return "set" if size == 0 else self.fault(at, 223)
            case Node("load", _, (argument,)):
                return "loaded" if argument == 1 else self.fault(at, 223)
            case Node("getVertices" | "getOutDegrees", _, (name,)):
                kind, _ = self.used(name)
                if kind == "error":
                    return kind
                if kind != "edges":
                    return self.fault(at, 223)
                return "set" if value.kind == "getVertices" else "degrees"
            case Node("filter", _, (of, test)):
                of, test = self.used(of)[0], self.used(test)[0]
                if "error" in (of, test):
                    return "error"
                return "set" if VALUES.get(of) == "set" and test == "filter" else self.fault(at, 223)
            case Node("modified"):
                return self.modified(*value.parts, at)
            case Node("value", _, (it,)):
                return self.type_of(it, at)

    def ends(self, ends):
        return [self.used(it)[0] if it else None for it in ends]

    def are_ends(self, ends):
        return all(it is None or it == "filter" or VALUES.get(it) in ("set", "error") for it in ends)

    def modified(self, name, ends, function, vector, at):
        edges, ends = self.used(name), self.ends(ends)
        function, vector = self.used(function), self.used(vector)
        if "error" in (edges[0], *ends, function[0], vector[0]):
            return "error"
        fits = edges[0] == "edges" and self.are_ends(ends) and function[0] == "edge" and vector[0] == "vector"
        fits = fits and (edges[1] or not function[1][0]) and vector[1] in function[1][1]
        return "set" if fits else self.fault(at, 223)

    # statements

    def block(self, statements):
        """Looks at a block. After it the names that it declared are forgotten."""
        before = dict(self.names)
        for label, action in statements:
            if label:
                if label[0] in self.labels:
                    self.fault(label[1], 229)
                self.labels.add(label[0])
            self.action(action)
        self.names = before

    def action(self, it):
        is_user = self.inside != "main"
        match it:
            case Node("var", at, (name, kind, value)):
                self.variable(name, kind, self.initial(value, at), at)
            case Node("while", at, (test, body)):
                if is_user:
                    self.fault(at, 223)
                self.want(test, "bool", at)
                self.block(body)
            case Node("for", at, (name, first, limit, body)):
                if is_user:
                    self.fault(at, 223)
                self.want(first, "int", at)
                self.want(limit, "int", at)
                before = dict(self.names)
                self.declare(name, "for")
                self.block(body)
                self.names = before
            case Node("if", at, (test, body, other)):
                self.want(test, "bool", at)
                self.block(body)
                self.block(other)
            case Node("print", at, (value,)):
                if is_user:
                    self.fault(at, 227)
                else:
                    found = self.type_of(value, at)
                    if found != "error" and not is_int(found) and found != "bool":
                        self.fault(at, 223)
            case Node("assign", at, (name, value)):
                kind, _ = self.used(name)
                found = self.initial(value, at)
                self.assigned(kind, found, at)
            case Node("reduce", at, (name, _, value)):
                kind, _ = self.used(name)
                found = self.type_of(value, at)
                if kind == "int":
                    self.fits(found, "int", at)
                elif kind != "error":
                    self.fault(at, 223)
            case Node("put", at, (name, index, by, value)):
                self.put(name, index, by, value, at)
            case Node("add", at, (name, vertex)):
                if is_user:
                    self.fault(at, 223)
                kind, _ = self.used(name)
                found = self.type_of(vertex, at)
                if not is_user and kind == "set":
                    self.fits(found, "int", at)
                elif not is_user and kind != "error":
                    self.fault(at, 223)
            case Node("apply", at, (name, ends, function)):
                self.apply(name, ends, function, at)

    def variable(self, name, kind, found, at):
        if kind in ("int", "bool") or (kind == "vertexset" and self.inside == "main"):
            kind = {"vertexset": "set"}.get(kind, kind)
            self.fits(found, kind, at)
            self.declare(name, kind)
        else:
            self.fault(at, 223)
            self.declare(name, "error")

    def assigned(self, kind, found, at):
        """A statement is no expression: a name that may not be assigned is a fault whatever the value is."""
        if kind in ("int", "bool") or (kind == "set" and self.inside == "main"):
            self.fits(found, kind, at)
        elif kind != "error":
            self.fault(at, 223)

    def put(self, name, index, by, value, at):
        """Looks at an assignment or a reduction of an entry."""
        if self.inside == "filter":
            self.fault(at, 223)
        if self.inside == "edge" and by == "=":
            self.fault(at, 224)
        kind, vector = self.used(name)
        if kind not in ("vector", "error"):
            self.fault(at, 223)
        if self.inside == "edge" and by != "=" and kind == "vector":
            if self.reduced.setdefault(vector, by) != by:
                self.fault(at, 225)
        found = self.index_type(index, at)
        if self.inside != "main":
            own = 1 if self.inside == "edge" else 0
            if found != "error" and not (isinstance(found, int) and found == own):
                self.fault(at, 226)
        elif found != "error":
            self.main_index(found, index, at)
        self.want(value, "int", at)

    def apply(self, name, ends, function, at):
        if self.inside != "main":
            self.fault(at, 223)
        of, known = self.used(name)
        given = self.ends(ends)
        kind, also = self.used(function)
        if self.inside != "main" or of == "error":
            return
        if of == "edges":
            fits = self.are_ends(given) and kind in ("edge", "error") and (known or kind == "error" or not also[0])
        else:
            fits = VALUES.get(of) == "set" and ends == [None, None] and kind in ("vertex", "error")
        if not fits:
            self.fault(at, 223)

    # declarations

    def constant(self, at, name, kind, value):
        found = self.initial(value, at)
        if kind in ("int", "bool"):
            fits = is_literal(value, kind)
        elif kind == "vertexset":
            fits = value.kind == "getVertices"
        elif kind == "vector":
            fits = found == "degrees" or is_literal(value, "int")
        else:
            fits = kind != "Vertex" and found == "loaded"
        if not fits and (found != "error" or kind == "Vertex"):
            self.fault(at, 223)
        if "edgeset" in kind:
            if self.has_edges:
                self.fault(name[1], 222)
            self.has_edges = True
            self.declare(name, "edges", kind != "edgeset")
        elif kind == "vector":
            self.declare(name, "vector", name)
        else:
            self.declare(name, {"int": "constant int", "bool": "constant bool", "vertexset": "constant set"}.get(kind, "error"))

    def function(self, at, name, parameters, result, body):
        kinds = [kind for _, kind in parameters]
        self.inside = self.kind_of(name[0], kinds, result)
        kind, self.reduced = self.inside, {}
        if kind == "none":
            self.fault(at, 223)
            self.inside = "vertex"
        before = dict(self.names)
        has_weight = kind == "edge" and len(kinds) == 3
        for place, (parameter, type_of) in enumerate(parameters):
            if type_of == "Vertex":
                self.declare(parameter, "parameter", min(place, 1))
            else:
                self.declare(parameter, "weight" if has_weight and type_of == "int" else "error")
        if result:
            self.declare(result[0], "bool" if kind == "filter" else "error")
        self.block(body)
        self.names = before
        if kind == "main":
            self.has_main = self.has_main or (not kinds and not result)
        known = (has_weight, set(self.reduced)) if kind == "edge" else None
        self.declare(name, "error" if kind == "none" else kind, known)
        self.inside = "main"

    def kind_of(self, name, kinds, result):
        if name == "main":
            return "main"
        if kinds == ["Vertex"]:
            return "vertex" if not result else "filter" if result[1] == "bool" else "none"
        return "edge" if kinds in (["Vertex", "Vertex"], ["Vertex", "Vertex", "int"]) and not result else "none"


def first_fault(text):
    """Returns the offset and the number of the rule that a text is refused by, or None if it breaks none. The text has no schedule."""
    rules = Rules()
    for it in Reader(text).source():
        if it.kind == "const":
            rules.constant(it.at, *it.parts)
        else:
            rules.function(it.at, *it.parts)
    if not rules.has_main:
        rules.fault(len(text), 228)
    return min(rules.faults, default=None)
