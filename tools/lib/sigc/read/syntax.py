"""A reader of programs that says what it wanted where it stops, and goes on behind a fault where it can.

`read(text)` gives the processes of a text with their declarations, equations and expressions, each with its place,
and the faults. It reads the grammar of docs/language.md; what sigc says decides.
"""
import sys
from dataclasses import dataclass, field
from typing import NamedTuple

from sigc.read.lexer import KINDS, PIECE, RESERVED

RELATIONS = ("=", "/=", "<", "<=", ">", ">=")
CLOCK_MARKS = ("^+", "^*", "^-")
SUMS = ("+", "-")
PRODUCTS = ("*", "/", "modulo")
FUNCTIONS = (*RELATIONS, *SUMS, *PRODUCTS, "and", "or", "xor", "not", "neg")
OPERATORS = ("default", "when", "cell", *CLOCK_MARKS, "or", "xor", "and", *RELATIONS, *SUMS, *PRODUCTS, "$")
BODY_ENDS = ("|", "|)", "where", "process", "end")
# Expressions that sigc takes stand at most 64 deep; each of them takes some fifteen calls of the reader.
DEEPEST, CALLS = 200, 20000
# What stands inside more others than this sigc refuses: brackets, inner processes, operators before their operand.
NESTED = 64
MOST_FAULTS = 50
# A text of more pieces is read up to there.
MOST_PIECES = 250_000


class Piece(NamedTuple):
    """A token with its place and its offsets in the text."""

    kind: str
    text: str
    line: int
    col: int
    start: int
    end: int


class Fault(NamedTuple):
    """A piece with which the text cannot go on, what was wanted there, and what is open, the innermost last."""

    found: Piece
    wanted: tuple
    open: tuple
    before: Piece


class Stop(Exception):
    """The reader stands at a fault."""

    def __init__(self, fault):
        super().__init__(fault)
        self.fault = fault


@dataclass
class Node:
    """An expression: its operator (`at` is `when` before its operand, `neg` a minus), the operator's piece and the operands."""

    op: str
    at: Piece
    parts: list
    init: list = field(default_factory=list)
    start: int = 0
    end: int = 0


@dataclass
class Declaration:
    name: Piece
    kind: str
    role: str
    group: Piece
    init: list


@dataclass
class Equation:
    """A definition (`lefts`, `right`), a call (`lefts`, `called`, `constants`, `arguments`), a clock equation (`terms`), or a faulty one."""

    form: str
    pieces: list = field(default_factory=list)
    lefts: list = field(default_factory=list)
    right: Node = None
    called: Piece = None
    constants: list = field(default_factory=list)
    arguments: list = field(default_factory=list)
    terms: list = field(default_factory=list)

    def expressions(self):
        return [it for it in [self.right, *self.arguments, *self.terms] if it]


@dataclass
class Process:
    keyword: Piece
    name: Piece
    parent: "Process" = None
    parameters: list = field(default_factory=list)
    inputs: list = field(default_factory=list)
    outputs: list = field(default_factory=list)
    locals: list = field(default_factory=list)
    pragmas: list = field(default_factory=list)
    equations: list = field(default_factory=list)
    query: Piece = None
    body: list = field(default_factory=list)
    where: Piece = None
    end: Piece = None

    def signals(self):
        return [*self.inputs, *self.outputs, *self.locals]

    def names(self):
        return [*self.parameters, *self.signals()]

    def declaration(self, name):
        return next((it for it in self.names() if it.name.text == name), None)


def pieces_of(text):
    """The tokens of a text, the end last, and the offsets of bytes that begin none. Of a text with more than MOST_PIECES
    tokens these are those of its beginning, and the end stands where they stop: `is_whole` tells that."""
    found, strange, at, line, begun = [], [], 0, 1, 0
    while at < len(text) and len(found) < MOST_PIECES:
        piece = PIECE.match(text, at)
        end = piece.end() if piece else at + 1
        if not piece:
            strange.append(at)
        elif piece.lastgroup != "blank":
            found.append(Piece(piece.lastgroup, piece[0], line, at - begun + 1, at, end))
        breaks = text.count("\n", at, end)
        if breaks:
            line, begun = line + breaks, text.rindex("\n", at, end) + 1
        at = end
    return [*found, Piece("end", "", line, at - begun + 1, at, at)], strange


def is_whole(pieces, text):
    """Whether pieces are those of the whole text."""
    return pieces[-1].end == len(text)


class Reader:
    """A walk over the pieces of a text; `wanted` holds what was asked for at the piece where it stands."""

    def __init__(self, text):
        self.text = text
        self.pieces, self.strange = pieces_of(text)
        self.is_cut = not is_whole(self.pieces, text)
        self.at, self.wanted, self.open, self.depth = 0, [], [], 0
        self.nested, self.too_deep = 0, None
        self.processes, self.faults = [], []

    def here(self):
        return self.pieces[self.at]

    def sees(self, *texts):
        self.wanted.append(texts)
        piece = self.pieces[self.at]
        return piece.text in texts and piece.kind != "label"

    def is_name(self):
        piece = self.here()
        return piece.kind == "name" and piece.text not in RESERVED

    def stop(self):
        before = self.pieces[self.at - 1] if self.at else self.here()
        wanted = tuple(dict.fromkeys(it for texts in self.wanted for it in texts))
        raise Stop(Fault(self.here(), wanted, tuple(self.open), before))

    def step(self):
        self.at, self.wanted = self.at + 1, []
        return self.pieces[self.at - 1]

    def take(self, *texts):
        return self.step() if self.sees(*texts) else self.stop()

    def nest(self, piece):
        """Goes into what sigc counts as nested, and keeps the first piece that stands deeper than it takes."""
        self.nested += 1
        if self.nested > NESTED and self.too_deep is None:
            self.too_deep = piece
        return piece

    def leave(self, count=1):
        self.nested -= count

    def name(self):
        self.wanted.append(("a name",))
        return self.step() if self.is_name() else self.stop()

    def listed(self, item, end=None):
        """Items between commas; none where the end stands here at once."""
        if end and self.sees(end):
            return []
        found = [item()]
        while self.sees(","):
            self.step()
            found.append(item())
        return found

    def tolerant(self, part, ends):
        """Reads a part; at a fault it notes it, and goes on at the next piece of these that stands in no bracket opened since."""
        held = len(self.open)
        try:
            return part()
        except Stop as it:
            self.faults.append(it.fault)
            if len(self.faults) >= MOST_FAULTS:
                raise
            del self.open[held:]
            self.skip(ends)
            return None

    def skip(self, ends):
        depth = 0
        while self.here().kind != "end":
            text = self.here().text
            if text in ends and depth <= 0:
                break
            depth += (text in ("(", "(|", "{")) - (text in (")", "|)", "}"))
            self.step()
        self.wanted = []

    # Processes and declarations.

    def program(self):
        sys.setrecursionlimit(max(sys.getrecursionlimit(), CALLS))
        try:
            self.process(None)
            while self.here().kind != "end":
                self.process(None)
        except (Stop, RecursionError) as it:
            if isinstance(it, Stop):
                self.faults.append(it.fault)
        places = {}
        for it in self.faults:
            places.setdefault(it.found.start, it)
        self.faults = [places[it] for it in sorted(places)]
        return self

    def process(self, parent):
        keyword = self.take("process")
        if parent:
            self.nest(keyword)
        self.open.append((keyword, ";"))
        process = Process(keyword, self.name(), parent)
        self.processes.append(process)
        self.take("=")
        if self.sees("{"):
            self.step()
            process.parameters = self.groups("parameter", "}")
            self.take("}")
        self.interface(process)
        if self.sees("pragmas"):
            self.pragmas(process)
        first = self.at
        self.body(process)
        process.body = self.pieces[first : self.at]
        if self.sees("where"):
            self.where(process)
        process.end = self.take(";")
        self.open.pop()
        self.leave(1 if parent else 0)

    def interface(self, process):
        self.open.append((self.take("("), ")"))
        process.query = self.take("?")
        process.inputs = self.groups("input", "!")
        self.take("!")
        process.outputs = self.groups("output", ")")
        self.take(")")
        self.open.pop()

    def groups(self, role, end):
        found = []
        while not self.sees(end):
            found += self.tolerant(lambda: self.group(role), (";", "!", ")", "}", "(|", "end", "where", "process")) or []
            if self.sees(end):
                break
            self.take(";")
        return found

    def group(self, role):
        kind = self.take(*(KINDS if role != "parameter" else KINDS[:2]))
        return self.listed(lambda: self.declared(kind, role))

    def declared(self, kind, role):
        name, init = self.name(), []
        if role in ("output", "local") and self.sees("init"):
            self.step()
            init = self.constant()
        return Declaration(name, kind.text, role, kind, init)

    def where(self, process):
        process.where = self.step()
        self.open.append((process.where, "end"))
        while not self.sees("end"):
            if self.sees("process"):
                self.process(process)
                continue
            held = len(self.faults)
            process.locals += self.tolerant(lambda: self.group("local"), (";", "end", "process")) or []
            if len(self.faults) > held and not self.sees(";"):
                if self.here().kind == "end":
                    self.stop()
                continue
            self.take(";")
        self.take("end")
        self.open.pop()

    def pragmas(self, process):
        self.open.append((self.step(), "end pragmas"))
        while not self.sees("end"):
            word = self.take("RunOn")
            self.take("{")
            names = self.listed(self.name)
            self.take("}")
            self.wanted.append(("a number in quotes",))
            process.pragmas.append((word, names, self.step() if self.here().kind == "label" else self.stop()))
        self.step()
        self.take("pragmas")
        self.open.pop()

    # Equations.

    def body(self, process):
        if not self.sees("(|"):
            self.equation(process)
            return
        self.open.append((self.nest(self.step()), "|)"))
        if not self.sees("|)"):
            self.tolerant(lambda: self.body(process), BODY_ENDS)
            while not self.sees("|)") and self.separator(process):
                self.tolerant(lambda: self.body(process), BODY_ENDS)
        self.take("|)")
        self.open.pop()
        self.leave()

    def separator(self, process):
        """Takes the `|` between two equations, and notes a fault where something else stands; whether an equation follows."""
        if self.sees("|"):
            self.step()
            return True
        if self.is_over():
            self.stop()
        held = self.at
        self.tolerant(self.stop, BODY_ENDS if self.here().text != ";" else (";",))
        if process.equations:
            process.equations[-1].form = "faulty"
            process.equations[-1].pieces += self.pieces[held : self.at]
        if self.sees("|)") or self.is_over():
            return False
        self.step()
        return True

    def is_over(self):
        """Whether no equation of this composition can follow."""
        if self.here().kind == "end" or self.here().text in ("where", "end", "process"):
            return True
        rest = (it.text for it in self.pieces[self.at :])
        return next((it for it in rest if it in ("|)", "where", "process")), "") != "|)"

    def equation(self, process):
        first = self.at
        found = Equation("faulty")
        process.equations.append(found)
        try:
            self.fill(found)
        except Stop:
            self.skip(BODY_ENDS)
            found.form = "faulty"
            raise
        finally:
            found.pieces = self.pieces[first : self.at]

    def fill(self, found):
        if self.is_left():
            found.lefts = self.left()
            self.take(":=")
            following = self.pieces[self.at + 1].text if self.here().kind != "end" else ""
            if self.is_name() and following in ("{", "("):
                self.call(found)
            else:
                found.right = self.expression()
                found.form = "definition"
            return
        found.terms = [self.expression()]
        self.wanted.append(("^=",))
        while self.sees("^="):
            self.step()
            found.terms.append(self.expression())
        if len(found.terms) == 1:
            self.stop()
        found.form = "clock"

    def is_left(self):
        following = [it.text for it in self.pieces[self.at + 1 : self.at + 3]]
        if self.is_name():
            self.wanted.append(("a name",))
            return following[:1] == [":="]
        return self.here().text == "(" and (following[1:] == [","] or self.closes_left())

    def closes_left(self):
        texts = [it.text for it in self.pieces[self.at : self.at + 4]]
        return texts[2:] == [")", ":="]

    def left(self):
        if not self.sees("("):
            return [self.name()]
        self.nest(self.step())
        found = self.listed(self.name)
        self.take(")")
        self.leave()
        return found

    def call(self, found):
        found.called = self.step()
        if self.sees("{"):
            self.step()
            found.constants = self.listed(self.constant, "}")
            self.take("}")
        self.open.append((self.take("("), ")"))
        found.arguments = self.listed(self.expression, ")")
        self.take(")")
        self.open.pop()
        found.form = "call"

    # Expressions.

    def constant(self):
        self.wanted.append(("a constant",))
        sign = [self.step()] if self.here().text == "-" else []
        if self.here().kind == "number" or not sign and (self.is_name() or self.here().text in ("true", "false")):
            return [*sign, self.step()]
        return self.stop()

    def spanned(self, first, node):
        node.start, node.end = self.pieces[first].start, self.pieces[self.at - 1].end
        return node

    def chain(self, texts, part):
        first, node = self.at, part()
        while self.sees(*texts):
            at = self.step()
            node = self.spanned(first, Node(at.text, at, [node, part()]))
        return node

    def expression(self):
        self.depth += 1
        if self.depth > DEEPEST:
            self.stop()
        node = self.chain(("default",), self.mixed)
        self.depth -= 1
        return node

    def mixed(self):
        first = self.at
        if self.sees("when"):
            at = self.nest(self.step())
            node = self.spanned(first, Node("at", at, [self.clocks()]))
            self.leave()
        else:
            node = self.clocks()
        while self.sees("when", "cell"):
            at = self.step()
            if at.text == "when":
                node = Node("when", at, [node, self.clocks()])
            else:
                node = Node("cell", at, [node, self.primary()])
                self.take("init")
                node.init = self.constant()
            self.spanned(first, node)
        return node

    def clocks(self):
        return self.chain(CLOCK_MARKS, lambda: self.chain(("or", "xor"), lambda: self.chain(("and",), self.negation)))

    def negation(self):
        return self.prefixed("not", "not", self.relation)

    def prefixed(self, text, op, part):
        first, marks = self.at, []
        while self.sees(text):
            marks.append(self.nest(self.step()))
        node = part()
        self.leave(len(marks))
        for place in range(len(marks) - 1, -1, -1):
            node = self.spanned(first + place, Node(op, marks[place], [node]))
        return node

    def relation(self):
        first, node = self.at, self.sum()
        if self.sees(*RELATIONS):
            at = self.step()
            node = self.spanned(first, Node(at.text, at, [node, self.sum()]))
        return node

    def sum(self):
        return self.chain(SUMS, lambda: self.chain(PRODUCTS, lambda: self.prefixed("-", "neg", self.delayed)))

    def delayed(self):
        first, node = self.at, self.primary()
        while self.sees("$"):
            node = Node("$", self.step(), [node])
            if self.here().kind == "number" and self.here().text.lstrip("0") == "1":
                self.step()
            if self.sees("init"):
                self.step()
                node.init = self.constant()
            self.spanned(first, node)
        return node

    def primary(self):
        first, piece = self.at, self.here()
        self.wanted.append(("an expression",))
        if self.is_name() or piece.kind == "number" or piece.text in ("true", "false"):
            return self.spanned(first, Node(piece.kind if piece.text not in ("true", "false") else "truth", self.step(), []))
        if self.sees("^"):
            at = self.nest(self.step())
            node = self.spanned(first, Node("^", at, [self.primary()]))
            self.leave()
            return node
        if not self.sees("("):
            self.stop()
        self.open.append((self.nest(self.step()), ")"))
        node = self.expression()
        self.take(")")
        self.open.pop()
        self.leave()
        return node


def read(text):
    """The processes and the faults of a text."""
    return Reader(text).program()


def walk(node):
    """An expression and all inside it, the outermost first."""
    yield node
    for it in node.parts:
        yield from walk(it)


def words_in(pieces):
    """The names of signals, parameters and processes among pieces."""
    return [it for it in pieces if it.kind == "name" and it.text not in RESERVED]


def truncated(text, most=60):
    return text if len(text) <= most else text[: most - 2] + ".."


def source_of(text, node):
    """The text of an expression on one line."""
    return " ".join(text[node.start : node.end].split())
