"""The processes of a program, by a plain reader: for programs that sigc has no fault to find with; where it meets something
else it raises Unreadable.
"""
from typing import NamedTuple

from sigc.read.lexer import KINDS, RESERVED, Unreadable, tokens_of

# What stands deeper than this in one another sigc does not take.
DEEPEST = 64


class Equation(NamedTuple):
    """An equation: its tokens, and where it is a call the called name, its constants, arguments and left sides."""

    tokens: list
    lefts: list
    call: str
    constants: list
    arguments: list


class Process(NamedTuple):
    name: str
    parameters: list
    inputs: list
    outputs: list
    locals: list
    equations: list


class Signal(NamedTuple):
    name: str
    kind: str


class Reader:
    """A walk over the tokens of a program, which keeps each process in the order of its keyword."""

    def __init__(self, text):
        self.rest, self.tokens, self.at, self.processes, self.depth = tokens_of(text), [], 0, [], 0

    def here(self):
        """The token at which the walk stands."""
        while len(self.tokens) <= self.at:
            self.tokens.append(next(self.rest))
        return self.tokens[self.at]

    def is_at(self, *texts):
        token = self.here()
        return token.kind != "label" and token.text in texts and token.text != ""

    def take(self, text=None):
        token = self.here()
        if text is not None and not self.is_at(text):
            raise Unreadable(f"{token.line}:{token.col}: {text} is wanted here")
        if token.kind == "end":
            raise Unreadable(f"{token.line}:{token.col}: the text ends too early")
        self.at += 1
        return token

    def inside(self, part):
        """Reads a part that may stand in others of its sort."""
        self.depth += 1
        if self.depth > DEEPEST + 1:
            token = self.here()
            raise Unreadable(f"{token.line}:{token.col}: more than {DEEPEST} stand in one another")
        part()
        self.depth -= 1

    def name(self):
        token = self.take()
        if token.kind != "name" or token.text in RESERVED:
            raise Unreadable(f"{token.line}:{token.col}: a name is wanted here")
        return token.text

    def program(self):
        while self.here().kind != "end":
            self.process()
        if not self.processes:
            raise Unreadable("1:1: a process is wanted here")
        return self.processes

    def process(self):
        self.take("process")
        place = len(self.processes)
        self.processes.append(None)
        name = self.name()
        self.take("=")
        parameters = []
        if self.is_at("{"):
            self.take()
            parameters = self.groups("}")
            self.take("}")
        self.take("(")
        self.take("?")
        inputs = self.groups("!")
        self.take("!")
        outputs = self.groups(")")
        self.take(")")
        if self.is_at("pragmas"):
            self.take()
            while not self.is_at("end"):
                self.take()
            self.take("end")
            self.take("pragmas")
        equations, inner = [], []
        self.body(equations)
        if self.is_at("where"):
            self.take()
            while not self.is_at("end"):
                if self.is_at("process"):
                    self.inside(self.process)
                else:
                    inner += self.group()
                    self.take(";")
            self.take("end")
        self.take(";")
        self.processes[place] = Process(name, parameters, inputs, outputs, inner, equations)

    def groups(self, end):
        found = []
        while not self.is_at(end):
            found += self.group()
            if not self.is_at(end):
                self.take(";")
        return found

    def group(self):
        kind = self.take()
        if kind.text not in KINDS:
            raise Unreadable(f"{kind.line}:{kind.col}: a kind is wanted here")
        found = [Signal(self.name(), kind.text)]
        self.init()
        while self.is_at(","):
            self.take()
            found.append(Signal(self.name(), kind.text))
            self.init()
        return found

    def init(self):
        if self.is_at("init"):
            self.take()
            if self.is_at("-"):
                self.take()
            self.take()

    def body(self, equations):
        if not self.is_at("(|"):
            begun = self.at
            while self.here().kind != "end" and not self.is_at("|", "|)", ";", "where"):
                self.at += 1
            equations.append(equation_of(self.tokens[begun : self.at]))
            return
        self.take()
        while not self.is_at("|)"):
            self.inside(lambda: self.body(equations))
            if not self.is_at("|)"):
                self.take("|")
        self.take("|)")


def equation_of(tokens):
    """An equation from its tokens: a call, another definition, or a clock equation."""
    if not tokens:
        raise Unreadable("an equation is wanted")
    at = next((i for i, it in enumerate(tokens) if it.text == ":="), None)
    if at is None:
        return Equation(tokens, [], None, [], [])
    lefts = [it.text for it in tokens[:at] if it.kind == "name"]
    right = tokens[at + 1 :]
    if len(right) < 2 or right[0].kind != "name" or right[0].text in RESERVED or right[1].text not in ("{", "("):
        return Equation(tokens, lefts, None, [], [])
    constants, behind = [], right[1:]
    if behind[0].text == "{":
        end = next((i for i, it in enumerate(behind) if it.text == "}"), len(behind))
        constants, behind = parts_of(behind[1:end]), behind[end + 1 :]
    return Equation(tokens, lefts, right[0].text, constants, parts_of(behind[1:-1]))


def parts_of(tokens):
    """The parts of a list of tokens between commas that stand in no parenthesis."""
    parts, depth = [[]], 0
    for it in tokens:
        depth += (it.text == "(") - (it.text == ")")
        if it.text == "," and not depth:
            parts.append([])
        else:
            parts[-1].append(it)
    return parts if tokens else []
