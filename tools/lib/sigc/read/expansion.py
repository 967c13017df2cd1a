"""A program with its calls expanded, word by word: each word keeps its place in the program's text and its copy.

What flat_bodies.FlatBody tells of a program as text, an Expansion tells so that a program can be written anew from it. It
is for programs that sigc accepts; docs/language.md tells what a call stands for.
"""
import re
import sys
from typing import NamedTuple

from sigc.read import lexer, processes

# Each call adds a signal, so 512 signals bound how deep calls stand in one another.
MOST_CALLS = 512
# What sigc-automaton writes before a process.
STATES = re.compile(r"% The states: ([^%]*)\. %\s*process\s+(\w+)")
sys.setrecursionlimit(max(sys.getrecursionlimit(), 8 * MOST_CALLS))


class Word(NamedTuple):
    """A word of an equation: its text, its place in the program, and whether it is the name of a signal."""

    text: str
    line: int
    col: int
    is_signal: bool = False


class Declared(NamedTuple):
    """A signal: its name as in a trace, its kind, its role, the words of its init, and its place in the program."""

    name: str
    kind: str
    role: str
    init: list
    line: int
    col: int

    @property
    def copy(self):
        """The copy that the signal belongs to, as TIMER#2, or nothing for the first process."""
        return self.name.rpartition(".")[0]

    @property
    def own(self):
        """The name in its own process."""
        return self.name.rpartition(".")[2]


class Equation(NamedTuple):
    """An equation of the flat body: its words, and the copy whose process it stands in."""

    words: list
    copy: str


class Keeper(processes.Reader):
    """A reader that keeps the place and the init of each declared signal, by its process and its name, and for each
    token the process that it stands in."""

    def __init__(self, text):
        super().__init__(text)
        self.declarations, self.open = {}, []
        self.owners = {}

    def process(self):
        number, begun = len(self.processes), self.at
        self.open.append(number)
        super().process()
        self.open.pop()
        for at in range(begun, self.at):
            self.owners.setdefault(at, number)

    def init(self):
        name, begun = self.tokens[self.at - 1], self.at
        super().init()
        self.declarations[self.open[-1], name.text] = (name, self.tokens[begun + 1 : self.at])


class Expansion:
    """The first process of a text with its calls expanded.

    signals are in the order of their numbers, equations in the order in which judge counts them, and parents gives
    for each copy the one whose process calls it, nothing being the first process.
    """

    def __init__(self, text):
        self.text, self.reader = text, Keeper(text)
        self.processes = self.reader.program()
        self.numbers = {}
        for at, it in enumerate(self.processes):
            self.numbers.setdefault(it.name, at)
        self.signals, self.equations, self.parents = [], [], {}
        self.copies = {number: [] for number in range(len(self.processes))}
        self.name = self.processes[0].name
        self.declare(0, "", {})
        self.expand(0, "", {})

    def declare(self, number, copy, constants):
        """Adds the signals of a process, under the names of a copy."""
        process = self.processes[number]
        self.copies[number].append(copy)
        for role, group in (("input", process.inputs), ("output", process.outputs), ("local", process.locals)):
            for it in group:
                place, init = self.reader.declarations[number, it.name]
                words = words_of(init, "", constants)
                self.signals.append(Declared(named(copy, it.name), it.kind, role, words, place.line, place.col))

    def expand(self, number, copy, constants):
        """Adds the equations of a process, under the names of a copy."""
        if len(self.parents) > MOST_CALLS:
            raise lexer.Unreadable(f"more than {MOST_CALLS} calls")
        for it in self.processes[number].equations:
            if it.call is None:
                self.equations.append(Equation(words_of(it.tokens, copy, constants), copy))
            else:
                self.call(it, copy, constants)

    def call(self, equation, copy, constants):
        """Adds what stands for a call: definitions of the inputs, the called equations, and those of the left sides."""
        if equation.call not in self.numbers:
            raise lexer.Unreadable(f"no process has the name {equation.call}")
        number = self.numbers[equation.call]
        called, place = self.processes[number], equation.tokens[0]
        made = f"{called.name}#{len(self.parents) + 1}"
        self.parents[made] = copy
        given = [words_of(it, copy, constants) for it in equation.constants]
        own = dict(zip((it.name for it in called.parameters), given))
        self.declare(number, made, own)
        for it, argument in zip(called.inputs, equation.arguments):
            self.define(place, named(made, it.name), words_of(argument, copy, constants), copy)
        self.expand(number, made, own)
        for left, it in zip(equation.lefts, called.outputs):
            self.define(place, named(copy, left), [Word(named(made, it.name), place.line, place.col, True)], copy)

    def define(self, place, left, right, copy):
        words = [Word(left, place.line, place.col, True), Word(":=", place.line, place.col), *right]
        self.equations.append(Equation(words, copy))

    def inputs(self):
        return [it for it in self.signals if it.role == "input" and not it.copy]

    def pace(self, names, paced):
        """Adds the boolean inputs of these names behind the others, which come together, and lets a signal come where
        each of them is true; None is no signal of the program."""
        declared = {it.name: it for it in self.signals}
        at, tops = len(self.inputs()), [declared.get(it, self.signals[0]) for it in paced]
        self.signals[at:at] = [Declared(name, "boolean", "input", [], it.line, it.col) for name, it in zip(names, tops)]
        for name, it in zip(names[1:], tops[1:]):
            self.tie(it, [(names[0], True), ("^=", False), (name, True)])
        for name, it in ((name, it) for name, it, own in zip(names, tops, paced) if own):
            self.tie(it, [(it.name, True), ("^=", False), ("when", False), (name, True)])

    def tie(self, place, words):
        self.equations.append(Equation([Word(text, place.line, place.col, is_signal) for text, is_signal in words], ""))

    def named_tokens(self):
        """The tokens of the text, each with the names of the signals that it stands for: one in each copy."""
        for at, token in enumerate(self.reader.tokens[:-1]):
            number = self.reader.owners[at]
            is_signal = token.kind == "name" and any(token.text == it.name for it in self.declared_by(number))
            yield token, [named(copy, token.text) for copy in self.copies[number]] if is_signal else []

    def declared_by(self, number):
        """The signals that a process declares."""
        process = self.processes[number]
        return [*process.inputs, *process.outputs, *process.locals]

    def equations_by_name(self):
        """The equations that define each signal or tie its clock, as text."""
        found = {}
        for it in self.equations:
            text = lexer.words_of(word.text for word in it.words)
            for name in dict.fromkeys(word.text for word in it.words if word.is_signal and (word is it.words[0] or it.words[1].text != ":=")):
                found.setdefault(name, []).append(text)
        return found

    def states(self):
        """The signals that are states of an automaton that sigc-automaton wrote, each with the names of its states."""
        named = {process: re.findall(r"[0-9]+ (\w+)", states) for states, process in STATES.findall(self.text)}
        found = {}
        for it in self.signals:
            process = it.copy.partition("#")[0] or self.name
            if process in named and it.own in ("STATE", "NEXT", "ZSTATE"):
                found[it.name] = named[process]
        for it in self.equations:
            if len(it.words) == 3 and it.words[1].text == ":=" and it.words[2].text in found:
                found.setdefault(it.words[0].text, found[it.words[2].text])
        return found

    def path(self, copy):
        """A copy with those around it, the outermost first: A#1 and B#2 of A#1/B#2."""
        found = []
        while copy:
            found.append(copy)
            copy = self.parents.get(copy, "")
        return found[::-1]


def named(copy, name):
    return f"{copy}.{name}" if copy else name


def words_of(tokens, copy, constants):
    """The words of tokens, with the names of signals those of a copy, and parameters replaced by constants."""
    words = []
    for it in tokens:
        if it.kind != "name" or it.text in lexer.RESERVED:
            words.append(Word(it.text, it.line, it.col))
        elif it.text in constants:
            words += [Word(word.text, it.line, it.col) for word in constants[it.text]]
        else:
            words.append(Word(named(copy, it.text), it.line, it.col, True))
    return words
