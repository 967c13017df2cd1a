"""Why sigc refuses the clocks of a program: its equations with all calls expanded, and the least of them that keep the refusal.

`cause_of` drops what can be dropped while sigc says the same of what is left. A definition that is dropped leaves its
signal open, as an input; a signal that no equation names any more goes too.
"""
import re
from typing import NamedTuple

from sigc.read.lexer import RESERVED, words_of
from sigc.why.guilty_lines import candidates
from sigc.why.least_part import least

SUBJECTS = [
    ("dead", re.compile(r"no reaction is possible")),
    ("root", re.compile(r"no root: (\S+) and (\S+) are independent")),
    ("clock", re.compile(r"clock of (\S+) is not determined")),
    ("forced", re.compile(r"condition (\S+) is forced")),
    ("cycle", re.compile(r"cycle through (\S+)")),
]


class Told(NamedTuple):
    """A refusal of clocks: its sort, and the signals that it names."""

    sort: str
    names: tuple


class Word(NamedTuple):
    """A word of an expanded equation: its text there, and where it stands in the program."""

    text: str
    line: int
    col: int


class Flat(NamedTuple):
    """An expanded equation: its words, the signals that it defines and those that it names, its source and the calls around it."""

    words: list
    lefts: list
    names: set
    place: object
    source: object
    process: object
    calls: tuple


class Signal(NamedTuple):
    name: str
    kind: str
    role: str
    init: list
    declaration: object


def told_of(text):
    """What a line of sigc says of clocks, None where it is about something else."""
    for sort, pattern in SUBJECTS:
        found = pattern.fullmatch(text)
        if found:
            return Told(sort, found.groups())
    return None


class Expanded:
    """The first process with all calls expanded: its signals in their order, and its equations."""

    def __init__(self, processes):
        self.processes = {}
        for it in processes:
            self.processes.setdefault(it.name.text, it)
        self.signals, self.equations, self.calls = [], [], 0
        self.expand(processes[0], "", {}, ())
        self.order = {it.name: at for at, it in enumerate(self.signals)}
        self.short = short_names(self.signals)

    def expand(self, process, copy, constants, calls):
        for it in process.signals():
            role = it.role if not copy else "local"
            init = self.constant(it.init, constants)
            self.signals.append(Signal(copy + it.name.text, it.kind, role, init, it))
        for equation in process.equations:
            if equation.form == "call":
                self.call(equation, process, copy, constants, calls)
            else:
                words = self.words(equation.pieces, copy, constants)
                self.add(words, [copy + it.text for it in equation.lefts], equation.pieces[0], equation, process, calls)

    def call(self, equation, process, copy, constants, calls):
        called = self.processes[equation.called.text]
        self.calls += 1
        inner = f"{called.name.text}#{self.calls}."
        given = [self.constant(it, constants) for it in equation.constants]
        place = equation.called
        arguments = parts_between_commas(equation)
        for it, pieces in zip(called.inputs, arguments):
            words = [Word(text, place.line, place.col) for text in (inner + it.name.text, ":=")]
            self.add([*words, *self.words(pieces, copy, constants)], [words[0].text], place, equation, process, calls)
        here = (*calls, (called.name.text, place.line, place.col))
        self.expand(called, inner, dict(zip((it.name.text for it in called.parameters), given)), here)
        for piece, it in zip(equation.lefts, called.outputs):
            words = [Word(text, piece.line, piece.col) for text in (copy + piece.text, ":=", inner + it.name.text)]
            self.add(words, [words[0].text], piece, equation, process, calls)

    def constant(self, pieces, constants):
        """The words of a constant; a parameter stands for what its call gives."""
        words = [it.text for it in pieces]
        return constants.get(words[0], words) if len(words) == 1 else words

    def words(self, pieces, copy, constants):
        found = []
        for it in pieces:
            if it.kind == "name" and it.text not in RESERVED:
                texts = constants.get(it.text, [copy + it.text])
            else:
                texts = [it.text]
            found += [Word(text, it.line, it.col) for text in texts]
        return found

    def add(self, words, lefts, place, source, process, calls):
        self.equations.append(Flat(words, lefts, set(), place, source, process, calls))
        self.equations[-1].names.update(it.text for it in words if re.match(r"[A-Za-z]", it.text) and it.text not in RESERVED)

    def text(self, kept, named=()):
        """The program of these equations alone as a text, and the place in the source of each place there."""
        equations = [self.equations[it] for it in kept]
        used = set(named).union(*(it.names for it in equations)) if equations else set(named)
        defined = {left for it in equations for left in it.lefts}
        signals = [it for it in self.signals if it.name in used]
        inputs = [it for it in signals if it.name not in defined and it.role == "input"]
        inputs += [it for it in signals if it.name not in defined and it.role != "input"]
        outputs = [it for it in signals if it.name in defined and it.role == "output"]
        inner = [it for it in signals if it.name in defined and it.role != "output"]
        lines = [f"process FLAT = (? {self.declared(inputs, False)} ! {self.declared(outputs, True)})"]
        places = {}
        for at, it in enumerate(equations):
            lines.append(self.line(("| " if at else "(| "), it.words, len(lines) + 1, places))
        lines += ["(|"] if not equations else []
        lines += ["|)", "where", *(f"{self.declared([it], True)};" for it in inner), "end;"]
        return "\n".join(lines) + "\n", places

    def declared(self, signals, with_init):
        return "; ".join(f"{it.kind} {self.short[it.name]}" + (f" init {' '.join(it.init)}" if with_init and it.init else "") for it in signals)

    def line(self, begin, words, number, places):
        text = begin
        for it in words:
            places[number, len(text) + 1] = it
            text += self.short.get(it.text, it.text) + " "
        return text.rstrip()

    def named(self, name, places, copies):
        """A signal's name in a refusal of an expanded text, as the program has it."""
        found = re.fullmatch(r"#(\d+):(\d+)", name)
        if found:
            word = places.get((int(found[1]), int(found[2])))
            return f"#{word.line}:{word.col}" if word else name
        return copies.get(name, name)

    def told(self, sigc, kept, named=()):
        """What sigc says of the clocks of these equations alone, with the names of the program."""
        text, places = self.text(kept, named)
        refusal = sigc.check(text)
        told = told_of(refusal.text) if refusal else None
        if told is None:
            return None
        copies = {short: name for name, short in self.short.items()}
        return Told(told.sort, tuple(self.named(it, places, copies) for it in told.names))


def short_names(signals):
    """A name without `#` and `.` for each signal, each of them another one."""
    taken, found = {it.name for it in signals}, {}
    for it in signals:
        short = re.sub(r"[#.]", "_", it.name)
        while short != it.name and short in taken:
            short += "_"
        taken.add(short)
        found[it.name] = short
    return found


def parts_between_commas(equation):
    """The pieces of each argument of a call."""
    at = equation.pieces.index(equation.called)
    found, depth, is_inside = [[]], 0, False
    for it in equation.pieces[at:]:
        if is_inside and it.text == "," and depth == 1:
            found.append([])
            continue
        depth += (it.text == "(") - (it.text == ")")
        if is_inside and depth:
            found[-1].append(it)
        is_inside = is_inside or it.text == "("
    return found if found[0] else []


def plain(name):
    """A name without the number of its copy and the prefix that intermediates of copies have."""
    return re.sub(r"^.*\.(?=#)", "", name)


def same(one, other):
    return one is not None and one.sort == other.sort and tuple(map(plain, one.names)) == tuple(map(plain, other.names))


class Cause(NamedTuple):
    """A refusal of clocks, the expanded program, and the least equations that keep it."""

    told: Told
    expanded: Expanded
    kept: list

    def equations(self):
        return [self.expanded.equations[it] for it in self.kept]


class Late(Exception):
    """The limit of a search is reached."""


def cause_of(sigc, processes, told, limit=None):
    """The least equations of a program that sigc refuses in this way; Late where the limit comes first."""
    expanded = Expanded(processes)
    named = [it for it in told.names if it in expanded.order]
    whole = list(range(len(expanded.equations)))

    def holds(kept):
        if limit and limit.is_over(sigc):
            raise Late
        if told.sort == "dead" and not kept:
            return False
        return same(expanded.told(sigc, kept, named), told)

    if not holds(whole):
        return Cause(told, expanded, whole)
    begin = next((it for it in candidates(expanded, told) if holds(it)), whole)
    return Cause(told, expanded, [begin[it] for it in least(len(begin), lambda kept: holds([begin[it] for it in kept]))])


def called_by(flat):
    """Where an equation stands, in words: the calls around it."""
    return ", ".join(f"in {name}, called at {line}:{col}" for name, line, col in flat.calls)


def told_words(flat):
    """An expanded equation in words, with the calls around it."""
    words = f"{called_by(flat)}: " if flat.calls else ""
    if flat.source.form == "call":
        words += f"of the call of {flat.source.called.text}: "
    return words + words_of([it.text for it in flat.words])
