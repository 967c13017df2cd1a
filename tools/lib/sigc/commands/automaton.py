"""Writes a process of SIGNAL from a table of states and transitions.

    tools/sigc-automaton examples/tutorial/modes.table > modes.sig

The table is a text:

    automaton VALVE
    input boolean COLD, STOP
    output boolean OPEN; event ALARM; integer COST else 0
    transitions until

    state  | OPEN
    SHUT   | false
    HEATS  | true
    BROKEN | false

    from   | when                  | to     | ALARM | COST
    SHUT   | COLD and not STOP     | HEATS  |       | 5
    HEATS  | STOP                  | BROKEN | true  |
    HEATS  | not COLD              | SHUT   |       |

The first state is the one that the automaton begins in. All inputs come together, at each instant; a process without
inputs gets an event TICK. At each instant the first transition whose condition holds is taken, and where there is none
the state stays. A condition is an expression of SIGNAL over the inputs other than events, as BUTTON or POS >= 100;
without one the transition is always taken.

An output that is a column of the states is one of Moore's: it has the value of the state. One that is a column of the
transitions is one of Mealy's: it has the value of the transition that is taken. Where a cell is empty or no transition
is taken an event is absent, a boolean is false, and an integer is absent, or has the value after its `else`.

The output STATE is the number of the state, from 0 on. With `transitions until`, the default, STATE and Moore's outputs
are those of the state in which the instant begins, and a transition counts from the next instant on; with `transitions
unless` they are those of the state that is entered. A line that begins with # is a comment.
"""
import argparse
import re
from typing import NamedTuple

from sigc.call import running
from sigc.read import lexer

NAME = re.compile(r"[A-Za-z][A-Za-z0-9_]*")
GROUP = re.compile(r"(integer|boolean|event)\s+(.*)")
VALUES = {"integer": re.compile(r"-?[0-9]+"), "boolean": re.compile(r"true|false"), "event": re.compile(r"true")}
OF_STATES, OF_TRANSITIONS = "state", "from"


class Unreadable(lexer.Unreadable):
    """The table has no reading."""


class Output(NamedTuple):
    name: str
    kind: str
    otherwise: str


class Transition(NamedTuple):
    """A transition: its name in the process, its condition, its two states, and the values that it gives."""

    name: str
    condition: str
    source: str
    target: str
    values: dict


class Automaton:
    """A table that was read."""

    def __init__(self, text):
        self.name, self.inputs, self.outputs, self.is_late = None, [], {}, True
        self.states, self.moore, self.transitions = [], {}, []
        self.columns = None
        for number, line in enumerate(text.splitlines(), 1):
            try:
                self.line(line.strip())
            except Unreadable as error:
                raise Unreadable(f"line {number}: {error}") from None
        if not self.name or not self.states:
            raise Unreadable("a line `automaton NAME` and a table of states are wanted")
        if not self.inputs:
            self.inputs = [("event", "TICK")]
        self.check()

    def line(self, line):
        """Reads one line."""
        if not line or line.startswith("#"):
            return
        if "|" in line:
            cells = [it.strip() for it in line.split("|")]
            if cells[0] in (OF_STATES, OF_TRANSITIONS):
                self.columns = self.head(cells)
            else:
                self.row(cells)
            return
        word, _, rest = line.partition(" ")
        readers = {"automaton": self.named, "input": self.input, "output": self.output, "transitions": self.mode, "state": lambda _: self.line("state |")}
        if word in readers:
            readers[word](rest.strip())
        elif self.columns and self.columns[0] == OF_STATES:
            self.row([line])
        else:
            raise Unreadable(f"{word} is no word of a table")

    def named(self, rest):
        self.name = name_of(rest)

    def input(self, rest):
        self.inputs += [(kind, name_of(name)) for kind, name in declared(rest)]

    def output(self, rest):
        for kind, item in declared(rest):
            name, _, otherwise = (it.strip() for it in item.partition(" else "))
            if otherwise and kind == "event":
                raise Unreadable("an event has no else: it is absent")
            if otherwise:
                value_of(kind, otherwise)
            self.outputs[name_of(name)] = Output(name, kind, otherwise)

    def mode(self, rest):
        if rest not in ("until", "unless"):
            raise Unreadable("transitions are until or unless")
        self.is_late = rest == "until"

    def head(self, cells):
        """The columns of a table: those that every table has, and outputs."""
        cells = [it for it in cells if it]
        own = [OF_STATES] if cells[0] == OF_STATES else [OF_TRANSITIONS, "when", "to"]
        if cells[: len(own)] != own:
            raise Unreadable(f"the first columns are {' | '.join(own)}")
        for it in cells[len(own) :]:
            if it not in self.outputs:
                raise Unreadable(f"{it} is no output")
            if it in self.moore:
                raise Unreadable(f"{it} is a column of the states")
            if own[0] == OF_STATES:
                self.moore[it] = {}
        return cells

    def row(self, cells):
        """A state, or a transition."""
        if not self.columns:
            raise Unreadable("the columns of this table are not named")
        cells = cells + [""] * (len(self.columns) - len(cells))
        if any(cells[len(self.columns) :]):
            raise Unreadable(f"this row has more cells than the {len(self.columns)} columns")
        if self.columns[0] == OF_STATES:
            self.state(cells)
        else:
            self.transition(cells)

    def values(self, cells, begin):
        """The values of a row, by output."""
        found = {name: cell for name, cell in zip(self.columns[begin:], cells[begin:]) if cell}
        for name, cell in found.items():
            value_of(self.outputs[name].kind, cell)
        return found

    def state(self, cells):
        name = name_of(cells[0])
        if name in self.states:
            raise Unreadable(f"the state {name} is named twice")
        self.states.append(name)
        values = self.values(cells, 1)
        for output, own in self.moore.items():
            if output in values:
                own[name] = values[output]
            elif self.outputs[output].kind == "integer" and not self.outputs[output].otherwise:
                raise Unreadable(f"{output} has no value in the state {name}")

    def transition(self, cells):
        source, condition, target = cells[:3]
        for it in (source, target):
            if it not in self.states:
                raise Unreadable(f"{it or 'nothing'} is no state")
        self.ask(condition)
        count = sum(it.source == source for it in self.transitions)
        name = f"FROM_{source}_{count + 1}"
        self.transitions.append(Transition(name, condition, source, target, self.values(cells, 3)))

    def ask(self, condition):
        """Finds fault with a condition that is no expression over the inputs, as far as its words tell."""
        names, depth = [name for kind, name in self.inputs if kind != "event"], 0
        for it in lexer.tokens_of(condition):
            depth += (it.text == "(") - (it.text == ")")
            if it.kind == "name" and it.text not in (*names, "and", "or", "xor", "not", "true", "false", "modulo"):
                is_event = ("event", it.text) in self.inputs
                raise Unreadable(f"{it.text} is an event, which a condition cannot ask: make it a boolean" if is_event else f"{it.text} is no input that a condition can ask")
            if it.kind == "label" or it.text in (":=", "^=", "(|", "|", "|)", ",", ";", "?", "!", "{", "}", "$", "^", "^+", "^*", "^-") or depth < 0:
                raise Unreadable(f"{it.text} has no place in a condition")
        if depth:
            raise Unreadable("a parenthesis is not closed")

    def check(self):
        """Finds fault with names that the process uses twice."""
        names = [name for _, name in self.inputs] + list(self.outputs) + [name for _, name in self.locals()] + ["STATE"]
        for it in names:
            if names.count(it) > 1:
                raise Unreadable(f"the process would have two signals {it}")
        for it in self.outputs:
            if not self.given(it):
                raise Unreadable(f"no state and no transition gives {it} a value")

    def given(self, output):
        """The values of an output, each with the boolean that is true where it has it."""
        if output in self.moore:
            return [(value, self.inside(it)) for it, value in self.moore[output].items()]
        return [(it.values[output], it.name) for it in self.transitions if output in it.values]

    def inside(self, state):
        """The name of the boolean that is true in a state, as Moore's outputs ask it."""
        return f"IN_{state}"

    def before(self, state):
        """The name of the boolean that is true where an instant begins in a state."""
        return f"IN_{state}" if self.is_late else f"WAS_{state}"

    def locals(self):
        """The locals of the process, with their kinds."""
        found = [("integer", "NEXT" if self.is_late else "ZSTATE")]
        found += [("boolean", self.before(it)) for it in self.states]
        found += [("boolean", self.inside(it)) for it in self.states if not self.is_late and self.moore]
        return found + [("boolean", it.name) for it in self.transitions]


def declared(rest):
    """The pairs of kind and item of a declaration."""
    for group in rest.split(";"):
        found = GROUP.fullmatch(group.strip())
        if not found:
            raise Unreadable("a kind and names are wanted, as in `integer A, B; boolean C`")
        for item in found[2].split(","):
            yield found[1], item.strip()


def name_of(word):
    if not NAME.fullmatch(word) or word in lexer.RESERVED:
        raise Unreadable(f"{word or 'nothing'} is no name")
    return word


def value_of(kind, word):
    if not VALUES[kind].fullmatch(word):
        raise Unreadable(f"{word} is no value of kind {kind}")
    return word


def merged(pairs, otherwise):
    """A merge of constants, each where its condition holds."""
    parts = [f"({value} when {condition})" for value, condition in pairs]
    return " default ".join([*parts, otherwise] if otherwise else parts)


def state_equations(table):
    """How the state goes on."""
    taken = [(table.states.index(it.target), it.name) for it in table.transitions]
    if table.is_late:
        yield "STATE := NEXT $ init 0"
        yield f"NEXT := {merged(taken, 'STATE')}"
    else:
        yield "ZSTATE := STATE $ init 0"
        yield f"STATE := {merged(taken, 'ZSTATE')}"
    yield " ^= ".join(["STATE", *(name for _, name in table.inputs)])


def place_equations(table):
    """Which state it is."""
    for number, it in enumerate(table.states):
        yield f"{table.before(it)} := {'STATE' if table.is_late else 'ZSTATE'} = {number}"
        if not table.is_late and table.moore:
            yield f"{table.inside(it)} := STATE = {number}"


def transition_equations(table):
    """Which transition is taken: the first one of the state whose condition holds."""
    for it in table.transitions:
        earlier = [other.name for other in table.transitions if other.source == it.source and other.name != it.name]
        earlier = earlier[: int(it.name.rpartition("_")[2]) - 1]
        parts = [table.before(it.source), *(f"not {name}" for name in earlier)]
        yield f"{it.name} := {' and '.join(parts + ([operand(it.condition)] if it.condition else []))}"


def operand(condition):
    """A condition as an operand of `and`: one with an `or` or an `xor` stands in parentheses."""
    return f"({condition})" if re.search(r"\bx?or\b", condition) else condition


def output_equations(table):
    """The outputs: a value for each state, or for each transition."""
    for name, output in table.outputs.items():
        given = table.given(name)
        if output.kind == "integer":
            is_total = name in table.moore and not output.otherwise
            otherwise = given.pop()[0] if is_total else output.otherwise
            yield f"{name} := {merged(given, f'({otherwise} when ^STATE)' if otherwise else '')}"
        else:
            yield f"{name} := {truth(output, given)}"


def truth(output, given):
    """What defines a boolean or an event with these values, each with its condition."""
    truths = [it for value, it in given if value == "true"]
    if output.kind == "event":
        return f"when ({' or '.join(truths)})" if len(truths) > 1 else f"when {truths[0]}"
    if output.otherwise == "true":
        return " and ".join(f"not {it}" for value, it in given if value == "false") or "true when ^STATE"
    return " or ".join(truths) or "false when ^STATE"


def grouped(pairs):
    """Declarations, with the names of one kind together."""
    groups = []
    for kind, name in pairs:
        if groups and groups[-1][0] == kind:
            groups[-1][1].append(name)
        else:
            groups.append((kind, [name]))
    return "; ".join(f"{kind} {', '.join(names)}" for kind, names in groups)


def process_of(table):
    """The lines of the process."""
    outputs = grouped([("integer", "STATE"), *((it.kind, it.name) for it in table.outputs.values())])
    states = ", ".join(f"{number} {it}" for number, it in enumerate(table.states))
    yield f"% The states: {states}. %"
    yield f"process {table.name} = (? {grouped(table.inputs)} ! {outputs})"
    parts = {"the state": state_equations, "which state it is": place_equations, "the transitions": transition_equations, "the outputs": output_equations}
    mark = "(|"
    for told, equations in parts.items():
        lines = list(equations(table))
        if lines:
            yield f"{mark} % {told} %" if mark == "(|" else f"   % {told} %"
        for it in lines:
            yield f"   {it}" if mark == "(|" else f" | {it}"
            mark = ""
    yield " |)"
    yield "where"
    yield from (f"  {kind} {', '.join(names)};" for kind, names in by_kind(table.locals()))
    yield "end;"


def by_kind(pairs):
    """Names by their kind, a few on a line."""
    for kind in ("integer", "boolean"):
        names = [name for it, name in pairs if it == kind]
        yield from ((kind, names[at : at + 6]) for at in range(0, len(names), 6))


def main():
    words = argparse.ArgumentParser(prog="sigc-automaton", description=__doc__, formatter_class=argparse.RawDescriptionHelpFormatter)
    words.add_argument("table", metavar="TABLE", help="the file of a table")
    words = words.parse_args()
    try:
        table = Automaton(running.text_of(words.table))
    except lexer.Unreadable as error:
        raise running.Refused(f"{words.table}: {error}") from None
    print("\n".join(process_of(table)))
    return 0


def start():
    running.started("sigc-automaton", main)
