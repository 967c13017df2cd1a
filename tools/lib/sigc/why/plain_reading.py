"""The equations of a program read instant by instant: where the others are known, what each of them gives for its own signal.

It is for programs that sigc refuses, too: nothing is asked of clocks. An equation gives a value, or that nothing comes;
where it gives neither, as a sum of which one operand is missing, nothing is claimed. Left of a `default` such a sum is read
as missing, since that is what a writer means who puts it there.
"""
import operator
from typing import NamedTuple

from sigc.read.syntax import FUNCTIONS, Node, Process

LEAST, MOST = -(1 << 63), (1 << 63) - 1
ABSENT = None


class Unclaimed:
    """What is not claimed, and why."""

    def __init__(self, why):
        self.why = why


# An operand of a function is missing; a value is not known.
TORN, UNKNOWN = Unclaimed("torn"), Unclaimed("unknown")
OPERATIONS = {
    "=": operator.eq, "/=": operator.ne, "<": operator.lt, "<=": operator.le, ">": operator.gt, ">=": operator.ge, "+": operator.add, "-": operator.sub,
    "*": operator.mul, "and": lambda a, b: a and b, "or": lambda a, b: a or b, "xor": operator.ne, "not": lambda a: not a, "neg": lambda a: -a,
    "/": lambda a, b: (abs(a) // abs(b)) * (1 if (a < 0) == (b < 0) else -1), "modulo": lambda a, b: (abs(a) % abs(b)) * (1 if a >= 0 else -1),
}


class Broken(NamedTuple):
    """An equation at an instant at which it does not hold: its number, its signal, what it gives and what the signal is."""

    number: int
    name: str
    given: object
    had: object


class Reading:
    """The equations of a process whose calls are expanded, with what their delays remember."""

    def __init__(self, process: Process):
        self.process, self.memories = process, {}
        self.inits = {it.name.text: it.init for it in process.names()}

    def broken(self, instant: dict[str, object]) -> list[Broken]:
        """The equations that do not hold at the next instant; `instant` has a value for each name that comes, and None for
        each that does not. Of a name that it lacks nothing is known."""
        found = []
        for number, equation in enumerate(self.process.equations):
            if equation.form == "definition":
                name = equation.lefts[0].text
                given, had = self.value(equation.right, instant, name), instant.get(name, UNKNOWN)
                if claims(given) and claims(had) and not same(given, had):
                    found.append(Broken(number, name, given, had))
            elif equation.form == "clock":
                terms = [(it, self.value(it, instant)) for it in equation.terms]
                found += torn_clocks(number, [it for it in terms if claims(it[1])])
        return found

    def value(self, node: Node, instant: dict[str, object], name: str | None = None) -> object:
        """What an expression is at this instant: a value, ABSENT, or what is not claimed. Each delay is asked once."""
        if node.op == "name":
            return instant.get(node.at.text, UNKNOWN)
        if is_constant(node):
            return constant(node)
        parts = [self.value(it, instant) for it in node.parts]
        if node.op in FUNCTIONS:
            return applied(node, parts)
        if node.op == "$":
            return self.delayed(node, parts[0], node.init or self.inits.get(name, []))
        if node.op == "cell":
            return self.held(node, *parts)
        return CLOCKED[node.op](node, *parts)

    def delayed(self, node, now, init):
        before = self.memories.get(id(node), first_of(init))
        if now is not ABSENT:
            self.memories[id(node)] = now if claims(now) else UNKNOWN
        return before if claims(now) and now is not ABSENT else now

    def held(self, node, now, asked):
        before = self.memories.get(id(node), first_of(node.init))
        if not claims(now) or not claims(asked):
            self.memories[id(node)] = UNKNOWN
            return UNKNOWN
        if now is not ABSENT:
            self.memories[id(node)] = now
            return now
        return before if asked is True else ABSENT


def claims(value):
    return not isinstance(value, Unclaimed)


def same(one, other):
    return one is other if ABSENT in (one, other) else one == other


def is_constant(node):
    return node.op in ("number", "truth") or node.op == "neg" and node.parts[0].op == "number"


def constant(node):
    """The value of a constant."""
    if node.op == "neg":
        return -int(node.parts[0].at.text)
    return int(node.at.text) if node.op == "number" else node.at.text == "true"


def first_of(init):
    """The value of an init, not known where there is none."""
    words = "".join(it.text for it in init)
    if words in ("true", "false"):
        return words == "true"
    return int(words) if words.lstrip("-").isdigit() else UNKNOWN


def torn_clocks(number, terms):
    """The terms of a clock equation that come where the first one does not, or the other way round."""
    there = [value is not ABSENT for _, value in terms]
    return [] if len(set(there)) < 2 else [Broken(number, "", terms[0][1], terms[there.index(not there[0])][1])]


def applied(node, values):
    """A function of values: absent where all are, and torn where only some are."""
    signals = [value for value, it in zip(values, node.parts) if not is_constant(it)]
    missing = [value for value in signals if value is ABSENT]
    if missing or not signals:
        return ABSENT if signals and len(missing) == len(signals) else TORN
    wrong = [value for value in signals if not claims(value)]
    if wrong:
        return TORN if TORN in wrong else UNKNOWN
    try:
        result = OPERATIONS[node.op](*values)
    except ZeroDivisionError:
        return UNKNOWN
    return result if isinstance(result, bool) or LEAST <= result <= MOST else UNKNOWN


def sampled(_, value, asked):
    if not claims(asked) or asked is ABSENT:
        return asked
    return value if asked else ABSENT


def merged(_, one, other):
    return other if one is ABSENT or one is TORN else one


def either(_, one, other):
    found = [it for it in (one, other) if it is not ABSENT]
    return ABSENT if not found else True if any(claims(it) for it in found) else found[0]


def both(_, one, other):
    if ABSENT in (one, other):
        return ABSENT
    return next((it for it in (one, other) if not claims(it)), True)


def without(_, one, other):
    if one is ABSENT or claims(other) and other is not ABSENT:
        return ABSENT
    return next((it for it in (one, other) if not claims(it)), True)


CLOCKED = {
    "when": sampled, "at": lambda node, asked: sampled(node, True, asked), "default": merged, "^+": either, "^*": both, "^-": without,
    "^": lambda _, it: it if it is ABSENT or not claims(it) else True,
}
