"""Ranges of integers: which values each signal and each memory may have, where inputs stay within theirs.

A range is a pair of bounds. The ranges of memories grow until nothing changes, by steps that end at the constants of the
program. Where a value is taken under a guard, the comparisons that hold there are used, so a counter that is set back
has a bound.
"""
from sigc.c.expressions import LEAST, MOST

ALL = (LEAST, MOST)
# How deep the definition of a value is looked at again under a guard, and how many rounds end at each bound.
DEEPEST = 6
ROUNDS = 3
TYPES = {"int8_t": (-128, 127), "uint8_t": (0, 255), "int16_t": (-(1 << 15), (1 << 15) - 1), "int32_t": (-(1 << 31), (1 << 31) - 1), "int64_t": ALL}
# The least value of each type in which sums and the like are computed; an int has 16 bits at least.
LEAST_OF = {"int": -(1 << 15), "int32_t": -(1 << 31), "int64_t": LEAST}
OPPOSITE = {"Lt": "Ge", "Ge": "Lt", "Le": "Gt", "Gt": "Le", "Eq": "Ne", "Ne": "Eq"}


def joined(first, second):
    if first is None or second is None:
        return first or second
    return min(first[0], second[0]), max(first[1], second[1])


def met(first, second):
    """The values of both; None where there are none."""
    if first is None or second is None:
        return None
    low, high = max(first[0], second[0]), min(first[1], second[1])
    return (low, high) if low <= high else None


def type_of(values):
    """The smallest type of C for a range; for none, which what always ends the run has, that in which C computes it."""
    if values is None:
        return "int64_t"
    return next(name for name, it in TYPES.items() if it[0] <= values[0] and values[1] <= it[1])


def quotients(first, second):
    """The quotients, without those by zero."""
    divisors = {it for it in (*second, -1, 1) if it and second[0] <= it <= second[1]}
    found = [abs(a) // abs(b) * (1 if (a < 0) == (b < 0) else -1) for a in first for b in divisors]
    return (min(found), max(found)) if found else None


def remainders(first, second):
    most = max(abs(second[0]), abs(second[1])) - 1
    if most < 0:
        return None
    return max(first[0], -most) if first[0] < 0 else 0, min(first[1], most) if first[1] > 0 else 0


def result(name, operands):
    """What a function may give, not yet bounded by 64 bits."""
    if None in operands:
        return None
    first, second = operands[0], operands[-1]
    if name == "Neg":
        return -first[1], -first[0]
    if name == "Id":
        return first
    if name in ("Add", "Sub"):
        return (first[0] + second[0], first[1] + second[1]) if name == "Add" else (first[0] - second[1], first[1] - second[0])
    if name == "Mul":
        found = [a * b for a in first for b in second]
        return min(found), max(found)
    return quotients(first, second) if name == "Div" else remainders(first, second)


def narrowed(name, values, other):
    """The values of a range that have a relation to some value of another one."""
    if values is None or other is None:
        return values
    if name == "Eq":
        return met(values, other)
    if name == "Ne":
        low, high = values
        if other[0] == other[1]:
            low, high = low + (low == other[0]), high - (high == other[0])
        return (low, high) if low <= high else None
    bounds = {"Lt": (LEAST, other[1] - 1), "Le": (LEAST, other[1]), "Gt": (other[0] + 1, MOST), "Ge": (other[0], MOST)}
    return met(values, bounds[name])


class Ranges:
    """The ranges of an image's signals, where those of some inputs are given."""

    def __init__(self, steps, given):
        self.steps, self.image, self.diagrams, self.given = steps, steps.image, steps.diagrams, given
        self.memories = {at: (it.init, it.init) for at, it in enumerate(self.image.memories) if it.kind == "integer"}
        self.marks = self.found_marks()
        self.facts_known = {}
        rounds = 0
        while self.grows(rounds):
            rounds += 1
        self.safe = {it.number for it in steps.operations if it.kind == "Fun" and steps.may_fail(it) and self.is_safe(it)}

    def found_marks(self):
        """The bounds at which a range that grows may stop."""
        found = {bound for it in (*TYPES.values(), *self.given.values()) for bound in it}
        for it in self.steps.operations:
            constants = [operand.value for operand in it.fields[2] if operand.signal is None] if it.kind == "Fun" else []
            constants += [it.fields[1]] if it.kind == "Const" else []
            found |= {value + change for value in constants for change in (-1, 0, 1)}
        return sorted(it for it in found if LEAST <= it <= MOST)

    def grows(self, rounds):
        """Reckons one instant; whether a memory may have more values behind it than before."""
        self.values = {}
        for it in self.steps.operations:
            if it.kind == "Read":
                self.put(it.target, self.given.get(it.target, ALL) if self.is_integer(it.target) else None)
            elif it.kind != "Store" and self.is_integer(it.target):
                self.put(it.target, met(self.under(it, it.guard, self.facts(it.guard), DEEPEST), ALL))
        has_grown = False
        for it in self.steps.stores:
            memory, source = it.fields
            if memory in self.memories:
                more = joined(self.memories[memory], self.value(source, it.guard, self.facts(it.guard), DEEPEST))
                if more != self.memories[memory]:
                    self.memories[memory] = self.widened(self.memories[memory], more) if rounds >= ROUNDS else more
                    has_grown = True
        return has_grown

    def widened(self, before, more):
        """A range that has grown, up to the next bounds."""
        low = more[0] if more[0] == before[0] else max(it for it in self.marks if it <= more[0])
        high = more[1] if more[1] == before[1] else min(it for it in self.marks if it >= more[1])
        return low, high

    def put(self, signal, values):
        self.values[signal] = joined(self.values.get(signal), values)

    def is_integer(self, signal):
        return self.image.signals[signal].kind == "integer"

    # Under a guard.

    def facts(self, guard):
        """Comparisons that hold where a guard does: pairs of an operation and whether it is true."""
        if guard not in self.facts_known:
            found = []
            for signal in self.steps.asked(guard):
                literal = self.diagrams.literal(self.steps.conditions[signal])
                if self.diagrams.implies(guard, literal):
                    found += self.known(signal, True, DEEPEST)
                elif self.diagrams.both(guard, literal) == 0:
                    found += self.known_false(signal, guard)
            self.facts_known[guard] = found
        return self.facts_known[guard]

    def known_false(self, signal, guard):
        """A condition that is not true is false where it is there."""
        is_there = self.diagrams.implies(guard, self.steps.presence.get(signal, 0))
        return self.known(signal, False, DEEPEST) if is_there else []

    def known(self, signal, truth, depth):
        """The comparisons that follow from a truth of a signal that is there."""
        found = self.steps.writers.get(signal, [])
        if len(found) != 1 or not depth:
            return []
        it = found[0]
        if it.kind == "Copy":
            return self.known(it.fields[1], truth, depth - 1)
        if it.kind != "Fun":
            return []
        operands = [operand.signal for operand in it.fields[2] if operand.signal is not None]
        if it.fields[1] in OPPOSITE and operands and self.is_integer(operands[0]):
            return [(it, truth)]
        if it.fields[1] in ("Not", "Id"):
            return self.known(operands[0], truth == (it.fields[1] == "Id"), depth - 1)
        if (it.fields[1], truth) in (("And", True), ("Or", False)):
            return [fact for operand in operands for fact in self.known(operand, truth, depth - 1)]
        return []

    def value(self, signal, guard, facts, depth):
        """What a signal may be where a guard holds."""
        values = self.values.get(signal)
        for it, truth in facts:
            values = self.compared(signal, values, it, truth)
        if depth and values and facts:
            found = [self.under(it, both, facts, depth - 1) for it, both in self.reached(signal, guard)]
            values = met(values, self.all(found)) if found else values
        return values

    def all(self, found):
        made = None
        for it in found:
            made = joined(made, it)
        return made

    def reached(self, signal, guard):
        """The operations that may give a signal where a guard holds."""
        for it in self.steps.writers.get(signal, []):
            both = self.diagrams.both(it.guard, guard)
            if both:
                yield it, both

    def compared(self, signal, values, it, truth):
        """The values of a signal for which a comparison may be true, or false."""
        name = it.fields[1] if truth else OPPOSITE[it.fields[1]]
        first, second = it.fields[2]
        if first.signal == signal:
            values = narrowed(name, values, self.operand(second))
        if second.signal == signal:
            mirrored = {"Lt": "Gt", "Gt": "Lt", "Le": "Ge", "Ge": "Le"}.get(name, name)
            values = narrowed(mirrored, values, self.operand(first))
        return values

    def operand(self, operand):
        return (operand.value, operand.value) if operand.signal is None else self.values.get(operand.signal)

    def under(self, it, guard, facts, depth):
        """What an operation may give where a guard holds."""
        if it.kind == "Read":
            return self.given.get(it.target, ALL)
        if it.kind == "Const":
            return it.fields[1], it.fields[1]
        if it.kind == "DelayRead":
            return self.memories[it.fields[1]]
        if it.kind == "Copy":
            return self.value(it.fields[1], guard, facts, depth)
        operands = [(operand.value, operand.value) if operand.signal is None else self.value(operand.signal, guard, facts, depth) for operand in it.fields[2]]
        return met(result(it.fields[1], operands), ALL)

    def where_done(self, it):
        """The ranges of the operands of a function where it is done."""
        facts = self.facts(it.guard)
        return [(operand.value, operand.value) if operand.signal is None else self.value(operand.signal, it.guard, facts, DEEPEST) for operand in it.fields[2]]

    def may_leave(self, it, kind):
        """Whether the quotient that a remainder belongs to may be outside of the type in which C computes it."""
        dividend, divisor = self.where_done(it)
        if dividend is None or divisor is None:
            return False
        return dividend[0] <= LEAST_OF[kind] and divisor[0] <= -1 <= divisor[1]

    def is_safe(self, it):
        """Whether a function always has a value within 64 bits."""
        operands = self.where_done(it)
        if None in operands:
            return False
        if it.fields[1] in ("Div", "Mod") and operands[1][0] <= 0 <= operands[1][1]:
            return False
        found = result(it.fields[1], operands)
        return found is not None and LEAST <= found[0] and found[1] <= MOST
