"""An instant of an image as formulas of SMT-LIB: what is read, what each operation does, and what the memories hold after it.

The formulas follow the image operation by operation. Integers are those of z3, without bounds, and each operation that may leave
64 bits or divide by zero says when it does. Properties are translated with memories of their own for their delays and cells.

Which values are real: a run does the operations in this order, and ends at the first that has no value. So in an instant
without a fault every value here is the run's. In an instant that fails only what stands before the first fault is: the result
there and all that follows are numbers of these formulas and of no run. Nothing may be assumed of them, or an assumption as
`N < 1000` would exclude the very overflow of N that ends the run. `Step.failing` says of each operation when it is the
first to fail, with those assumptions alone whose signals all stand before it. All other formulas speak of instants without a fault.
"""
from typing import NamedTuple

from sigc.prove import property_language
from sigc.read import signal_kinds

RELATIONS = {"Lt": "<", "Le": "<=", "Gt": ">", "Ge": ">=", "Eq": "=", "<": "<", "<=": "<=", ">": ">", ">=": ">=", "=": "="}
SUMS = {"Add": "+", "Sub": "-", "Mul": "*", "+": "+", "-": "-", "*": "*"}
CONNECTIVES = {"And": "and", "Or": "or", "Xor": "xor", "and": "and", "or": "or", "xor": "xor"}
SORTS = {"integer": "Int", "boolean": "Bool", "event": "Bool"}


class Read(NamedTuple):
    """An operation that takes an input: the constant that stands for the value, None for an event, and its guard."""

    order: int
    signal: int
    name: str
    guard: str


class Fault(NamedTuple):
    """An operation that may have no value: what befalls it, where it stands, its target, and the formula that says when."""

    order: int
    what: str
    line: int
    column: int
    target: str
    when: str


class Definition(NamedTuple):
    name: str
    sort: str
    term: str


class Seen(NamedTuple):
    """What an expression is at an instant: the formula that says whether it is there, and its value."""

    there: str
    value: str


def number(value):
    return str(value) if value >= 0 else f"(- {-value})"


def constant(kind, value):
    return number(value) if kind == "integer" else "true" if value else "false"


def both(*terms):
    kept = [it for it in terms if it != "true"]
    if "false" in kept:
        return "false"
    return "true" if not kept else kept[0] if len(kept) == 1 else f"(and {' '.join(kept)})"


def either(*terms):
    kept = [it for it in dict.fromkeys(terms) if it != "false"]
    if "true" in kept:
        return "true"
    return "false" if not kept else kept[0] if len(kept) == 1 else f"(or {' '.join(kept)})"


def negated(term):
    return {"true": "false", "false": "true"}.get(term, f"(not {term})")


def choice(if_, then, else_):
    return then if if_ == "true" or then == else_ else else_ if if_ == "false" else f"(ite {if_} {then} {else_})"


def outside(term):
    """A formula that says whether a number has more than 64 bits."""
    return f"(or (< {term} {number(property_language.LEAST)}) (> {term} {property_language.MOST}))"


def quotient(a, b):
    """Toward zero; z3 gives the one of which the rest is not negative."""
    return f"(ite (>= {a} 0) (div {a} {b}) (- (div (- {a}) {b})))"


class Memory(NamedTuple):
    name: str
    sort: str
    init: str
    value: int


class Step:
    """An instant of an image, with the properties that are watched along it.

    memories are what it begins with, reads the constants that stand for what inputs give, definitions the formulas in
    order, following what the memories hold behind it; faults is by operation, seen by signal.
    """

    def __init__(self, image, properties=()):
        self.image = image
        self.memories = [Memory(f"m{i}", SORTS[it.kind], constant(it.kind, it.init), it.init) for i, it in enumerate(image.memories)]
        self.following = {it.name: it.name for it in self.memories}
        self.definitions, self.named, self.reads, self.faults = [], {}, [], []
        self.seen, self.nodes, self.guards = {}, {0: "false", 1: "true"}, []
        self.numbers = {it.name: at for at, it in enumerate(image.signals)}
        self.last = {it.fields[0]: order for order, it in enumerate(image.operations) if it.kind != "Store"}
        for order, operation in enumerate(image.operations):
            self.order = order
            self.do(operation)
        self.fault = self.defined("fault", "Bool", either(*(it.when for it in self.faults)))
        self.watched = [Translated(self, it) for it in properties]

    def failing(self, fault, assumed):
        """When a fault is the first of its instant, where what is assumed holds as far as it is computed before it."""
        before = either(*(it.when for it in self.faults[: self.faults.index(fault)]))
        return both(fault.when, negated(before), *(it.holds for it in assumed if it.last < fault.order))

    def defined(self, name, sort, term):
        """A name for a formula, or the formula itself where it is short; equal formulas have one name."""
        if len(term) < 12 and " " not in term:
            return term
        if (sort, term) not in self.named:
            self.named[sort, term] = f"{name}_{len(self.definitions)}"
            self.definitions.append(Definition(self.named[sort, term], sort, term))
        return self.named[sort, term]

    # Guards.

    def guard(self, child):
        """The truth of a guard. The conditions that decide it are written before it is used; a node that also depends on
        one that is not yet written is built anew where it is used again."""
        waiting, found = [child], {}
        while waiting:
            at = waiting[-1]
            if at in self.nodes or at in found:
                waiting.pop()
                continue
            node = self.image.nodes[at - 2]
            open_ = [it for it in (node.low, node.high) if it not in self.nodes and it not in found]
            if open_:
                waiting += open_
                continue
            waiting.pop()
            low, high = (found[it] if it in found else self.nodes[it] for it in (node.low, node.high))
            is_written = self.last.get(self.image.conditions[node.condition], -1) < self.order
            kept = self.nodes if is_written and node.low in self.nodes and node.high in self.nodes else found
            kept[at] = self.node(node, low, high)
        return found[child] if child in found else self.nodes[child]

    def node(self, node, low, high):
        seen = self.seen_of(self.image.conditions[node.condition])
        truth = both(seen.there, seen.value)
        term = {("false", "true"): truth, ("true", "false"): negated(truth)}.get((low, high), choice(truth, high, low))
        return self.defined("g", "Bool", term)

    # Operations.

    def kind(self, signal):
        return self.image.signals[signal].kind

    def seen_of(self, signal):
        return self.seen.get(signal, Seen("false", constant(self.kind(signal), 0)))

    def write(self, signal, guard, value):
        before = self.seen.get(signal)
        value = self.defined("v", SORTS[self.kind(signal)], value)
        if before is None:
            self.seen[signal] = Seen(guard, value)
            return
        there = self.defined("p", "Bool", either(before.there, guard))
        self.seen[signal] = Seen(there, self.defined("v", SORTS[self.kind(signal)], choice(guard, value, before.value)))

    def do(self, operation):
        guard, fields = self.guard(operation.guard), operation.fields
        self.guards.append(guard)
        if operation.kind == "Read":
            self.read(fields[0], guard)
        elif operation.kind == "Fun":
            self.apply(operation, guard)
        elif operation.kind == "Copy":
            self.write(fields[0], guard, self.seen_of(fields[1]).value)
        elif operation.kind == "Const":
            self.write(fields[0], guard, constant(self.kind(fields[0]), fields[1]))
        elif operation.kind == "DelayRead":
            self.write(fields[0], guard, f"m{fields[1]}")
        else:
            name = f"m{fields[0]}"
            if fields[1] in self.seen:
                # A value is stored whenever it is there, so the two guards are one: properties with this delay know the memory.
                self.seen[fields[1]] = Seen(guard, self.seen[fields[1]].value)
            self.following[name] = choice(guard, self.seen_of(fields[1]).value, self.following[name])

    def read(self, signal, guard):
        kind = self.kind(signal)
        if kind == "event":
            self.reads.append(Read(self.order, signal, None, guard))
            self.write(signal, guard, "true")
            return
        name = f"r{len(self.reads)}"
        self.reads.append(Read(self.order, signal, name, guard))
        self.seen[signal] = Seen(guard, name)

    def apply(self, operation, guard):
        target, function, operands = operation.fields
        is_integer = any(it.signal is not None and self.kind(it.signal) == "integer" for it in operands)
        terms = [self.seen_of(it.signal).value if it.signal is not None else constant("integer" if is_integer else "boolean", it.value) for it in operands]
        term, faults = applied(function, terms)
        if function in ("Add", "Sub", "Mul", "Neg", "Div"):
            term = self.defined("v", "Int", term)
        for what, when in faults(term):
            when = self.defined("f", "Bool", both(guard, when))
            if when != "false":
                self.faults.append(Fault(self.order, what, operation.line, operation.column, self.image.signals[target].name, when))
        self.write(target, guard, term)


def is_number(term):
    return term.isdigit() or term.startswith("(- ") and term[3:-1].isdigit()


def applied(function, terms):
    """The formula of a function, and what befalls it, asked of the name of its result."""
    none = lambda _: []
    if function in RELATIONS:
        return f"({RELATIONS[function]} {terms[0]} {terms[1]})", none
    if function in ("Ne", "/="):
        return f"(not (= {terms[0]} {terms[1]}))", none
    if function in CONNECTIVES:
        return f"({CONNECTIVES[function]} {terms[0]} {terms[1]})", none
    if function in ("Not", "not"):
        return negated(terms[0]), none
    if function == "Id":
        return terms[0], none
    if function in ("Neg", "neg"):
        return f"(- {terms[0]})", lambda it: [("overflow", outside(it))]
    if function in SUMS:
        return f"({SUMS[function]} {terms[0]} {terms[1]})", lambda it: [("overflow", outside(it))]
    by_zero = {"0": "true"}.get(terms[1], "false" if is_number(terms[1]) else f"(= {terms[1]} 0)")
    if function in ("Div", "/"):
        return quotient(*terms), lambda it: [("division by zero", by_zero), ("overflow", both(negated(by_zero), outside(it)))]
    return f"(- {terms[0]} (* {terms[1]} {quotient(*terms)}))", lambda it: [("division by zero", by_zero)]


class Translated:
    """A property at an instant: whether it is there, its value, when its own arithmetic has none, and when it ties clocks.

    At an instant where it ties clocks nothing is claimed or assumed by it. `holds` is what an assumption says of an
    instant, and `last` the last operation that it depends on.
    """

    def __init__(self, step, it):
        self.step, self.property = step, it
        self.bad, self.tied = [], []
        seen = self.of(it.node)
        self.there, self.value = seen.there, seen.value
        self.no_value = either(*self.bad)
        self.ties = either(*(when for _, when in self.tied))
        self.is_seen = both(self.there, negated(self.ties))
        self.holds = step.defined("h", "Bool", both(negated(self.no_value), either(negated(self.is_seen), self.value)))
        self.last = max((step.last.get(step.numbers[name], -1) for name in it.signals()), default=-1)

    def broken(self, is_true):
        """When an instant breaks the claim that the property is always true, or never."""
        return either(self.no_value, both(self.is_seen, negated(self.value) if is_true else self.value))

    def comes(self):
        return either(self.is_seen, self.no_value)

    def kind(self, node):
        return signal_kinds.kind_of(node, self.property.kinds)

    def memory(self, node, part, bad):
        """The memory of a delay or a cell: one that is there already, if it always holds the same. A value that has more
        than 64 bits is not kept: no instant counts after it."""
        kind = "integer" if self.kind(node) == "integer" else "boolean"
        value = property_language.constant_in(node.init)
        following = lambda name: choice(both(part.there, negated(bad)), part.value, name)
        for it in self.step.memories:
            if (it.sort, it.value) == (SORTS[kind], value) and self.step.following[it.name] == following(it.name):
                return it
        made = Memory(f"q{len(self.step.memories)}", SORTS[kind], constant(kind, value), value)
        self.step.memories.append(made)
        self.step.following[made.name] = following(made.name)
        return made

    def of(self, node):
        if node.op == "name":
            name = self.property.names.get(node.at.text, node.at.text)
            return self.step.seen_of(self.step.numbers[name])
        if node.op in ("number", "truth"):
            return Seen("true", constant(self.kind(node), property_language.constant_in([node.at])))
        known = len(self.bad)
        parts = [self.of(it) for it in node.parts]
        if node.op in property_language.CLOCKS:
            return Seen(self.clock(node.op, parts), "true")
        if node.op == "when":
            return Seen(both(parts[0].there, parts[1].there, parts[1].value), parts[0].value)
        if node.op == "default":
            return Seen(either(parts[0].there, parts[1].there), choice(parts[0].there, parts[0].value, parts[1].value))
        if node.op in ("$", "cell"):
            made = self.memory(node, parts[0], either(*self.bad[known:]))
            if node.op == "$":
                return Seen(parts[0].there, made.name)
            there = either(parts[0].there, both(parts[1].there, parts[1].value))
            return Seen(there, choice(parts[0].there, parts[0].value, made.name))
        return self.function(node, parts)

    def clock(self, op, parts):
        there = [it.there for it in parts]
        if op == "at":
            return both(parts[0].there, parts[0].value)
        return {"^": lambda: there[0], "^+": lambda: either(*there), "^*": lambda: both(*there), "^-": lambda: both(there[0], negated(there[1]))}[op]()

    def function(self, node, parts):
        with_clock = [it.there for it, part in zip(parts, node.parts) if not property_language.is_constant(part)]
        there = both(*dict.fromkeys(with_clock))
        if len(set(with_clock)) > 1:
            self.tied.append((node, f"(distinct {' '.join(dict.fromkeys(with_clock))})"))
        term, faults = applied(node.op, [it.value for it in parts])
        term = self.step.defined("e", SORTS[self.kind(node)], term)
        self.bad += [self.step.defined("b", "Bool", both(there, when)) for _, when in faults(term)]
        return Seen(there, term)
