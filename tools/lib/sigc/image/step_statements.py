"""What one instant of an image does, as statements that a program text can be written from.

A guard is a Boolean function of the conditions. A signal that several operations give is a list of cases, and an
intermediate that one operation reads stands inside that one's expression. What nobody reads is left out; what may
overflow, divide by zero or want an input stays.
"""
from typing import NamedTuple

from sigc.c import expressions
from sigc.clocks.plans import is_intermediate
from sigc.image import diagrams


class Unfit(Exception):
    """The image does something that no image of a program does."""


class Operation(NamedTuple):
    """An operation that may be done: its number, its guard, its place, the signal that it gives, and its fields."""

    number: int
    kind: str
    guard: int
    line: int
    column: int
    target: int
    fields: tuple


class Case(NamedTuple):
    """Where a signal has a value: the guard, and the operation that gives it there."""

    guard: int
    operation: Operation


class Statement(NamedTuple):
    """What is done at one place: the guard, the operation, and the cases of a signal that has several."""

    guard: int
    operation: Operation
    cases: tuple


class Steps:
    """An image as statements, with what is known of its signals. The operations whose numbers are in `safe` always have a
    value within 64 bits."""

    def __init__(self, image, safe=frozenset()):
        self.image, self.diagrams, self.safe = image, diagrams.Diagrams(), safe
        self.conditions = {signal: at for at, signal in enumerate(image.conditions)}
        self.operations = [it for it in self.decoded() if it.guard != 0]
        self.writers, self.delays, self.stores = {}, {}, []
        for it in self.operations:
            self.note(it)
        self.presence = {signal: self.joined(it.guard for it in found) for signal, found in self.writers.items()}
        self.truths = {}
        for signal in range(len(image.signals)):
            self.truth(signal)
        self.live = self.needed([it for it in self.operations if self.may_fail(it) or self.is_output(it.target)])
        self.asked_guards = {it.guard for it in self.operations if it.number in self.live}
        self.live = self.needed([it for it in self.operations if it.number in self.live or self.is_guard(it.target)])
        self.readers = self.counted()
        self.copied = {self.origin(it.fields[1]): it.target for it in self.operations if self.is_case(it)}
        self.apart = {it for it in self.writers if not self.is_merged(it)}

    def decoded(self):
        """The operations, with guards as diagrams."""
        made = []
        for it in self.image.nodes:
            child = lambda n: n if n < 2 else made[n - 2]
            made.append(self.diagrams.node(it.condition, child(it.low), child(it.high)))
        for number, it in enumerate(self.image.operations):
            guard = it.guard if it.guard < 2 else made[it.guard - 2]
            target = None if it.kind == "Store" else it.fields[0]
            yield Operation(number, it.kind, guard, it.line, it.column, target, it.fields)

    def note(self, it):
        if it.kind == "Store":
            self.stores.append(it)
            return
        self.writers.setdefault(it.target, []).append(it)
        if it.kind == "DelayRead":
            if any(store.fields[0] == it.fields[1] for store in self.stores):
                raise Unfit(f"operation {it.number} reads a memory that is set before it")
            self.delays.setdefault(it.fields[1], []).append(it)

    def joined(self, guards):
        found = 0
        for it in guards:
            found = self.diagrams.either(found, it)
        return found

    def is_event(self, signal):
        return self.image.signals[signal].kind == "event"

    def sources(self, it):
        """The signals whose values an operation reads."""
        if it.kind == "Fun":
            found = [operand.signal for operand in it.fields[2] if operand.signal is not None]
        else:
            found = [it.fields[1]] if it.kind in ("Copy", "Store") else []
        return [signal for signal in found if not self.is_event(signal)]

    def asked(self, guard):
        """The signals that a guard asks."""
        bits = self.diagrams.support(guard)
        return [signal for signal, at in self.conditions.items() if bits >> at & 1]

    def operand(self, operand):
        return expressions.constant(operand.value) if operand.signal is None else expressions.variable(f"#{operand.signal}")

    def may_fail(self, it):
        if it.kind != "Fun" or it.number in self.safe:
            return it.kind == "Read"
        return not expressions.is_safe(it.fields[1], [self.operand(operand) for operand in it.fields[2]])

    def is_output(self, signal):
        return signal is not None and self.image.inputs <= signal < self.image.inputs + self.image.outputs

    def is_guard(self, signal):
        """Whether a truth is what a guard of a needed operation asks, and more than one condition."""
        truth = self.truths.get(signal)
        if truth is None or self.is_event(signal) or signal in self.conditions or len(self.writers[signal]) > 1:
            return False
        return truth in self.asked_guards or self.diagrams.negated(truth) in self.asked_guards

    def needed(self, todo):
        """The operations that a step has to do: those of a list, and what these and the memories read."""
        live, todo, wanted = set(), list(todo), set()
        while todo:
            it = todo.pop()
            if it.number in live:
                continue
            live.add(it.number)
            asked = {signal for signal in (*self.sources(it), *self.asked(it.guard)) if signal not in wanted}
            wanted |= asked
            todo += [writer for signal in asked for writer in self.writers.get(signal, [])]
            if it.kind == "DelayRead":
                todo += [store for store in self.stores if store.fields[0] == it.fields[1]]
        return live

    def counted(self):
        """How many operations that are needed read each signal; a copy that has no variable reads it for what reads the copy."""
        counts = dict.fromkeys(range(len(self.image.signals)), 0)
        for it in self.operations:
            for signal in self.sources(it) if it.number in self.live and not self.is_alias(it.target) else []:
                counts[self.origin(signal)] += 1
        return counts

    def is_alias(self, signal):
        """Whether a signal is an intermediate that one copy gives: it has no variable."""
        found = self.writers.get(signal, [])
        is_copy = len(found) == 1 and found[0].kind == "Copy" and not self.is_event(found[0].fields[1])
        return is_copy and is_intermediate(self.image.signals[signal].name) and signal not in self.conditions

    def origin(self, signal):
        """The signal that an alias stands for."""
        while self.is_alias(signal):
            signal = self.writers[signal][0].fields[1]
        return signal

    def is_case(self, it):
        """Whether a needed operation copies a value into a signal that has a variable or cases."""
        return it.kind == "Copy" and it.number in self.live and not self.is_alias(it.target)

    def is_merged(self, signal):
        """Whether what gives a signal may be done together, where the last of it is done."""
        found = self.writers[signal]
        if len(found) == 1:
            return True
        if any(self.may_fail(it) or it.kind == "DelayRead" for it in found):
            return False
        between = self.operations[self.place(found[0]) + 1 : self.place(found[-1])]
        return not any(signal in self.sources(it) or signal in self.asked(it.guard) for it in between)

    def place(self, it):
        """Where an operation stands among those that may be done."""
        low, high = 0, len(self.operations)
        while low < high:
            middle = (low + high) // 2
            if self.operations[middle].number < it.number:
                low = middle + 1
            else:
                high = middle
        return low

    def truth(self, signal):
        """Where a truth is there and true, as a function of the conditions; None where it is none."""
        if signal not in self.truths:
            self.truths[signal] = None
            self.truths[signal] = self.found_truth(signal)
        return self.truths[signal]

    def found_truth(self, signal):
        if self.image.signals[signal].kind == "integer":
            return None
        if signal in self.conditions:
            return self.diagrams.literal(self.conditions[signal])
        if self.is_event(signal):
            return self.presence.get(signal, 0)
        given = [self.given_truth(it) for it in self.writers.get(signal, [])]
        return None if None in given else self.joined(given)

    def given_truth(self, it):
        """Where an operation gives true."""
        both = self.diagrams.both
        if it.kind == "Const":
            return it.guard if it.fields[1] else 0
        if it.kind == "Copy":
            found = self.truth(it.fields[1])
            return None if found is None else both(it.guard, found)
        if it.kind != "Fun" or it.fields[1] not in ("Id", "Not", "And", "Or", "Xor", "Eq", "Ne"):
            return None
        found = [self.truth(operand.signal) if operand.signal is not None else operand.value for operand in it.fields[2]]
        if None in found or any(operand.signal is not None and self.image.signals[operand.signal].kind == "integer" for operand in it.fields[2]):
            return None
        return both(it.guard, self.function_of(it.fields[1], found))

    def function_of(self, name, found):
        made = self.diagrams
        first, second = found[0], found[-1]
        if name in ("Id", "Not"):
            return first if name == "Id" else made.negated(first)
        if name in ("And", "Or"):
            return made.both(first, second) if name == "And" else made.either(first, second)
        differ = made.choice(first, made.negated(second), second)
        return made.negated(differ) if name == "Eq" else differ

    def is_inside(self, signal):
        """Whether a signal has no variable: what gives it stands in the expression of what reads it."""
        found = self.writers.get(signal, [])
        if len(found) != 1 or not is_intermediate(self.image.signals[signal].name) or self.may_fail(found[0]):
            return False
        if signal in self.conditions or found[0].kind == "DelayRead" or self.is_output(signal):
            return False
        return self.readers[signal] <= 1 or found[0].kind in ("Const", "Copy")

    def cases(self, signal):
        """The cases of a signal. Where one takes what an intermediate has that nothing else reads, its cases stand there."""
        for it in self.writers[signal]:
            inner = self.origin(it.fields[1]) if it.kind == "Copy" else None
            if inner is None or self.is_event(inner) or len(self.writers.get(inner, [])) < 2 or not self.is_spread(inner):
                yield Case(it.guard, it)
                continue
            for case in self.cases(inner):
                guard = self.diagrams.both(it.guard, case.guard)
                if guard:
                    yield Case(guard, case.operation)

    def is_spread(self, signal):
        """Whether the cases of a signal stand among those of the one that reads it, and it has no variable."""
        return (
            is_intermediate(self.image.signals[signal].name)
            and signal not in self.apart
            and signal not in self.conditions
            and self.readers[signal] == 1
            and self.is_listed(self.copied.get(signal, signal), signal)
        )

    def is_listed(self, target, signal):
        """Whether what gives a signal is written as a list of cases."""
        return target != signal and target not in self.apart and not self.is_inside(target)

    def statements(self):
        """The statements in the order of the operations, but truths that guards ask as early as may be; those that set
        memories come last."""
        found = list(self.in_order())
        places = {it.operation.target: (at, 0) for at, it in enumerate(found)}
        keys = []
        for at, it in enumerate(found):
            key = at, 0
            if it.operation.kind == "Fun" and not self.may_fail(it.operation) and self.is_guard(it.operation.target):
                asked = [places[signal] for signal in self.roots(it.operation, places)]
                last, behind = max(asked, default=key)
                key = places[it.operation.target] = last, behind + 1
            keys.append(key)
        return [found[at] for at in sorted(range(len(found)), key=lambda at: (keys[at], at))]

    def roots(self, it, places):
        """The signals with a statement that an operation reads or its guard asks."""
        todo, found = [*self.sources(it), *self.asked(it.guard)], set()
        while todo:
            signal = todo.pop()
            if signal in places:
                found.add(signal)
            else:
                todo += [source for writer in self.writers.get(signal, []) for source in self.sources(writer)]
        return found

    def in_order(self):
        """The statements in the order of the operations."""
        for it in self.operations:
            if it.number not in self.live or it.kind == "Store" or self.is_event(it.target) and it.kind != "Read":
                continue
            if it.target in self.apart or it.kind in ("Read", "DelayRead") or self.may_fail(it):
                yield Statement(it.guard, it, ())
            elif it is self.writers[it.target][-1] and not self.is_inside(it.target) and not self.is_within(it.target):
                yield Statement(self.presence[it.target], it, tuple(self.cases(it.target)))
        for it in self.stores:
            if it.number in self.live:
                yield Statement(it.guard, it, ())

    def is_within(self, signal):
        return len(self.writers[signal]) > 1 and self.is_spread(signal)
