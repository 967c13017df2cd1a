"""The C text of a step: statements under guards, each with the line and the equation that it comes from."""
import collections
import re
from typing import NamedTuple

from sigc.c import expressions, guard_text
from sigc.c.c_names import Names
from sigc.clocks.plans import is_intermediate
from sigc.image import images, intervals

DEEPEST = 6
WIDTH = 118
INDENT = "    "
WORD = re.compile(r"[A-Za-z_][A-Za-z0-9_]*")
CHECKED = {"Add": "add", "Sub": "subtract", "Mul": "multiply", "Neg": "negate"}
# What an answer of a step says, in the order of their numbers.
DONE, EXHAUSTED, OVERFLOW, DIVISION, OUTSIDE = range(5)


class Missing(Exception):
    """A condition that was left out is wanted after all."""

    def __init__(self, signals):
        super().__init__(signals)
        self.signals = signals


class End(NamedTuple):
    """What a step may end with: what it is, its place, and the signal's name."""

    what: int
    line: int
    column: int
    name: str


class Block(NamedTuple):
    """An open block: its guard, and the guard of the branches before it."""

    guard: int
    before: int


class Step:
    """The text of a step. What is in `skipped` is not computed, and what is in `inside` stands where it is asked."""

    def __init__(self, steps, source, prefix, ranges=None, skipped=frozenset(), inside=frozenset()):
        self.ranges = ranges
        self.steps, self.source, self.prefix, self.image = steps, source, prefix, steps.image
        self.diagrams, self.skipped, self.inside = steps.diagrams, skipped, inside
        self.names, self.guards = Names(prefix), guard_text.Guards(self.diagrams)
        self.spelled = self.spellings()
        self.fields = self.state_fields()
        self.lines, self.open, self.ends, self.helpers = [], [Block(1, 0)], [], set()
        self.declared, self.constants, self.reads, self.given_by, self.is_over = {}, {}, set(), {}, False
        self.statements = list(steps.statements())
        self.outputs = [it for it in range(self.image.inputs, self.image.inputs + self.image.outputs) if steps.presence.get(it, 0)]
        self.uses = self.used()

    # Names.

    def spellings(self):
        """A name of C for each signal, those of the program first."""
        found = {}
        for is_late in (False, True):
            for signal, it in enumerate(self.image.signals):
                if is_intermediate(it.name) == is_late:
                    found[signal] = self.names.fresh(self.wanted_name(it, signal))
        return found

    def wanted_name(self, signal, number):
        """The name of a signal; that of an intermediate tells its place, or whose value of before it is."""
        delays = [it for it in self.steps.writers.get(number, []) if it.kind == "DelayRead"]
        if delays and is_intermediate(signal.name):
            return f"{self.source.speaks_of(delays[0])}_before"
        copy, _, own = signal.name.rpartition(".")
        word = ("is_" if signal.kind == "boolean" else "at_") if own.startswith("#") else ""
        return f"{copy}_{word}{own.lstrip('#')}" if copy else f"{word}{own.lstrip('#')}"

    def state_fields(self):
        """The names of the memories, by their numbers: those of the signals that read them."""
        names, found = Names(self.prefix), {}
        for memory, delays in sorted(self.steps.delays.items()):
            if any(it.number in self.steps.live for it in delays):
                found[memory] = names.fresh(self.source.speaks_of(delays[0]))
        return found

    def used(self):
        """How many times the statements and outputs turn to each guard."""
        guards = [it.guard for it in self.statements] + [self.steps.presence[it] for it in self.outputs]
        counts = {}
        for at, it in enumerate(guards):
            if not at or guards[at - 1] != it:
                counts[it] = counts.get(it, 0) + 1
        return counts

    # Values.

    def value(self, signal):
        if self.steps.is_event(signal):
            return expressions.constant(1)
        if self.steps.is_inside(signal) or ("signal", signal) in self.inside:
            return self.given(self.steps.writers[signal][0])
        return expressions.variable(self.spelled[signal], self.kind(signal))

    def operands(self, it):
        return [expressions.constant(operand.value) if operand.signal is None else self.value(operand.signal) for operand in it.fields[2]]

    def given(self, it):
        """What an operation gives that always has a value."""
        if it.kind == "Const":
            return expressions.constant(it.fields[1])
        if it.kind == "Copy":
            return self.value(it.fields[1])
        if it.kind == "DelayRead":
            return expressions.Value(f"state->{self.fields[it.fields[1]]}", expressions.ATOM, frozenset(("state",)), None, self.memory_kind(it.fields[1]))
        are_truths = any(operand.signal is not None and self.image.signals[operand.signal].kind != "integer" for operand in it.fields[2])
        if it.fields[1] in expressions.DECIDED and not are_truths:
            return self.compared(it.fields[1], *it.fields[2])
        value = expressions.function(it.fields[1], self.operands(it), are_truths, self.wide_kind(it))
        if it.fields[1] == "Mod" and self.ranges and value.constant is None and self.ranges.may_leave(it, self.wide_kind(it)):
            return self.unless_unit(it, value)
        return value

    def unless_unit(self, it, remainder):
        """A remainder, which is 0 where the divisor is -1: there C leaves open what the least value gives."""
        is_unit = self.compared("Eq", it.fields[2][1], images.Operand(None, -1))
        return expressions.choice(is_unit, expressions.constant(0), remainder)

    def values_of(self, operand):
        """The range of an operand, where ranges are known."""
        if operand.signal is None:
            return operand.value, operand.value
        return self.ranges.values.get(operand.signal) if self.ranges else None

    def compared(self, name, first, second):
        """A comparison of integers; a constant where their ranges decide it."""
        ranges = self.values_of(first), self.values_of(second)
        if self.ranges and None not in ranges:
            for one, answer in ((name, 0), (intervals.OPPOSITE[name], 1)):
                if intervals.narrowed(one, *ranges) is None:
                    return expressions.constant(answer)
        values = [expressions.constant(it.value) if it.signal is None else self.value(it.signal) for it in (first, second)]
        return expressions.compared(name, *values)

    def wide_kind(self, it):
        """The type in which a sum or the like is reckoned: that of its operands and its result, or int where that is enough
        on every machine."""
        if not self.ranges or self.image.signals[it.target].kind != "integer":
            return "int64_t"
        kinds = [self.values_of(operand) for operand in it.fields[2]] + [self.ranges.values.get(it.target)]
        if None in kinds:
            return "int64_t"
        found = intervals.type_of((min(low for low, _ in kinds), max(high for _, high in kinds)))
        return found if found in ("int32_t", "int64_t") else "int"

    def chosen(self, signal, cases, guard):
        """The value of a signal of several cases: tests and values, the last one without a test."""
        rest, found = guard, []
        for it in cases:
            if self.diagrams.both(it.guard, rest) == rest:
                return [*found, (None, self.given(it.operation))]
            found.append((self.test(it.guard, rest), self.given(it.operation)))
            rest = self.diagrams.without(rest, it.guard)
        return found

    # Guards and blocks.

    def test(self, function, care):
        """The expression of a guard where another one holds."""
        try:
            return self.guards.expression(function, care, self.named_part)
        except KeyError:
            bits = self.diagrams.support(function) | self.diagrams.support(care)
            lost = [it for it, at in self.steps.conditions.items() if bits >> at & 1 and self.is_left_out(it)]
            raise Missing(lost) from None

    def is_left_out(self, signal):
        return ("signal", signal) in self.skipped or ("signal", signal) in self.inside

    def named_part(self, function):
        """A name for a part of a guard that is too large for one expression."""
        care = self.open[-1].guard
        value = self.guards.expression(function, care, self.named_part)
        name = self.names.fresh(f"when_{len(self.declared) + 1}")
        self.assign(name, "int", value, ("part", function))
        self.guards.add(self.diagrams.both(function, care), expressions.variable(name))
        return expressions.variable(name)

    def enter(self, guard):
        """Goes to a place of the text where a guard holds."""
        while self.open[-1].guard != guard:
            top = self.open[-1]
            if self.diagrams.implies(guard, top.guard) and (len(self.open) <= DEEPEST or top.guard == 1):
                self.name_guard(guard)
                self.begin("if (%s) {", self.test(guard, top.guard), Block(guard, 0))
                return
            self.leave(guard)

    def leave(self, guard):
        """Closes a block, or goes on to another branch of it where the guard is one."""
        top = self.open.pop()
        outer, before = self.open[-1].guard, self.diagrams.either(top.before, top.guard)
        rest = self.diagrams.without(outer, before)
        if rest and guard == rest:
            self.line("} else {")
            self.open.append(Block(rest, before))
            return
        value = self.guards.simple(guard, rest) or self.guards.pair(guard, rest) if rest and self.diagrams.implies(guard, rest) else None
        if value and not self.is_named(guard):
            self.begin("} else if (%s) {", value, Block(guard, before))
        else:
            self.line("}")

    def begin(self, form, value, block):
        self.line(form % value.text, value)
        self.open.append(block)

    def is_named(self, guard):
        """Whether a guard is to get a name, since it is asked more than once."""
        value = self.guards.simple(guard, 1)
        return value is None and self.uses.get(guard, 0) > 1 and ("guard", guard) not in self.skipped

    def name_guard(self, guard):
        if not self.is_named(guard):
            return
        care = self.open[-1].guard
        value = self.test(guard, care)
        if value.level >= expressions.UNARY:
            return
        name = self.names.fresh(self.guard_name(guard))
        self.assign(name, "int", value, ("guard", guard))
        self.guards.add(guard, expressions.variable(name))

    def guard_name(self, guard):
        """A name for a guard: that of the first signal that comes where it holds."""
        found = [signal for signal, it in self.steps.presence.items() if it == guard]
        found.sort(key=lambda it: (is_intermediate(self.image.signals[it].name), it))
        return f"has_{self.spelled[found[0]]}" if found else f"when_{len(self.declared) + 1}"

    def close(self):
        while len(self.open) > 1:
            self.open.pop()
            self.line("}")

    # Lines.

    def line(self, text, value=None):
        self.lines.append(INDENT * len(self.open) + text)
        self.reads |= value.reads if value else frozenset()

    def comment(self, text):
        self.line(f"/* {text.replace('*/', '* /').replace('/*', '/ *')} */")

    def assign(self, name, kind, value, key):
        """Gives a name a value: a constant of the step where it always has one, and else a variable that is 0 before."""
        self.given_by[name], value = key, expressions.cast(kind, value)
        if len(self.open) == 1:
            self.line(f"const {kind} {name} = {value.text};", value)
            self.constants[name] = len(self.lines)
        else:
            self.declared[name] = kind, True
            self.line(f"{name} = {value.text};", value)

    def fail(self, test, what, it):
        """Ends the step where a test holds."""
        line, column = self.source.place(it)
        name = self.image.signals[it.target].name if it.kind == "Read" else self.source.speaks_of(it)
        self.ends.append(End(what, line, column, name))
        if test.constant is None:
            self.line(f"if ({test.text}) {{", test)
            self.line(f"{INDENT}return {len(self.ends)};")
            self.line("}")
        elif test.constant:
            self.line(f"return {len(self.ends)};")
            self.is_over = len(self.open) == 1
        else:
            self.ends.pop()

    # Statements.

    def write(self):
        """The lines of the step's body. Behind an operation that always fails there is nothing."""
        for it in self.statements:
            if it.operation.kind != "Store" and not self.is_over:
                self.statement(it)
        if self.is_over:
            return self
        stores = [it for it in self.statements if it.operation.kind == "Store"]
        given = [self.steps.presence[it] for it in self.outputs]
        for it in stores:
            if it.guard not in given:
                self.store(it)
        for guard, signal in zip(given, self.outputs):
            for it in stores:
                if it.guard == guard:
                    self.store(it)
            stores = [it for it in stores if it.guard != guard]
            self.output(signal)
        self.close()
        self.line("return 0;")
        return self

    def statement(self, it):
        target = it.operation.target
        if ("signal", target) in self.skipped and not self.steps.may_fail(it.operation):
            return
        if ("signal", target) not in self.inside:
            self.enter(it.guard)
            self.comment(self.source.comment(it.operation))
            if it.operation.kind == "Read":
                self.read(it.operation)
            elif self.steps.may_fail(it.operation):
                self.checked(it.operation)
            else:
                self.let(it)
        self.remember(target, it.operation is self.steps.writers[target][-1])

    def remember(self, signal, is_complete):
        """What is known of a truth once it is there. A condition is only asked where it was given before."""
        truth = self.steps.truths.get(signal)
        if truth is not None and not self.is_event(signal) and (is_complete or signal in self.steps.conditions):
            self.guards.add(truth, self.value(signal), self.steps.presence[signal] if ("signal", signal) in self.inside else 1)

    def is_event(self, signal):
        return self.steps.is_event(signal)

    def kind(self, signal):
        """The type of a signal's variable."""
        if self.image.signals[signal].kind != "integer":
            return "int"
        return intervals.type_of(self.ranges.values.get(signal)) if self.ranges else "int64_t"

    def memory_kind(self, memory):
        if self.image.memories[memory].kind != "integer":
            return "uint8_t" if self.ranges else "int"
        return intervals.type_of(self.ranges.memories[memory]) if self.ranges else "int64_t"

    def has_ranges(self):
        """Whether an input may be outside of its range."""
        return bool(self.ranges and self.ranges.given)

    def unread(self):
        """The names that are given a value and not read, since another way to write the step wants them."""
        return [name for name in self.given_by if name not in self.reads]

    def body(self):
        """The lines, and behind each constant that is not read one that says so."""
        behind = {self.constants[name]: name for name in self.unread() if name in self.constants}
        found = []
        for number, line in enumerate(self.lines, 1):
            found += [line, f"{INDENT}(void){behind[number]};"] if number in behind else [line]
        return found

    def read(self, it):
        """Asks for the next value of an input."""
        signal = it.target
        name = self.spelled[signal]
        if self.is_event(signal):
            self.fail(expressions.Value(f"!r_{self.prefix}_{self.image.signals[signal].name}(context)", expressions.UNARY, frozenset(("context",))), EXHAUSTED, it)
            return
        self.declared[name] = self.kind(signal), len(self.open) > 1
        self.fail(expressions.Value(f"!r_{self.prefix}_{self.image.signals[signal].name}(context, &{name})", expressions.UNARY, frozenset(("context",))), EXHAUSTED, it)
        if self.has_ranges() and signal in self.ranges.given:
            self.bounded(it, expressions.variable(name), self.ranges.given[signal])

    def bounded(self, it, value, given):
        """Ends the step where an input is outside of the range that was given for it."""
        least, most = intervals.TYPES[self.kind(it.target)]
        tests = [expressions.compared("Lt", value, expressions.constant(given[0]))] if given[0] > least else []
        tests += [expressions.compared("Gt", value, expressions.constant(given[1]))] if given[1] < most else []
        if tests:
            self.fail(expressions.disjunction(tests), OUTSIDE, it)

    def checked(self, it):
        """A function that may overflow or divide by zero."""
        name, operands = self.spelled[it.target], self.operands(it)
        if it.fields[1] in CHECKED:
            self.helpers.add(CHECKED[it.fields[1]])
            self.declared[name] = "int64_t", len(self.open) > 1
            reads = frozenset().union(*(operand.reads for operand in operands))
            texts = ", ".join(operand.text for operand in operands)
            self.fail(expressions.Value(f"{CHECKED[it.fields[1]]}({texts}, &{name})", expressions.ATOM, reads), OVERFLOW, it)
        else:
            self.divided(it, name, *operands)

    def divided(self, it, name, first, second):
        """A quotient or a remainder: its divisor is not 0, and the quotient of the least integer and -1 is too large."""
        dividend, divisor = it.fields[2]
        zero, minus, least = (images.Operand(None, value) for value in (0, -1, expressions.LEAST))
        none = self.compared("Eq", divisor, zero)
        self.fail(none, DIVISION, it)
        is_unit = self.compared("Eq", divisor, minus)
        if it.fields[1] == "Div":
            self.fail(expressions.conjunction([is_unit, self.compared("Eq", dividend, least)]), OVERFLOW, it)
        if self.is_over or ("signal", it.target) in self.skipped:
            return
        if none.constant:
            self.declared[name], self.given_by[name] = (self.kind(it.target), True), ("signal", it.target)
            return
        value = expressions.reckoned(it.fields[1], [first, second], self.wide_kind(it))
        if it.fields[1] == "Mod":
            value = self.unless_unit(it, value)
        self.assign(name, self.kind(it.target), value, ("signal", it.target))

    def let(self, it):
        """Gives a signal its value."""
        name, target = self.spelled[it.operation.target], it.operation.target
        if not it.cases:
            self.assign_signal(name, target, self.given(it.operation))
            return
        cases = self.chosen(target, it.cases, it.guard)
        value = cases[-1][1]
        for test, one in reversed(cases[:-1]):
            value = (expressions.truth_choice if self.kind(target) == "int" else expressions.choice)(test, one, value)
        if len(cases) == 1 or len(cases) < 4 and len(value.text) < WIDTH - 40:
            self.assign_signal(name, target, value)
        else:
            self.branches(name, target, cases)

    def assign_signal(self, name, target, value):
        """A signal with several places where it is given is a variable."""
        if target in self.steps.apart and len(self.steps.writers[target]) > 1 and len(self.open) == 1:
            self.given_by[name] = "signal", target
            self.declared[name], value = (self.kind(target), True), expressions.cast(self.kind(target), value)
            self.line(f"{name} = {value.text};", value)
        else:
            self.assign(name, self.kind(target), value, ("signal", target))

    def branches(self, name, target, cases):
        """Many cases as branches."""
        self.given_by[name] = "signal", target
        self.declared[name] = self.kind(target), len(self.open) > 1
        for at, (test, value) in enumerate(cases):
            if test is None:
                self.line("} else {")
            else:
                self.line(f"{'} else ' if at else ''}if ({test.text}) {{", test)
            value = expressions.cast(self.kind(target), value)
            self.line(f"{INDENT}{name} = {value.text};", value)
        self.line("}")

    def store(self, it):
        memory, source = it.operation.fields
        if memory not in self.fields:
            return
        self.enter(it.guard)
        self.comment(self.source.comment(it.operation._replace(target=self.steps.delays[memory][0].target)))
        value = expressions.cast(self.memory_kind(memory), self.value(source))
        self.line(f"state->{self.fields[memory]} = {value.text};", value)

    def output(self, signal):
        self.enter(self.steps.presence[signal])
        name = self.image.signals[signal].name
        if self.is_event(signal):
            self.line(f"w_{self.prefix}_{name}(context);")
        else:
            value = expressions.cast(self.kind(signal), self.value(signal))
            self.line(f"w_{self.prefix}_{name}(context, {value.text});", value)


def first_value(memory):
    """What a memory has at first, as a text of C."""
    return expressions.constant(memory.init).text


def once_read(step):
    """The intermediate conditions that the text names once, behind the place where they are given."""
    words = collections.Counter(it for line in step.lines if not line.lstrip().startswith("/*") for it in WORD.findall(line))
    for name, key in step.given_by.items():
        signal = key[1] if key[0] == "signal" else None
        if signal in step.steps.conditions and words[name] == 2 and is_intermediate(step.image.signals[signal].name):
            found = step.steps.writers[signal]
            if len(found) == 1 and found[0].kind == "Fun" and not step.steps.may_fail(found[0]):
                yield key


def written(steps, source, prefix, ranges=None):
    """The step's text: written again until it computes nothing that it does not read, and names nothing that it reads once."""
    skipped, inside, pinned = set(), set(), set()
    while True:
        try:
            step = Step(steps, source, prefix, ranges, skipped, inside).write()
        except Missing as it:
            wanted = {("signal", signal) for signal in it.signals}
            pinned, skipped, inside = pinned | wanted, skipped - wanted, inside - wanted
            continue
        unread = {key for name, key in step.given_by.items() if name not in step.reads}
        if unread - pinned:
            skipped |= unread - pinned
            continue
        once = set(once_read(step)) - pinned - inside
        if not once:
            return step
        inside |= once
