"""The step of one cluster as C: its operations, and what it gets from other clusters and puts to them, in the order of the image.

A step may have to wait, where there is no item yet or no room for one. Then it keeps the place in the state, and goes on
there when it is called again. So what is needed behind such a place is a field of the state, and all else a variable.
"""
import itertools
from typing import NamedTuple

from sigc.c import expressions
from sigc.c.c_names import Names
from sigc.clocks.plans import is_intermediate
from sigc.clusters import fates

INDENT = "    "
# the most tests that a guard may have before its parts get names
LONGEST = 24
# how many outputs one item tells of whether they come
BITS = 32
CHECKED = {"Add": "add", "Sub": "subtract", "Mul": "multiply", "Neg": "negate"}
OWN = ("state", "context", "item", "place", "RARELY")


class Act(NamedTuple):
    """What is done at one place: what, under which guard, with which operation, stream and signal."""

    word: str
    guard: int = 1
    operation: object = None
    stream: int = None
    signal: int = None


class Text:
    """The text of a step in the making, whose places of waiting are numbered from 1."""

    def __init__(self):
        self.lines, self.depth, self.places = [], 1, 0

    def line(self, text):
        self.lines.append(INDENT * self.depth + text)

    def open(self, text):
        self.line(text)
        self.depth += 1

    def close(self):
        self.depth -= 1
        self.line("}")

    def wait(self, call, prefix):
        """Waits until a call answers that it is done."""
        self.places += 1
        self.lines.append(INDENT * (self.depth - 1) + f"at_{self.places}:")
        self.open(f"if (RARELY(!{call})) {{")
        self.line(f"state->place = {self.places};")
        self.line(f"return {prefix}_WAITING;")
        self.close()

    def begin(self):
        """The lines that lead to the place of waiting."""
        cases = [line for it in range(1, self.places + 1) for line in (f"{INDENT}case {it}:", f"{INDENT * 2}goto at_{it};")]
        return [f"{INDENT}switch (state->place) {{", *cases, f"{INDENT}default:", f"{INDENT * 2}break;", f"{INDENT}}}"] if cases else []


class Cluster:
    """The step of a cluster. `program` has what all clusters share."""

    def __init__(self, program, number):
        self.program, self.number, self.image, self.prefix = program, number, program.image, program.prefix
        self.name = f"{self.prefix}_cluster_{number}"
        self.acts = [self.act(it) for it in program.actors.acts[number]]
        self.writers = {}
        for at, it in enumerate(self.acts):
            self.writers.setdefault(self.written(it), []).append(at)
        live = self.needed()
        done = {it.signal for it in self.acts if it.word == "do"}
        self.outputs = [it for it in program.outputs() if it in done]
        self.partial = [it for it in self.outputs if all(self.acts[at].guard != 1 for at in self.writers[it])]
        self.here_words = [f"here {it}" for it in range((len(self.partial) + BITS - 1) // BITS)]
        self.acts = [it for at, it in enumerate(self.acts) if at in live]
        self.acts += self.last_acts()
        self.names = Names(self.prefix)
        self.names.taken.update(OWN)
        self.spelled = self.spellings()
        self.memories = {it.operation.fields[1]: self.names.fresh(f"{self.spelled[it.signal]}_memory") for it in self.acts if it.word == "do" and it.operation.kind == "DelayRead"}
        self.kept, self.asked = self.kept_variables(), {key for it in self.acts for key in self.reads(it)}
        self.locals, self.text, self.named = {}, Text(), {}
        self.helpers = set()
        self.write()

    # What is done.

    def act(self, it):
        operation = self.program.operations[it.operation]
        return Act(it.word, operation.guard, operation, it.stream, operation.target)

    def written(self, it):
        """The signal that an act gives a value."""
        return it.signal if it.word in ("do", "get") else None

    def is_event(self, signal):
        return self.image.signals[signal].kind == "event"

    def conditions(self, guard):
        return self.program.conditions_of(guard)

    def sources(self, it):
        """The signals whose values an act reads, but events, which have none."""
        if it.word == "put":
            found = [it.signal]
        elif it.word != "do":
            found = []
        elif it.operation.kind == "Fun":
            found = [operand.signal for operand in it.operation.fields[2] if operand.signal is not None]
        else:
            found = [it.operation.fields[1]] if it.operation.kind in ("Copy", "Store") else []
        return [signal for signal in found if not self.is_event(signal)]

    def needed(self):
        """The places of the acts that have to be done: those that pass something, may fail or give an output, and what these read."""
        todo = [at for at, it in enumerate(self.acts) if it.word != "do" or fates.ends_of(it.operation) or it.signal in self.program.outputs()]
        live = set()
        while todo:
            at = todo.pop()
            if at not in live:
                live.add(at)
                todo += self.needed_by(self.acts[at])
        return live

    def needed_by(self, it):
        found = [at for signal in (*self.sources(it), *self.conditions(it.guard)) for at in self.writers.get(signal, [])]
        if it.word == "do" and it.operation.kind == "DelayRead":
            found += [at for at, other in enumerate(self.acts) if other.word == "do" and other.operation.kind == "Store" and other.operation.fields[0] == it.operation.fields[1]]
        return found

    def last_acts(self):
        """What a cluster does once its operations are done: the report, the collector's word, and outputs that it gives itself."""
        actors, found = self.program.actors, []
        if actors.reports:
            stream = actors.reports[self.number]
            if not self.program.is_local:
                found += [Act("here", stream=stream, signal=it) for it in range(0, len(self.partial), BITS)]
                found += [Act("output", stream=stream, signal=it) for it in self.outputs if not self.is_event(it)]
            found = found or [Act("report", stream=stream)]
        if actors.words:
            found.append(Act("word", stream=actors.words[self.number]))
        if self.program.is_local:
            found += [Act("give", signal=it) for it in self.outputs]
        return found

    # Variables.

    def here(self, signal):
        """The variable and the bit that tell whether an output comes; None where it always does."""
        if signal not in self.partial:
            return None
        word, bit = divmod(self.partial.index(signal), BITS)
        return self.here_words[word], bit

    def reads(self, it):
        """The variables that an act reads."""
        found = {*self.sources(it), *self.conditions(it.guard)}
        if it.word in ("output", "give"):
            here = self.here(it.signal)
            found |= ({here[0]} if here else set()) | (set() if self.is_event(it.signal) else {it.signal})
        return found | ({self.here_words[it.signal // BITS]} if it.word == "here" else set())

    def kept_variables(self):
        """The variables that are given a value before a place of waiting, and read there or behind it."""
        last, given, kept = self.last_reads(), set(self.here_words), set()
        for at, it in enumerate(self.acts):
            if it.word not in ("do", "give"):
                kept |= {key for key in given if last.get(key, -1) >= at}
            if self.written(it) is not None:
                given.add(self.written(it))
        return kept

    def last_reads(self):
        """The place of the last act that reads each variable."""
        last = {}
        for at, it in enumerate(self.acts):
            last |= dict.fromkeys(self.reads(it), at)
        return last

    def spellings(self):
        """A name of C for each signal that the cluster knows, those of the program first."""
        known = {it.signal for it in self.acts if it.word in ("do", "get") and it.signal is not None}
        found = {}
        for signal in sorted(known, key=lambda it: (is_intermediate(self.image.signals[it].name), it)):
            copy, _, own = self.image.signals[signal].name.rpartition(".")
            word = ("is_" if self.image.signals[signal].kind == "boolean" else "at_") if own.startswith("#") else ""
            found[signal] = self.names.fresh(f"{copy}_{word}{own.lstrip('#')}" if copy else f"{word}{own.lstrip('#')}")
        return found | {it: self.names.fresh(it.replace(" ", "_")) for it in self.here_words}

    def kind(self, key):
        is_item = isinstance(key, str) or self.image.signals[key].kind == "integer"
        return "int64_t" if is_item else "int"

    def place_of(self, key):
        """Where a variable is: a field of the state, or a variable of the step."""
        if key in self.kept:
            return f"state->{self.spelled[key]}"
        self.locals[self.spelled[key]] = self.kind(key)
        return self.spelled[key]

    def value(self, signal):
        return expressions.constant(1) if self.is_event(signal) else expressions.variable(self.place_of(signal), self.kind(signal))

    def operand(self, it):
        return expressions.constant(it.value) if it.signal is None else self.value(it.signal)

    def state(self):
        """The fields of the state with their types and what they are at first."""
        found = {self.spelled[key]: (self.kind(key), "0") for key in self.spelled if key in self.kept}
        for memory, name in self.memories.items():
            it = self.image.memories[memory]
            found[name] = "int64_t" if it.kind == "integer" else "int", expressions.constant(it.init).text
        return found

    # Text.

    def write(self):
        for it in self.here_words:
            self.text.line(f"{self.place_of(it)} = 0;")
        for guard, acts in itertools.groupby(self.acts, lambda it: it.guard):
            self.group(guard, list(acts))
        if self.text.places:
            self.text.line("state->place = 0;")
        self.text.line(f"return {self.prefix}_DONE;")

    def group(self, guard, acts):
        """Acts in a row under one guard."""
        if guard == 0:
            return
        if guard != 1:
            self.text.open(f"if ({self.guard(guard).text}) {{")
        for it in acts:
            getattr(self, f"write_{it.word}")(it)
        if guard != 1:
            self.text.close()

    def guard(self, guard):
        """A guard as an expression; of a long one the parts that stand in it more than once, or are long, get names."""
        self.named = {}
        if self.program.size_of(guard) > LONGEST:
            for node in self.program.parts_of(guard, LONGEST):
                name, value = self.names.fresh(f"when_{len(self.locals) + 1}"), self.choice(node)
                self.locals[name] = "int"
                self.text.line(f"{name} = {value.text};")
                self.named[node] = expressions.variable(name, "int")
        return self.choice(guard)

    def choice(self, guard):
        """A node as an expression: the condition, and what is asked where it is false and true."""
        if guard < 2:
            return expressions.constant(guard)
        if guard in self.named:
            return self.named[guard]
        it = self.image.nodes[guard - 2]
        test, low, high = self.value(self.image.conditions[it.condition]), self.choice(it.low), self.choice(it.high)
        if low.constant == 0:
            return expressions.conjunction([test, high])
        if high.constant == 0:
            return expressions.conjunction([expressions.negation(test), low])
        if high.constant == 1:
            return expressions.disjunction([test, low])
        if low.constant == 1:
            return expressions.disjunction([expressions.negation(test), high])
        return expressions.choice(test, high, low)

    def fail(self, test, it, what):
        """Ends the step where a test holds."""
        if test.constant == 0:
            return
        number = self.program.fates.numbers[it.operation.number, what]
        self.text.open(f"if ({test.text}) {{")
        self.text.line(f"return {number};")
        self.text.close()

    def write_do(self, it):
        if it.operation.kind == "DelayRead" and it.signal not in self.asked:
            return
        self.text.line(f"/* {self.program.comment(it.operation)} */")
        getattr(self, f"do_{it.operation.kind}")(it)
        here = self.here(it.signal)
        if here:
            name = self.place_of(here[0])
            self.text.line(f"{name} |= {1 << here[1]};")

    def assign(self, signal, value):
        if not self.is_event(signal) and signal in self.asked:
            self.text.line(f"{self.place_of(signal)} = {value.text};")

    def do_Read(self, it):
        value = "" if self.is_event(it.signal) else f", &{self.place_of(it.signal)}"
        call = f"!r_{self.prefix}_{self.image.signals[it.signal].name}(context{value})"
        self.fail(expressions.Value(call, expressions.UNARY), it, fates.EXHAUSTED)

    def do_Copy(self, it):
        self.assign(it.signal, self.value(it.operation.fields[1]))

    def do_Const(self, it):
        self.assign(it.signal, expressions.constant(it.operation.fields[1]))

    def do_DelayRead(self, it):
        self.assign(it.signal, expressions.variable(f"state->{self.memories[it.operation.fields[1]]}"))

    def do_Store(self, it):
        memory, source = it.operation.fields
        if memory in self.memories:
            self.text.line(f"state->{self.memories[memory]} = {self.value(source).text};")

    def do_Fun(self, it):
        _, name, operands = it.operation.fields
        values = [self.operand(operand) for operand in operands]
        if name in CHECKED:
            self.helpers.add(CHECKED[name])
            self.fail(expressions.Value(f"{CHECKED[name]}({', '.join(value.text for value in values)}, &{self.place_of(it.signal)})", expressions.ATOM), it, fates.OVERFLOW)
        elif name in ("Div", "Mod"):
            self.divide(it, name, *values)
        else:
            are_truths = any(operand.signal is not None and self.image.signals[operand.signal].kind != "integer" for operand in operands)
            self.assign(it.signal, expressions.function(name, values, are_truths))

    def divide(self, it, name, first, second):
        """A quotient or a remainder: its divisor is not 0, and the quotient of the least integer and -1 is too large."""
        zero, minus, least = (expressions.constant(value) for value in (0, -1, expressions.LEAST))
        none, is_unit = expressions.compared("Eq", second, zero), expressions.compared("Eq", second, minus)
        self.fail(none, it, fates.DIVISION)
        if name == "Div":
            self.fail(expressions.conjunction([is_unit, expressions.compared("Eq", first, least)]), it, fates.OVERFLOW)
        if none.constant:
            return
        value = expressions.reckoned(name, [first, second], "int64_t")
        self.assign(it.signal, expressions.choice(is_unit, zero, value) if name == "Mod" else value)

    def write_get(self, it):
        self.text.line(f"/* {self.image.signals[it.signal].name}, from cluster {self.program.actors.streams[it.stream].writer} */")
        self.text.wait(f"get_{self.prefix}(context, {it.stream}, &item)", self.prefix)
        self.locals["item"] = "int64_t"
        self.assign(it.signal, expressions.variable("(int)item" if self.kind(it.signal) == "int" else "item"))

    def write_put(self, it):
        self.text.line(f"/* {self.image.signals[it.signal].name}, to cluster {self.program.actors.streams[it.stream].reader} */")
        self.text.wait(f"put_{self.prefix}(context, {it.stream}, {self.value(it.signal).text})", self.prefix)

    def write_here(self, it):
        self.text.line("/* which outputs come */")
        self.text.wait(f"put_{self.prefix}(context, {it.stream}, {self.place_of(self.here_words[it.signal // BITS])})", self.prefix)

    def write_output(self, it):
        self.where_it_comes(it, lambda: self.text.wait(f"put_{self.prefix}(context, {it.stream}, {self.value(it.signal).text})", self.prefix))

    def write_report(self, it):
        self.text.line("/* the instant is done */")
        self.text.wait(f"put_{self.prefix}(context, {it.stream}, 0)", self.prefix)

    def write_word(self, it):
        self.text.line("/* the instant is done everywhere */")
        self.text.wait(f"get_{self.prefix}(context, {it.stream}, &item)", self.prefix)
        self.locals["item"] = "int64_t"

    def write_give(self, it):
        value = "" if self.is_event(it.signal) else f", {self.value(it.signal).text}"
        self.where_it_comes(it, lambda: self.text.line(f"w_{self.prefix}_{self.image.signals[it.signal].name}(context{value});"))

    def where_it_comes(self, it, write):
        """Writes something about an output, to be done where it comes."""
        here = self.here(it.signal)
        if here:
            self.text.open(f"if ({self.place_of(here[0])} & {1 << here[1]}) {{")
        write()
        if here:
            self.text.close()
