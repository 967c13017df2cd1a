"""Reads images, the files that `sigc build` writes and `sigc exec` runs. docs/formats.md has their layout.

The reader is one of its own: it names the same first broken byte as sigc, and says what it wanted there.
"""
from typing import NamedTuple

MAGIC = b"SIGIMG01"
MOST_BYTES = 67_108_864
COUNTS = ("signals", "inputs", "outputs", "conditions", "memories", "nodes", "operations")
LIMITS = {"signals": 512, "conditions": 512, "memories": 512, "nodes": 8_000_000, "operations": 4_096}
LONGEST_NAME = 1_048_576
KINDS = ("integer", "boolean", "event")
OPERATIONS = ("Read", "Fun", "Copy", "Const", "DelayRead", "Store")
FUNCTIONS = ("Id", "Neg", "Not", "And", "Or", "Xor", "Eq", "Ne", "Lt", "Le", "Gt", "Ge", "Add", "Sub", "Mul", "Div", "Mod")
SINGLE = ("Id", "Neg", "Not")
# what the operands of a function are, and what it gives; None where that is said of its operands together
SORTS = dict.fromkeys(("Neg", "Add", "Sub", "Mul", "Div", "Mod"), ("integer", "integer"))
SORTS |= dict.fromkeys(("Lt", "Le", "Gt", "Ge"), ("integer", "truth"))
SORTS |= dict.fromkeys(("Not", "And", "Or", "Xor"), ("truth", "truth"))
SORTS |= dict.fromkeys(("Eq", "Ne"), (None, "truth"))


class Broken(Exception):
    """The bytes are no image: where the first broken field begins, and what is wanted there."""

    def __init__(self, at, why):
        super().__init__(f"bad image at byte {at}: {why}")
        self.at = at
        self.why = why


class Signal(NamedTuple):
    kind: str
    name: str


class Memory(NamedTuple):
    kind: str
    init: int


class Node(NamedTuple):
    """A condition by its number, and the children where it is false and where it is true: 0 is false, 1 is true, n + 2 is node n."""

    condition: int
    low: int
    high: int


class Operand(NamedTuple):
    signal: int | None
    value: int | None


class Operation(NamedTuple):
    """What it does, its guard as a child is numbered, its place, and its fields in their order."""

    kind: str
    guard: int
    line: int
    column: int
    fields: tuple


class Image(NamedTuple):
    inputs: int
    outputs: int
    signals: list
    conditions: list
    memories: list
    nodes: list
    operations: list


class Reader:
    """The fields of a file, one after another."""

    def __init__(self, data):
        self.data = data
        self.at = 0

    def take(self, width, what):
        if self.at + width > len(self.data):
            raise Broken(self.at, f"the file ends in {what}")
        begin, self.at = self.at, self.at + width
        return begin, self.data[begin : self.at]

    def number(self, what, width=4, signed=False, good=lambda _: True, wanted=""):
        """A number, which has to be good."""
        begin, taken = self.take(width, what)
        value = int.from_bytes(taken, "big", signed=signed)
        if not good(value):
            raise Broken(begin, f"{what} is {value}{', and ' + wanted if wanted else ''}")
        return value


def has_kind(kind, value):
    """Whether a signal or a memory of this kind may have the value."""
    return kind == "integer" or value == 1 or kind == "boolean" and value == 0


def accepts(target, source):
    """Whether a target of the first kind takes values of the second: its own, and a boolean also events."""
    return target == source or (target, source) == ("boolean", "event")


def image_of(data):
    """The image that the bytes are; Broken where they are none."""
    if len(data) > MOST_BYTES:
        raise Broken(MOST_BYTES, f"the file is longer than {MOST_BYTES} bytes")
    it = Reader(data)
    _, magic = it.take(len(MAGIC), "the text SIGIMG01")
    if magic != MAGIC:
        raise Broken(0, "the file does not begin with SIGIMG01")
    counts = counts_of(it)
    signals = signals_of(it, counts)
    conditions = conditions_of(it, counts, signals)
    memories = [memory_of(it) for _ in range(counts["memories"])]
    nodes = nodes_of(it, counts)
    operations = [operation_of(it, counts, signals, memories) for _ in range(counts["operations"])]
    if it.at < len(data):
        raise Broken(it.at, "there are bytes behind the last operation")
    return Image(counts["inputs"], counts["outputs"], signals, conditions, memories, nodes, operations)


def counts_of(it):
    counts = {}
    for name in COUNTS:
        good, wanted = count_rule(name, counts)
        counts[name] = it.number(f"the number of {name}", good=good, wanted=wanted)
    return counts


def count_rule(name, counts):
    """What a count may be, behind those before it; too many inputs show at the outputs."""
    if name == "inputs":
        return lambda n: True, ""
    if name == "outputs":
        return lambda n: counts["inputs"] + n <= counts["signals"], "inputs and outputs are at most the signals"
    return lambda n: n <= LIMITS[name], f"may be at most {LIMITS[name]}"


def signals_of(it, counts):
    signals, taken = [], set()
    for place in range(counts["signals"]):
        kind = KINDS[it.number("a signal's kind", 1, good=lambda n: n < 3, wanted="is 0, 1 or 2")]
        length = it.number("the length of a name", good=lambda n: 1 <= n <= LONGEST_NAME, wanted=f"is 1 to {LONGEST_NAME}")
        begin, name = it.take(length, "a name")
        if not all(32 < byte < 127 for byte in name):
            raise Broken(begin, "a name is printable ASCII without blanks")
        if place < counts["inputs"]:
            if name in taken:
                raise Broken(begin, f"the input {name.decode()} stands there twice")
            taken.add(name)
        signals.append(Signal(kind, name.decode()))
    return signals


def conditions_of(it, counts, signals):
    conditions = []
    for _ in range(counts["conditions"]):
        good = lambda n: n < len(signals) and signals[n].kind == "boolean" and n not in conditions
        conditions.append(it.number("a condition", good=good, wanted="is a boolean that is none of the conditions before"))
    return conditions


def memory_of(it):
    kind = KINDS[it.number("a memory's kind", 1, good=lambda n: n < 2, wanted="is 0 or 1")]
    return Memory(kind, it.number("what a memory has at first", 8, True, lambda v: has_kind(kind, v), f"is of kind {kind}"))


def nodes_of(it, counts):
    nodes, known = [], set()
    for _ in range(counts["nodes"]):
        condition = it.number("a node's condition", good=lambda n: n < counts["conditions"], wanted="is below their number")
        child = lambda n: n < 2 or n - 2 < len(nodes) and nodes[n - 2].condition > condition
        low = it.number("a node's child for false", good=child, wanted="is a constant or an earlier node of a greater condition")
        other = lambda n: child(n) and n != low and Node(condition, low, n) not in known
        high = it.number("a node's child for true", good=other, wanted="is as the other child is, another one, and the node is none before")
        nodes.append(Node(condition, low, high))
        known.add(nodes[-1])
    return nodes


def operation_of(it, counts, signals, memories):
    kind = OPERATIONS[it.number("an operation's kind", 1, good=lambda n: n < len(OPERATIONS), wanted="is 0 to 5")]
    guard = it.number("a guard", good=lambda n: n < counts["nodes"] + 2, wanted="is a constant or a node")
    line, column = it.number("a line"), it.number("a column")
    return Operation(kind, guard, line, column, FIELDS[kind](it, counts, signals, memories))


def signal_number(it, what, signals, fits=lambda _: True, wanted=""):
    good = lambda n: n < len(signals) and fits(signals[n].kind)
    return it.number(what, good=good, wanted=wanted or "is below the number of signals")


def read_fields(it, counts, signals, memories):
    return (it.number("an input", good=lambda n: n < counts["inputs"], wanted="is below the number of inputs"),)


def copy_fields(it, counts, signals, memories):
    target = signal_number(it, "a target", signals)
    kind = signals[target].kind
    return target, signal_number(it, "a source", signals, lambda other: accepts(kind, other), f"fits a target of kind {kind}")


def constant_fields(it, counts, signals, memories):
    target = signal_number(it, "a target", signals)
    kind = signals[target].kind
    return target, it.number("a constant", 8, True, lambda v: has_kind(kind, v), f"is of kind {kind}")


def memory_number(it, memories, good=lambda _: True, wanted="is below the number of memories"):
    return it.number("a memory", good=lambda n: n < len(memories) and good(memories[n].kind), wanted=wanted)


def delay_fields(it, counts, signals, memories):
    target = signal_number(it, "a target", signals)
    kind = signals[target].kind
    return target, memory_number(it, memories, lambda other: other == kind, f"is of kind {kind}")


def store_fields(it, counts, signals, memories):
    memory = memory_number(it, memories)
    kind = memories[memory].kind
    return memory, signal_number(it, "a source", signals, lambda other: accepts(kind, other), f"fits a memory of kind {kind}")


def function_fields(it, counts, signals, memories):
    target = signal_number(it, "a target", signals)
    kind = signals[target].kind
    good = lambda n: n < len(FUNCTIONS) and (FUNCTIONS[n] == "Id" or fits_target(kind, SORTS[FUNCTIONS[n]][1]))
    function = FUNCTIONS[it.number("a function", 1, good=good, wanted=f"gives values for a target of kind {kind}")]
    wanted = 1 if function in SINGLE else 2
    it.number("the number of operands", 1, good=lambda n: n == wanted, wanted=f"is {wanted} for {function}")
    operands = []
    for place in range(wanted):
        operands.append(operand_of(it, function, kind, operands, place + 1 == wanted, signals))
    return target, function, tuple(operands)


def fits_target(kind, sort):
    return kind == ("integer" if sort == "integer" else "boolean")


def operand_of(it, function, target, before, is_last, signals):
    alone = is_last and all(operand.signal is None for operand in before)
    tag = it.number("an operand's first byte", 1, good=lambda n: n == 0 or n == 1 and not alone, wanted="is 0 for a signal, which one operand has to be" if alone else "is 0 for a signal or 1 for a constant")
    if tag == 0:
        fits = lambda kind: signal_fits(function, target, before, kind, signals)
        return Operand(signal_number(it, "an operand", signals, fits, f"is of a kind that {function} takes there"), None)
    fits = lambda value: constant_fits(function, target, before, value, signals)
    return Operand(None, it.number("a constant", 8, True, fits, f"is of a kind that {function} takes there"))


def signal_fits(function, target, before, kind, signals):
    """Whether a signal of this kind may be the next operand."""
    if function == "Id":
        return accepts(target, kind)
    sort = SORTS[function][0]
    if sort is None and before:
        first = before[0]
        if first.signal is None:
            return kind == "integer" or first.value in (0, 1)
        return (signals[first.signal].kind == "integer") == (kind == "integer")
    return sort is None or (kind == "integer") == (sort == "integer")


def constant_fits(function, target, before, value, signals):
    sort = SORTS.get(function, (None, None))[0]
    if sort is None and before and before[0].signal is not None:
        sort = "integer" if signals[before[0].signal].kind == "integer" else "truth"
    return sort != "truth" or value in (0, 1)


FIELDS = {
    "Read": read_fields,
    "Fun": function_fields,
    "Copy": copy_fields,
    "Const": constant_fields,
    "DelayRead": delay_fields,
    "Store": store_fields,
}
