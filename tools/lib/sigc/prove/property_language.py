"""Properties: expressions of the language over the signals of a program, those of copies too (`STOP#1.HERE`).

A property is read, its kinds are looked at, and it is evaluated on the instants of a trace. What an expression is at an
instant is what docs/meaning.md says: absent, or a value. Where a function's operands do not come together, the
expression ties their clocks, which no property may; where its own arithmetic leaves 64 bits it has no value.
"""
import re
from typing import NamedTuple

from sigc.read import signal_kinds, syntax

MOST = 2**63 - 1
LEAST = -(2**63)
COPY_NAME = re.compile(r"[A-Za-z][A-Za-z0-9_]*(?:#[0-9]+\.[A-Za-z][A-Za-z0-9_]*)+")
CLOCKS = ("^", "at", *syntax.CLOCK_MARKS)


class Absent:
    """What stands for no value."""


ABSENT = Absent()


class NoValue(Exception):
    """A result outside 64 bits, or a division by zero."""


class Tied(Exception):
    """A function of which one operand is there and another is not."""

    def __init__(self, node):
        super().__init__(node)
        self.node = node


class Wrong(Exception):
    """The text is no property of this program: why."""


class Property(NamedTuple):
    """An expression with its text, its kind, and the names that stand for those of copies."""

    text: str
    node: object
    kind: str
    kinds: dict
    names: dict

    def signals(self):
        """The signals that it names, in their order there."""
        found = [self.names.get(it.at.text, it.at.text) for it in syntax.walk(self.node) if it.op == "name"]
        return list(dict.fromkeys(found))

    def told(self, node):
        """An expression inside it as it was written."""
        text = syntax.source_of(self.text, node)
        for plain, name in self.names.items():
            text = re.sub(rf"\b{plain}\b", name, text)
        return text


def property_of(text, kinds):
    """The property that a text is, over signals of these kinds; Wrong where it is none."""
    names = {}

    def plain(found):
        for made, name in names.items():
            if name == found[0]:
                return made
        made = re.sub(r"[#.]", "_", found[0])
        while made in kinds or made in names:
            made += "_"
        names[made] = found[0]
        return made

    spelled = COPY_NAME.sub(plain, text)
    reader = syntax.Reader(spelled)
    try:
        node = reader.expression()
        if reader.here().kind != "end":
            reader.stop()
    except syntax.Stop as it:
        found = it.fault.found
        wanted = ", ".join(it.fault.wanted[:6])
        raise Wrong(f"`{text}`: {'the end' if found.kind == 'end' else f'`{found.text}`'} stands where {wanted} is wanted") from None
    if reader.strange:
        raise Wrong(f"`{text}`: no token begins at its byte {reader.strange[0] + 1}")
    all_kinds = {**kinds, **{plain: kinds.get(name) for plain, name in names.items()}}
    for it in syntax.walk(node):
        if it.op == "name" and all_kinds.get(it.at.text) is None:
            raise Wrong(f"`{text}`: {names.get(it.at.text, it.at.text)} is no signal of the program")
    made = Property(spelled, node, signal_kinds.kind_of(node, all_kinds), all_kinds, names)
    check(made, node)
    return made


def check(it, node):
    """Wrong where the kinds of operands do not fit, or a delay has no init."""
    for part in node.parts:
        check(it, part)
    kinds = [signal_kinds.kind_of(part, it.kinds) for part in node.parts]
    is_truth = [kind != "integer" for kind in kinds]
    if node.op in (*syntax.SUMS, *syntax.PRODUCTS, "neg", "<", "<=", ">", ">=") and any(is_truth):
        raise Wrong(f"`{it.told(node)}` asks for integers")
    if node.op in ("and", "or", "xor", "not", "at") and not all(is_truth):
        raise Wrong(f"`{it.told(node)}` asks for truths")
    if node.op in ("when", "cell") and not is_truth[1]:
        raise Wrong(f"`{it.told(node)}`: what stands behind `{node.op}` is a truth")
    if node.op in ("=", "/=", "default") and is_truth[0] != is_truth[1]:
        raise Wrong(f"`{it.told(node)}`: an integer stands beside a truth")
    if node.op in ("$", "cell"):
        check_init(it, node, is_truth[0])
    if node.op in ("$", "cell", "default") and any(is_constant(part) for part in node.parts[:2 if node.op == "default" else 1]):
        raise Wrong(f"`{it.told(node)}`: a constant alone has no clock")
    is_function = node.op not in ("when", "default", "$", "cell", *CLOCKS)
    if is_function and node.parts and all(map(is_constant, node.parts)) and not is_constant(node):
        raise Wrong(f"`{it.told(node)}`: constants alone have no clock; write the value that this has")
    if node.op == "number" and int(node.at.text) > MOST:
        raise Wrong(f"{node.at.text} has more than 64 bits")


def check_init(it, node, is_truth):
    """Wrong where what a delay or a cell begins with is missing, or no constant of its kind."""
    if not node.init:
        raise Wrong(f"`{it.told(node)}`: what it begins with is wanted here, as `{node.op} .. init {'false' if is_truth else '0'}`")
    text = "".join(piece.text for piece in node.init)
    if is_truth != (text in ("true", "false")) or not is_truth and (not text.lstrip("-").isdigit() or not LEAST <= int(text) <= MOST):
        raise Wrong(f"`{it.told(node)}`: what it begins with is {'true or false' if is_truth else 'a number of 64 bits'}, and not {text}")


def is_constant(node):
    return node.op in ("number", "truth") or node.op == "neg" and node.parts[0].op == "number"


def constant_in(pieces):
    """The value that the words behind `init` are."""
    text = "".join(it.text for it in pieces)
    return {"true": 1, "false": 0}[text] if text in ("true", "false") else int(text)


def within(value):
    if not LEAST <= value <= MOST:
        raise NoValue
    return value


def quotient(a, b):
    """Toward zero."""
    if b == 0:
        raise NoValue
    whole = abs(a) // abs(b)
    return whole if (a < 0) == (b < 0) else -whole


FUNCTIONS = {
    "+": lambda a, b: within(a + b),
    "-": lambda a, b: within(a - b),
    "*": lambda a, b: within(a * b),
    "/": lambda a, b: within(quotient(a, b)),
    "modulo": lambda a, b: a - quotient(a, b) * b,
    "neg": lambda a: within(-a),
    "not": lambda a: 1 - a,
    "and": lambda a, b: a & b,
    "or": lambda a, b: a | b,
    "xor": lambda a, b: a ^ b,
    "=": lambda a, b: int(a == b),
    "/=": lambda a, b: int(a != b),
    "<": lambda a, b: int(a < b),
    "<=": lambda a, b: int(a <= b),
    ">": lambda a, b: int(a > b),
    ">=": lambda a, b: int(a >= b),
}


class Watched:
    """A property along the instants of a trace: what its delays and cells hold is kept from one to the next."""

    def __init__(self, it):
        self.property, self.tied = it, None
        self.held = {id(node): constant_in(node.init) for node in syntax.walk(it.node) if node.op in ("$", "cell")}

    def at(self, instant):
        """What the property is at an instant, a map from the names of what is present to values: ABSENT or a value.

        NoValue where its arithmetic leaves 64 bits, else Tied where operands do not come together. Each instant is asked for once.
        """
        following, self.tied = {}, None
        try:
            value = self.value(self.property.node, instant, following)
        finally:
            self.held.update(following)
        if self.tied is not None:
            raise Tied(self.tied)
        return value

    def value(self, node, instant, following):
        if node.op == "name":
            return instant.get(self.property.names.get(node.at.text, node.at.text), ABSENT)
        if node.op in ("number", "truth"):
            return constant_in([node.at])
        parts = [self.value(it, instant, following) for it in node.parts]
        if node.op in CLOCKS:
            return clock_of(node.op, parts)
        if node.op == "when":
            return parts[0] if parts[1] is not ABSENT and parts[1] == 1 else ABSENT
        if node.op == "default":
            return parts[1] if parts[0] is ABSENT else parts[0]
        if node.op == "$":
            if parts[0] is not ABSENT:
                following[id(node)] = parts[0]
                return self.held[id(node)]
            return ABSENT
        if node.op == "cell":
            if parts[0] is not ABSENT:
                following[id(node)] = parts[0]
                return parts[0]
            return self.held[id(node)] if parts[1] == 1 else ABSENT
        return self.function(node, parts)

    def function(self, node, parts):
        """What a function gives; nothing where its operands do not come together, which is kept in mind."""
        there = [it is not ABSENT for it, part in zip(parts, node.parts) if not is_constant(part)]
        if any(there) and not all(there) and self.tied is None:
            self.tied = node
        return FUNCTIONS[node.op](*parts) if all(there) else ABSENT


def clock_of(op, parts):
    there = [it is not ABSENT for it in parts]
    if op == "at":
        return 1 if parts[0] == 1 else ABSENT
    is_there = {"^": lambda: there[0], "^+": lambda: any(there), "^*": lambda: all(there), "^-": lambda: there[0] and not there[1]}[op]()
    return 1 if is_there else ABSENT


def value_of(text):
    """The value that a word of a trace is."""
    return {"true": 1, "false": 0}[text] if text in ("true", "false") else int(text)


def values_of(instant):
    return {name: value_of(it) for name, it in instant.items()}
