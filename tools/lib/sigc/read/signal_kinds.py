"""Kinds of expressions, as far as the scripts ask for them: docs/language.md has the table."""
from sigc.read.syntax import CLOCK_MARKS, PRODUCTS, RELATIONS, SUMS

CLOCKS = ("at", "^", *CLOCK_MARKS)


def kinds_of(process):
    """The kinds of a process's signals and parameters by their names."""
    return {it.name.text: it.kind for it in process.names()}


def kind_of(node, kinds):
    """The kind of an expression, None where it has none here."""
    if node.op == "name":
        return kinds.get(node.at.text)
    if node.op == "number" or node.op in (*SUMS, *PRODUCTS, "neg"):
        return "integer"
    if node.op == "truth" or node.op in (*RELATIONS, "and", "or", "xor", "not"):
        return "boolean"
    if node.op in CLOCKS:
        return "event"
    if node.op in ("$", "cell"):
        kind = kind_of(node.parts[0], kinds)
        return "boolean" if kind == "event" else kind
    if node.op == "when":
        return kind_of(node.parts[0], kinds)
    sides = {kind_of(it, kinds) for it in node.parts}
    return sides.pop() if len(sides) == 1 else "integer" if "integer" in sides else "boolean"


def is_integer_comparison(node, kinds):
    """Whether an expression compares integers: a condition of its own, whatever else the program says."""
    return node.op in RELATIONS and "integer" in (kind_of(it, kinds) for it in node.parts)
