"""Kinds of names that a process does not declare: by their definition, or else by how they are used."""
from sigc.read.signal_kinds import kind_of, kinds_of
from sigc.read.syntax import PRODUCTS, SUMS, walk

NUMBERS = (*SUMS, *PRODUCTS, "neg", "<", "<=", ">", ">=")
TRUTHS = ("and", "or", "xor", "not", "at")


def inferred(reader, process, name):
    """The kind that a name without a declaration has; None where nothing tells."""
    kinds = known_kinds(reader, process)
    return kinds.get(name) or used(reader, process, name, kinds)


def undeclared(reader, process):
    """The names that a process defines and does not declare, each with its kind where that is known."""
    declared, kinds = kinds_of(process), known_kinds(reader, process)
    names = dict.fromkeys(it.text for equation in process.equations for it in equation.lefts if it.text not in declared)
    return {it: kind for it in names if (kind := kinds.get(it) or used(reader, process, it, kinds))}


def known_kinds(reader, process):
    """The kinds of the names of a process, declared or by their definitions."""
    kinds = kinds_of(process)
    for _ in process.equations:
        size = len(kinds)
        for equation in process.equations:
            for left, kind in defined(reader, equation, kinds):
                if kind:
                    kinds.setdefault(left, kind)
        if len(kinds) == size:
            break
    return kinds


def defined(reader, equation, kinds):
    """The left sides of an equation with the kinds of what defines them."""
    if equation.form == "definition":
        yield equation.lefts[0].text, kind_of(equation.right, kinds)
    elif equation.form == "call":
        called = next((it for it in reader.processes if it.name.text == equation.called.text), None)
        yield from ((left.text, it.kind) for left, it in zip(equation.lefts, called.outputs if called else ()))


def used(reader, process, name, kinds):
    for equation in process.equations:
        called = next((it for it in reader.processes if equation.called and it.name.text == equation.called.text), None)
        for argument, it in zip(equation.arguments, called.inputs if called else ()):
            if argument.op == "name" and argument.at.text == name:
                return it.kind
        for node in (it for whole in equation.expressions() for it in walk(whole)):
            kind = by_operator(node, name, kinds) if any(it.op == "name" and it.at.text == name for it in node.parts) else None
            if kind:
                return kind
        if equation.form == "definition" and is_passed_on(equation.right, name):
            return kinds.get(equation.lefts[0].text)
    return None


def by_operator(node, name, kinds):
    """The kind that an operator wants of an operand."""
    if node.op in NUMBERS:
        return "integer"
    is_last = node.parts[-1].op == "name" and node.parts[-1].at.text == name
    if node.op in TRUTHS or node.op in ("when", "cell") and is_last:
        return "boolean"
    if node.op == "$" and node.init:
        return "boolean" if node.init[0].text in ("true", "false") else "integer"
    if node.op in ("=", "/=", "default"):
        others = [kind_of(it, kinds) for it in node.parts if not (it.op == "name" and it.at.text == name)]
        return next((it for it in others if it), None)
    return None


def is_passed_on(node, name):
    """Whether a right side has the kind of a name."""
    while node.op in ("when", "$", "cell"):
        node = node.parts[0]
    return node.op == "name" and node.at.text == name
