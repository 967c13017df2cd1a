"""What is wrong with an init: it is missing, or it is of another kind than its signal."""
from sigc.hints.near_words import Hint
from sigc.read.editing import Edit
from sigc.read.signal_kinds import kind_of, kinds_of
from sigc.read.syntax import source_of, walk

FIRST = {"integer": "0", "boolean": "false", "event": "true"}


def nodes_of(process):
    return [it for equation in process.equations for whole in equation.expressions() for it in walk(whole)]


def no_init_hints(reader, line, col):
    """A delay without its first value."""
    for process in reader.processes:
        for node in nodes_of(process):
            if node.op == "$" and (node.at.line, node.at.col) == (line, col):
                kind = kind_of(node.parts[0], kinds_of(process)) or "integer"
                operand = source_of(reader.text, node.parts[0])
                declared = process.declaration(operand)
                value = "".join(it.text for it in declared.init) if declared and declared.init else FIRST[kind]
                words = f"a delay has a first value, as `{operand} $ init {value}`"
                return [Hint([words], "delay-without-init", [Edit(node.end, node.end, f" init {value}")])]
    return []


def is_at(pieces, line, col):
    return any((it.line, it.col) == (line, col) for it in pieces)


def init_hints(reader, line, col):
    """An init of another kind than its signal, in an expression or in a declaration."""
    for process in reader.processes:
        kinds = kinds_of(process)
        for it in process.signals():
            if is_at(it.init, line, col):
                return [of_kinds(process, it.init, it.name.text, it.kind)]
        for node in nodes_of(process):
            if is_at(node.init, line, col):
                operand = node.parts[0]
                return [of_kinds(process, node.init, source_of(reader.text, operand), kind_of(operand, kinds))]
    return []


def of_kinds(process, init, signal, kind):
    word = "".join(it.text for it in init)
    declared = process.declaration(word)
    if declared and declared.role != "parameter":
        return Hint([f"an init is a constant, and {word} is a signal: a number, `true`, `false` or a parameter"])
    is_truth = word in ("true", "false") or declared and declared.kind == "boolean"
    value = FIRST.get(kind, "0")
    words = f"the init `{word}` is {'boolean' if is_truth else 'integer'}, and {signal} is {kind}: write it as `init {value}`"
    return Hint([words], "types-clash", [Edit(init[0].start, init[-1].end, value)])
