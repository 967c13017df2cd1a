"""What is defined or declared twice, and inputs that are defined: where the first one stands, and how both are joined."""
from sigc.hints.near_words import Hint
from sigc.read.editing import without, without_declaration, Edit
from sigc.read.syntax import walk


def twice_hints(reader, line, col, said):
    if said.endswith(" is declared twice"):
        return declared_twice(reader, line, col)
    if said.endswith(" is defined twice"):
        return defined_twice(reader, line, col)
    return input_defined(reader, line, col)


def place(piece):
    return f"{piece.line}:{piece.col}"


def a(role):
    return f"an {role}" if role[0] in "aeio" else f"a {role}"


def defined_twice(reader, line, col):
    for process in reader.processes:
        for second in process.equations:
            left = next((it for it in second.lefts if (it.line, it.col) == (line, col)), None)
            if left:
                first, piece = next((it, other) for it in process.equations for other in it.lefts if other.text == left.text)
                return joined(reader, process, first, second, piece)
    return []


def joined(reader, process, first, second, piece):
    """Two definitions of one signal as one, by `default`."""
    begun = f"its first definition stands at {place(piece)}"
    places = ((piece.line, piece.col, f"{piece.text} is defined here"),)
    if not first.form == second.form == "definition" or second.pieces[0] not in process.body:
        return [Hint([f"{begun}: a signal has one definition, and a result of a call a name of its own"], "", (), places)]
    one, other = (reader.text[it.right.start : it.right.end] for it in (first, second))
    if is_partial(second.right) and not is_partial(first.right):
        one, other, words = other, one, "the one with a condition first"
    else:
        words = "where both come the first counts"
    right = f"{bracketed(one)} default {bracketed(other)}"
    edits = [Edit(first.right.start, first.right.end, right), without(reader.text, process, second)]
    return [
        Hint([f"{begun}: join them by `default`, {words}"], "x-is-defined-twice", edits, places),
        Hint([f"{begun}: a signal has one definition, which says all its cases, as `X default Y`"], "x-is-defined-twice", (), places),
    ]


def is_partial(node):
    """Whether a right side has a condition, other than the clock of a signal."""
    return any(it.op in ("when", "at") and it.parts[-1].op != "^" for it in walk(node))


def bracketed(text):
    return text if text.replace("_", "").isalnum() else f"({text})"


def declared_twice(reader, line, col):
    for process in reader.processes:
        if (process.name.line, process.name.col) == (line, col):
            first = next(it for it in reader.processes if it.name.text == process.name.text)
            return [Hint([f"the process at {place(first.name)} has this name too: processes have one set of names"])]
        names = process.names()
        second = next((it for it in names if (it.name.line, it.name.col) == (line, col)), None)
        if second:
            first = next(it for it in names if it.name.text == second.name.text)
            words = f"{first.name.text} is {a(first.role)}, declared at {place(first.name)}"
            places = ((first.name.line, first.name.col, f"{first.name.text} is declared here"),)
            if second.role == "local":
                edits = [without_declaration(reader.text, process, second)]
                return [Hint([f"{words}, and a local is none of these: take it away here"], "x-is-declared-twice", edits, places), Hint([words], "", (), places)]
            return [Hint([f"{words}: what comes in and what goes out have names of their own"], "", (), places)]
    return []


def input_defined(reader, line, col):
    for process in reader.processes:
        for equation in process.equations:
            left = next((it for it in equation.lefts if (it.line, it.col) == (line, col)), None)
            declared = process.declaration(left.text) if left else None
            if declared and declared.role == "parameter":
                return [Hint([f"{left.text} is a parameter, which calls give: the new value has a name of its own"])]
            if declared:
                return [Hint([f"the values of an input come from outside, and {left.text} is one: the new value has a name of its own, an output or a local"])]
    return []
