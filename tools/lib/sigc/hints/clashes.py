"""Kinds that clash: of an operator's operands, and of the two sides of a definition."""
from sigc.hints.clock_hints import of_events
from sigc.hints.near_words import Hint
from sigc.read.editing import of_kind, Edit
from sigc.read.signal_kinds import kind_of

PRIMARIES = ("name", "number", "truth", "^")


def bracketed(text, node):
    source = text[node.start : node.end]
    return source if node.op in PRIMARIES or is_bracketed(text, node) else f"({source})"


def is_bracketed(text, node):
    return text[: node.start].rstrip().endswith("(") and text[node.end :].lstrip().startswith(")")


def of_operands(text, node, kinds):
    """An operator whose operands have other kinds than it wants."""
    given = [kind_of(it, kinds) for it in node.parts]
    said = f"`{node.at.text}` of " + " and ".join(str(it or "no kind") for it in given)
    if node.op in ("when", "at", "cell") and given[-1] == "integer":
        asked = node.parts[-1]
        edit = Edit(asked.start, asked.end, f"({bracketed(text, asked)} /= 0)" if not is_bracketed(text, asked) else f"{text[asked.start:asked.end]} /= 0")
        return [Hint([said, "a condition is a boolean or an event: a comparison, as `X /= 0`"], "types-clash", [edit])]
    if set(given) == {"integer", "boolean"} and node.op not in ("and", "or", "xor"):
        truth = node.parts[given.index("boolean")]
        source = bracketed(text, truth)
        edit = Edit(truth.start, truth.end, f"((1 when {source}) default (0 when ^{source}))")
        return [Hint([said, "a boolean as a number is `(1 when B) default (0 when ^B)`"], "types-clash", [edit])]
    return [Hint([said])]


def of_sides(reader, process, equation, kinds):
    """A definition whose sides have other kinds."""
    name, right = equation.lefts[0].text, kind_of(equation.right, kinds)
    left, declaration = kinds.get(name), process.declaration(name)
    said = f"the left side is {left}, and the right side {right}"
    events = of_events(equation.right, kinds) if left == "event" else None
    if events:
        return [Hint([said, *events[0]], *events[1:])]
    found = []
    if (left, right) == ("event", "boolean"):
        source = bracketed(reader.text, equation.right)
        edit = Edit(equation.right.start, equation.right.end, f"when {source}")
        found.append(Hint([said, f"where it is true is `when {source}`"], "types-clash", [edit]))
    if right and declaration and declaration.role != "input":
        found.append(Hint([said, f"declare {name} as {right}"], "types-clash", of_kind(process, declaration, right)))
    return [*found, Hint([said])]
