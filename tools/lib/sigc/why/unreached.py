"""Parts of expressions that never count: a `when` whose condition is never true, and a side of a `default` that nothing takes."""
from sigc.read.signal_kinds import kind_of
from sigc.read.syntax import source_of, truncated, walk
from sigc.why.loops import definitions
from sigc.why.reaction_clauses import Reactions


def unreached_parts(text, process):
    """The operators with such a part, each with what is wrong in words."""
    reactions = Reactions(process).merge()
    reactions.defined = definitions(process)
    for node in nodes_of(process):
        words = None
        if node.op in ("when", "at"):
            words = never_true(text, node, reactions)
        elif node.op == "default":
            words = never_taken(text, node, reactions)
        if words:
            yield node.at, words


def nodes_of(process):
    return [node for equation in process.equations for whole in equation.expressions() for node in walk(whole)]


def key_of(node, reactions):
    key = node.at.text if node.op == "name" else node.at
    return key if key in reactions.comes else None


def cannot(reactions, *literals):
    return reactions.refuted(*literals, branches=0) is not None


def is_always_false(node, defined):
    """Whether a condition compares something with itself, as a signal with a delay that it is."""
    if node.op == "and":
        return any(is_always_false(it, defined) for it in node.parts)
    return node.op in ("/=", "<", ">") and meaning(node.parts[0], defined) == meaning(node.parts[1], defined)


def meaning(node, defined):
    """What an expression is, written out as far as a name stands for a delay or another name."""
    if node.op == "name":
        right, known = defined.get(node.at.text), {node.at.text}
        while right is not None and right.op == "name" and right.at.text not in known:
            known.add(right.at.text)
            node, right = right, defined.get(right.at.text)
        return meaning(right, {}) if right is not None and right.op == "$" and right.init else node.at.text
    init = "".join(it.text for it in node.init)
    return (node.op if node.parts else node.at.text, init, *(meaning(it, defined) for it in node.parts))


def never_true(text, node, reactions):
    asked = node.parts[-1]
    if is_always_false(asked, reactions.defined):
        return f"`{source_of(text, asked)}` is never true: both sides are the same"
    key = key_of(asked, reactions)
    if key is None or key not in reactions.truth or node.at not in reactions.comes:
        return None
    if asked.op == "not" and kind_of(asked.parts[0], reactions.kinds) == "event":
        event = source_of(text, asked.parts[0])
        return f"`not {event}` is never true: an event is true wherever it is; where it does not come only a boolean tells"
    if cannot(reactions, reactions.comes[key], reactions.truth[key]):
        return f"`{source_of(text, asked)}` is never true"
    if cannot(reactions, reactions.comes[node.at]):
        return f"`{source_of(text, node)}` never comes: its sides never come together"
    return None


def never_taken(text, node, reactions):
    one, other = (key_of(it, reactions) for it in node.parts)
    if one is None or other is None or cannot(reactions, reactions.comes[other]):
        return None
    if cannot(reactions, reactions.comes[other], -reactions.comes[one]):
        first, second = (truncated(source_of(text, it)) for it in node.parts)
        return f"`{second}` is never taken: `{first}` comes wherever it does"
    return None
