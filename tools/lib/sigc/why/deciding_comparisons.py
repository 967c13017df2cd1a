"""The comparisons by which clocks are decided: of two that say the same, only these have to be one."""
from sigc.read.syntax import FUNCTIONS, RELATIONS, Piece, Process, walk
from sigc.why.reaction_clauses import Reactions


def deciding_comparisons(process: Process) -> set[Piece]:
    """The operators of the comparisons of a process by whose truth it is decided when one of its signals comes."""
    reactions, found = Reactions(process).merge(), set()
    for equation in process.equations:
        for whole in equation.expressions():
            found |= {it.at for it in deciding(whole, reactions)}
    return found


def deciding(node, reactions):
    """The comparisons by which it is decided when an expression comes."""
    if node.op in ("when", "at", "cell"):
        yield from (it for it in walk(node.parts[-1]) if it.op in RELATIONS)
    if node.op == "default":
        yield from of_sides(node, reactions)
    elif node.op in (*FUNCTIONS, "$", "^", "when", "at", "cell", "^+", "^*", "^-"):
        for it in node.parts:
            yield from deciding(it, reactions)


def of_sides(node, reactions):
    """Of a default only a side counts that may come where the other one does not."""
    for one, other in (node.parts, node.parts[::-1]):
        if not comes_within(one, other, reactions):
            yield from deciding(one, reactions)


def comes_within(one, other, reactions):
    keys = [it.at.text if it.op == "name" else it.at for it in (one, other)]
    if any(it not in reactions.comes for it in keys):
        return False
    return reactions.refuted(reactions.comes[keys[0]], -reactions.comes[keys[1]], branches=0) is not None
