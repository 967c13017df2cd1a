"""What a condition that is forced is, in the names of the program: which of its truths could never be, and the circle that it stands in."""
import re

from sigc.read.syntax import Reader, source_of, truncated, walk
from sigc.why.circles import breakers, circles_of, made_of
from sigc.why.reaction_clauses import Reactions


def forced_lines(reader: Reader, name: str) -> list[str]:
    """Lines about a condition that sigc names, as BUTTON, COUNT#1.R or #10:51; none where it is not found."""
    process, condition, key = condition_of(reader, name)
    if process is None:
        return []
    shown = truncated(condition if isinstance(condition, str) else source_of(reader.text, condition))
    truth = truth_left(process, key)
    said = f"by the equations `{shown}` could never be {truth} here" if truth else f"the equations leave `{shown}` only one of its two truths"
    return [said, *circle_lines(process, {key} if isinstance(condition, str) else set(made_of(condition, {})), key)]


def condition_of(reader, name):
    """The process of a condition, the condition as a name or an expression, and the key of its variables; None where it is not found."""
    found = re.search(r"#(\d+):(\d+)$", name)
    if not found:
        copy, _, own = name.rpartition(".")
        process = next((it for it in reader.processes if not copy or it.name.text == copy.partition("#")[0]), None)
        return (process, own, own) if process and process.declaration(own) else (None, None, None)
    line, col = map(int, found.groups())
    for process in reader.processes:
        nodes = (node for equation in process.equations for whole in equation.expressions() for node in walk(whole))
        for node in nodes:
            if node.parts and (node.at.line, node.at.col) == (line, col):
                return process, node, node.at
    return None, None, None


def truth_left(process, key):
    """Which truth a condition could never have; None where that was not found."""
    reactions = Reactions(process)
    if key not in reactions.truth:
        return None
    for word, sign in (("false", -1), ("true", 1)):
        if reactions.refuted(reactions.comes[key], sign * reactions.truth[key]) is not None:
            return word
    return None


def circle_lines(process, names, key):
    """The circle within one instant that has to do with a condition, in words."""
    circles = circles_of(process)
    near = [it for it in circles if names & it.names] or [it for it in circles if key in needs_of(process, it)]
    if not near:
        return []
    way = near[0].way
    if len(way) == 2:
        return [f"within one instant {way[0]} is computed from itself; the value before is `{way[0]} $ init ..`"]
    steps = [f"{one} from {other}" for one, other in zip(way[1:], way[2:])]
    before = (breakers(process, near[0]) or [way])[0][0]
    return [f"within one instant {way[0]} is computed from {way[1]}, {', '.join(steps[:-1])}{', ' if steps[:-1] else ''}and {steps[-1]}: a circle, which `{before} $ init ..` for {before} breaks"]


def needs_of(process, circle):
    """The operators in the equations of a circle."""
    equations = (it for it in process.equations if it.form == "definition" and it.lefts[0].text in circle.names)
    return {node.at for it in equations for node in walk(it.right)}
