"""The signals of a process that are made of their own past, as counters are, and those of them of which nothing says when they come."""
from typing import NamedTuple

from sigc.read.syntax import FUNCTIONS, walk

ONE_CLOCK = (*FUNCTIONS, "$")


class Loop(NamedTuple):
    """Signals that reach one another over a delay: their names, the one that stands for them, and what they are made of besides."""

    names: set
    name: str
    others: list


def definitions(process):
    return {it.lefts[0].text: it.right for it in process.equations if it.form == "definition" and it.right}


def names_of(node):
    return [it.at.text for it in walk(node) if it.op == "name"]


def reached(graph, name):
    """The names that a name is made of, directly or not."""
    known, rest = set(), list(graph.get(name, ()))
    while rest:
        it = rest.pop()
        if it not in known:
            known.add(it)
            rest += graph.get(it, ())
    return known


def loops(process):
    """The loops of a process, in the order of its equations."""
    defined = definitions(process)
    graph = {name: names_of(right) for name, right in defined.items()}
    below = {name: reached(graph, name) for name in graph}
    found, known = [], set()
    for name in graph:
        names = {it for it in below[name] if name in below.get(it, ())}
        if name in names and name not in known and any(node.op == "$" for it in names for node in walk(defined[it])):
            known |= names
            found.append(Loop(names, first_of(names, defined), others_of(names, defined)))
    return found


def first_of(names, defined):
    """The signal of a loop that is no delay itself."""
    members = [it for it in defined if it in names]
    return next((it for it in members if defined[it].op != "$"), members[0])


def others_of(names, defined):
    """What a loop is made of besides: what is asked by a `when` first."""
    nodes = [node for it in defined if it in names for node in walk(defined[it])]
    asked = [node.parts[-1].at.text for node in nodes if node.op in ("when", "at") and node.parts[-1].op == "name"]
    return [it for it in dict.fromkeys(asked + [node.at.text for node in nodes if node.op == "name"]) if it not in names]


def together(node):
    """The names that come together with an expression, as far as it shows them."""
    if node.op == "name":
        return {node.at.text}
    if node.op in (*ONE_CLOCK, "^"):
        return set().union(*(together(it) for it in node.parts))
    return set()


def groups_of(process):
    """Sets of signals that come together."""
    found = []
    for equation in process.equations:
        for whole in equation.expressions():
            found += [together(node) for node in walk(whole) if node.op in ONE_CLOCK]
        if equation.form == "definition" and equation.right.op in (*ONE_CLOCK, "^", "name"):
            found.append({equation.lefts[0].text} | together(equation.right))
    return [it for it in found if len(it) > 1]


def clock_of(names, groups):
    """The signals that come together with one of these."""
    found, size = set(names), 0
    while len(found) > size:
        size = len(found)
        found = found.union(*(it for it in groups if it & found))
    return found


def untied(process):
    """The loops of which no clock equation, no call and nothing from outside says when they come."""
    groups, all_loops = groups_of(process), loops(process)
    told = {name for it in process.equations if it.form == "clock" for term in it.terms for name in together(term)}
    told |= {name for it in process.equations if it.form == "call" for whole in it.expressions() for name in names_of(whole)}
    told |= {it.name.text for it in process.inputs}
    inside = set().union(*(it.names for it in all_loops)) if all_loops else set()
    found = []
    for it in all_loops:
        clock = clock_of(it.names, groups)
        if not clock & told and not (clock - inside) & set(it.others):
            found.append(it)
    return found


def above(process, name, among):
    """The loops among these of which a signal is made, or all of them where it is made of none."""
    below = reached({left: names_of(right) for left, right in definitions(process).items()}, name) | {name}
    return [it for it in among if it.names & below] or among
