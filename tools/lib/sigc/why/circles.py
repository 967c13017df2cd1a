"""Circles within one instant: signals of which each is computed from the next one, with no delay between them."""
import itertools
from collections.abc import Iterator
from typing import NamedTuple

from sigc.read.syntax import Node, Process, source_of, walk
from sigc.why.loops import reached


# A circle of more signals is broken at one of them alone.
MOST_PAIRED = 30


class Circle(NamedTuple):
    """Signals that reach one another within the instant, and one way around, which ends where it begins."""

    names: set
    way: list


def definitions_of(process: Process) -> dict[str, Node]:
    return {it.lefts[0].text: it.right for it in process.equations if it.form == "definition" and it.right}


def needed_now(node: Node) -> Iterator[str]:
    """The names that the value of an expression needs at its own instant."""
    if node.op == "$":
        return
    if node.op == "name":
        yield node.at.text
    for it in node.parts:
        yield from needed_now(it)


def made_of(node: Node, graph: dict[str, list[str]]) -> set[str]:
    """The names that an expression needs within the instant, directly or by definitions."""
    names = set(needed_now(node))
    return names.union(*(reached(graph, it) for it in names))


def graph_of(process: Process) -> dict[str, list[str]]:
    """The defined signals of a process, each with those that it is computed from within the instant."""
    return {name: list(dict.fromkeys(needed_now(right))) for name, right in definitions_of(process).items()}


def circles_of(process: Process) -> list[Circle]:
    """The circles of a process, in the order of its equations."""
    graph, found, known = graph_of(process), [], set()
    below = {name: reached(graph, name) for name in graph}
    for name in graph:
        if name in below[name] and name not in known:
            names = {it for it in below[name] if name in below.get(it, ())}
            known |= names
            found.append(Circle(names, way_around(graph, names, name)))
    return found


def way_around(graph, names, begin):
    """The shortest way from a signal back to itself."""
    ways, known = [[begin]], set()
    for way in ways:
        for it in graph[way[-1]]:
            if it == begin:
                return [*way, begin]
            if it in names and it not in known:
                known.add(it)
                ways.append([*way, it])
    return [begin]


def breakers(process: Process, circle: Circle) -> list[tuple[str, ...]]:
    """The signals of a circle, one or two of them, without which nothing of it is a circle: single ones first, and those first
    that need the fewest delays."""
    graph = {name: [it for it in needs if it in circle.names] for name, needs in graph_of(process).items() if name in circle.names}
    pairs = itertools.combinations(graph, 2) if len(graph) <= MOST_PAIRED else ()
    found, single = [], set()
    for names in itertools.chain(((it,) for it in graph), pairs):
        if not single & set(names) and is_broken(graph, set(names)):
            found.append(names)
            single |= set(names) if len(names) == 1 else set()
    return sorted(found, key=lambda names: (len(names), sum(it in needs for needs in graph.values() for it in names)))


def is_broken(graph, names):
    """Whether nothing of a graph is a circle without some of its names."""
    rest = {it: [other for other in needs if other not in names] for it, needs in graph.items() if it not in names}
    return not any(it in reached(rest, it) for it in rest)


def existing_delay(text: str, process: Process, name: str) -> str | None:
    """How a process names the value of a signal before: a signal that is that delay, or the delay itself; None where it has none."""
    inline = None
    for equation in process.equations:
        for whole in equation.expressions():
            for node in walk(whole):
                if node.op == "$" and node.parts[0].op == "name" and node.parts[0].at.text == name:
                    if node is equation.right:
                        return equation.lefts[0].text
                    inline = inline or f"({source_of(text, node)})"
    return inline


def uses_in(process: Process, circle: Circle, name: str) -> Iterator[tuple[str, Node]]:
    """The places where the equations of a circle need a signal within the instant, each with the signal that is defined there."""
    for left, right in definitions_of(process).items():
        if left in circle.names:
            yield from ((left, node) for node in needed_nodes(right) if node.at.text == name)


def needed_nodes(node):
    if node.op == "$":
        return
    if node.op == "name":
        yield node
    for it in node.parts:
        yield from needed_nodes(it)
