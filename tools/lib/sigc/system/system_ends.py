"""How a run of a system ended: a line for each instance, and the programs that wait for each other."""
from sigc.system.network import Outside, indices

FAULT, WAITING, DONE = 3, 1, 0


def waits_for(network, ends):
    """For each node the node whose output it wants, None where it wants no other's."""
    found = []
    for node, end in zip(network.nodes, ends):
        source = node.sources[end.input] if end.input is not None else None
        found.append(None if source is None or isinstance(source, Outside) else source.node)
    return found


def circles_of(network, ends):
    """The circles of nodes that wait for each other, each from its first node on."""
    following, seen, found = waits_for(network, ends), {}, []
    for start in range(len(following)):
        path, at = [], start
        while at is not None and at not in seen:
            seen[at] = start
            path.append(at)
            at = following[at]
        if at is not None and seen[at] == start:
            circle = path[path.index(at) :]
            first = circle.index(min(circle))
            found.append(circle[first:] + circle[:first])
    return sorted(found)


def end_text(node, end):
    """How a node ended, without its name. What an input gets is named as the text does, so that alike instances are told alike."""
    if end.input is not None:
        port, source = node.program.inputs[end.input], node.instance.sources[end.input]
        from_where = f", from {source.text}," if source.output or source.text != port.name else ""
        return f"input {port.name}{from_where} exhausted after {end.instants} instants"
    return f"{end.what}{f' at {end.place}' if end.place else ''} after {end.instants} instants"


def end_lines(network, ends):
    """A line for each instance; those of a count that ended alike, one behind the other, have one."""
    at = 0
    for it in network.system.instances:
        rows = []
        for index in indices(it.count):
            text = end_text(network.nodes[at], ends[at])
            if rows and rows[-1][2] == text:
                rows[-1][1] = index
            else:
                rows.append([index, index, text])
            at += 1
        for first, last, text in rows:
            name = it.name if first is None else f"{it.name}[{first}]" if first == last else f"{it.name}[{first}] to {it.name}[{last}]"
            yield f"end: {name}: {text}"


def waiting_lines(network, ends):
    """A line for each circle, which names what each node of it waits for."""
    for circle in circles_of(network, ends):
        told = (f"{network.nodes[it].name} for {network.name_of(network.nodes[it].sources[ends[it].input])}" for it in circle)
        yield f"end: waiting: {', '.join(told)}"


def status_of(network, ends):
    if any(it.place for it in ends):
        return FAULT
    return WAITING if circles_of(network, ends) else DONE
