"""Mends of programs that do not say when a signal comes: clock equations, and boolean inputs that tell whether others come."""
from sigc.read.editing import Edit, fresh, names_in, with_equation, with_kind, with_tellers
from sigc.read.syntax import FUNCTIONS, walk, words_in
from sigc.why.circles import graph_of, made_of
from sigc.why.loops import above, untied

MOST_WALKED = 10_000


def name_of(declaration):
    return declaration.name.text


def is_input_of(draft, owner, declaration):
    return owner is draft.first and declaration is not None and declaration.role == "input"


def roots(draft, told):
    """Mends of two signals of which each may come without the other."""
    owners = [draft.owner(it) for it in told.names]
    (one, x), (other, y) = owners
    if x and y and one is other is draft.first:
        yield from told_by_others(draft, (y, x))
        yield from of_two(draft, x, y)
    for process, declaration in reversed(owners):
        if declaration and process is not draft.first:
            yield from ties(draft, process, declaration, ("input",))


def of_two(draft, x, y):
    """Mends of two signals of the first process: an event as a boolean, one clock for both, each by itself, one by the other."""
    first = draft.first
    asked_events = [it for it in (y, x) if it.role == "input" and it.kind == "event" and is_asked(first, name_of(it))]
    for it, other in ((x, y), (y, x)):
        if it.kind == "boolean" and other.role == it.role == "input" and other.kind == "event" and name_of(it) in tied_names(first):
            yield beside(draft, other, it)
    is_merged = x.role == y.role == "input" and are_merged(first, x, y)
    if len(asked_events) == 2 or is_merged and {x.kind, y.kind} != {"boolean"} and {x.kind, y.kind} != {"integer"}:
        yield by_themselves(draft, x, y)
    for it in asked_events:
        yield as_boolean(draft, first, it, y if it is x else x)
    if y.role == "input" and x in telling(first):
        if y.kind == "boolean" and is_asked(first, name_of(y)):
            yield draft.equated(first, f"{name_of(y)} ^= {name_of(x)}")
        yield beside(draft, y, x)
    if y.role != "input":
        yield from of_loops(draft, x, y)
    one, other = (y, x) if y.role != "input" else (x, y)
    together = draft.equated(first, f"{name_of(one)} ^= {name_of(other)}")
    if x.role == y.role == "input" and x not in telling(first):
        is_first = meet(first, x, y) and (not is_merged or x.kind == y.kind == "boolean")
        yield from sorted([together, apart(draft, x, y)], key=lambda it: it is together, reverse=is_first)
    else:
        yield together
    for a, b in ((x, y), (y, x)):
        if b.kind == "boolean":
            yield draft.equated(first, f"{name_of(a)} ^= when {name_of(b)}")
    for a, b in ((x, y), (y, x)):
        if b.role == "input" and b not in telling(first):
            yield beside(draft, b, a)


def of_loops(draft, x, y):
    """Clock equations of the signals that are made of their own past, where a signal is made of these."""
    first = draft.first
    yield from of_called_loops(draft)
    found = above(first, name_of(y), untied(first))
    inside = set().union(*(it.names for it in found)) if found else set()
    if name_of(y) in inside:
        yield draft.equated(first, f"{name_of(y)} ^= {name_of(x)}")
    for loop in found:
        pace = paces_asked(first, loop)
        if len(pace) > 1:
            yield draft.equated(first, " ^= ".join([*(it.name for it in found), " ^+ ".join(pace)]))
    others = [it for loop in found for it in loop.others] + [name_of(x), *tied_names(first), *map(name_of, first.signals())]
    for other in dict.fromkeys(it for it in others if it not in inside and first.declaration(it)):
        yield draft.equated(first, " ^= ".join([*(it.name for it in found), other]))


def paces_asked(process, loop):
    """The instants at which the sides of a loop are taken: events, and booleans where they are true."""
    asked = [process.declaration(it) for it in loop.others if is_asked(process, it)]
    return [name_of(it) if it.kind == "event" else f"(when {name_of(it)})" for it in asked if it and it.kind != "integer"]


def of_called_loops(draft):
    """Clock equations of such signals in called processes, which come with an input there."""
    for process in draft.processes[1:]:
        names = [it.name for it in untied(process)]
        for it in process.inputs if names else ():
            yield draft.equated(process, " ^= ".join([*names, name_of(it)]))


def tied_names(process):
    """The signals that stand in clock equations."""
    return [it.at.text for equation in process.equations if equation.form == "clock" for it in equation.terms if it.op == "name"]


def told_by_others(draft, declarations):
    """Clock equations of inputs that come where a boolean is true which is there for nothing else as it seems."""
    for teller in unasked(draft.first):
        for it in declarations:
            if it.role == "input" and it is not teller:
                yield draft.equated(draft.first, f"{name_of(it)} ^= when {name_of(teller)}")


def tellers_of(draft, inputs):
    """Booleans that tell whether inputs come, with the edits and the equations that this takes: an event itself becomes
    one, and beside any other input stands a new one."""
    names = [name_of(it) if it.kind == "event" else fresh(draft.first, f"{name_of(it)}_COMES") for it in inputs]
    edits = as_asked(draft.first, [it for it in inputs if it.kind == "event"])
    pairs = [(it, name) for it, name in zip(inputs, names) if it.kind != "event"]
    return names, edits + with_tellers(draft.first, pairs), [f"{name_of(it)} ^= when {name}" for it, name in pairs]


def by_themselves(draft, x, y):
    """Two inputs that are merged: a boolean says yes or no each time, so it is there for both; else each has one of its own."""
    found = {it.kind: it for it in (x, y)}
    return beside(draft, found["integer"], found["boolean"]) if set(found) == {"integer", "boolean"} else apart(draft, x, y)


def apart(draft, x, y):
    """Two inputs, of which each comes where a boolean is true; the booleans come together."""
    names, edits, equations = tellers_of(draft, (x, y))
    edits = edits + with_equation(draft.text, draft.first, " ^= ".join(names), *equations)
    return apart_words((x, y), names), draft.edited(edits)


def apart_words(inputs, names):
    """Which booleans come together and tell whether two inputs come."""
    events = [name_of(it) for it in inputs if it.kind == "event"]
    if len(events) == 2:
        return f"{' and '.join(events)} as booleans, which come together"
    new = [(name, name_of(it)) for it, name in zip(inputs, names) if it.kind != "event"]
    if events:
        return f"a boolean input {new[0][0]}, which tells whether {new[0][1]} comes, and {events[0]} as a boolean; the two come together"
    (one, x), (other, y) = new
    return f"two boolean inputs {one} and {other}, which come together and tell at each instant whether {x} and {y} come"


def beside(draft, it, pace):
    """An input that comes where a boolean is true, which comes with another signal."""
    if it.kind == "event":
        return as_boolean(draft, draft.first, it, pace)
    (told,), edits, equations = tellers_of(draft, (it,))
    edits = edits + with_equation(draft.text, draft.first, f"{told} ^= {name_of(pace)}", *equations)
    return f"a boolean input {told}, which comes with {name_of(pace)} and tells whether {name_of(it)} comes", draft.edited(edits)


def meet(process, x, y):
    """Whether equations lead from one signal to the other."""
    groups = [{it.text for it in words_in(equation.pieces)} for equation in process.equations]
    known, rest = set(), [name_of(x)]
    while rest and len(known) < MOST_WALKED:
        name = rest.pop()
        if name not in known:
            known.add(name)
            rest += [it for group in groups if name in group for it in group - known]
    return name_of(y) in known


def are_merged(process, x, y):
    """Whether something is there where one of two signals is, so that each of them may come without the other."""
    names, graph = {name_of(x), name_of(y)}, graph_of(process)
    for equation in process.equations:
        for node in (it for whole in equation.expressions() for it in walk(whole)):
            if node.op in ("default", "^+", "cell"):
                one, other = (made_of(part, graph) & names for part in node.parts)
                if one and other and one != other:
                    return True
    return False


def telling(process):
    """The boolean inputs whose values nothing but clock equations ask, at least one of them."""
    return [it for it in of_clock_equations(process) if is_asked(process, name_of(it))]


def unasked(process):
    """The boolean inputs that stand in clock equations alone, and whose values nothing asks."""
    return [it for it in of_clock_equations(process) if not is_asked(process, name_of(it))]


def of_clock_equations(process):
    """The boolean inputs that stand in clock equations alone: by themselves, or behind a `when`."""
    named, elsewhere = set(), set()
    for equation in process.equations:
        if equation.form == "clock":
            terms = [it.parts[0] if it.op == "at" else it for it in equation.terms]
            named |= {it.at.text for it in terms if it.op == "name"}
            elsewhere |= {node.at.text for it in terms if it.op != "name" for node in walk(it) if node.op == "name"}
        else:
            elsewhere |= {it.text for it in words_in(equation.pieces)}
    return [it for it in process.inputs if it.kind == "boolean" and name_of(it) in named - elsewhere]


def ties(draft, process, declaration, roles):
    """Clock equations that tie a signal to another one of its process."""
    for it in names_in(process, *roles):
        if it is not declaration:
            yield draft.equated(process, f"{name_of(declaration)} ^= {name_of(it)}")


def clocks(draft, told):
    """Mends of a signal of which nothing says when it comes."""
    process, declaration = draft.owner(told.names[0])
    if declaration is None:
        return
    if is_input_of(draft, process, declaration):
        yield from told_by_others(draft, [declaration])
        yield from asked(draft, process, declaration)
        yield from of_asked_events(draft, declaration)
        yield from of_loops_below(draft, name_of(declaration))
    elif process is draft.first:
        yield from of_loops_below(draft, name_of(declaration))
    yield from ties(draft, process, declaration, ("input",))
    yield from ties(draft, process, declaration, ("output", "local"))


def of_asked_events(draft, declaration):
    """Booleans in the place of other events that are asked whether they come."""
    for it in draft.first.inputs:
        if it.kind == "event" and it is not declaration and is_asked(draft.first, name_of(it)):
            yield as_boolean(draft, draft.first, it, declaration)


def of_loops_below(draft, name):
    """Clock equations of the signals that are made of their own past, where these come at some instants of another one."""
    first = draft.first
    for loop in above(first, name, untied(first)):
        booleans = [it for it in loop.others if first.declaration(it) and first.declaration(it).kind == "boolean"]
        pace = paces_asked(first, loop)
        for words in [*([" ^+ ".join(pace)] if len(pace) > 1 else []), *(f"when {it}" for it in booleans), *loop.others]:
            yield draft.equated(first, f"{loop.name} ^= {words}")


def is_asked(process, name):
    """Whether something is taken where a signal is there, or is false, so that it has to be known whether it is."""
    nodes = (it for equation in process.equations for whole in equation.expressions() for it in walk(whole))
    return any(it.op in ("when", "at") and named(it.parts[-1]) == name for it in nodes)


def named(node):
    """The signal of a condition that is one, or its contrary."""
    while node.op == "not":
        node = node.parts[0]
    return node.at.text if node.op == "name" else None


def as_boolean(draft, process, event, pace):
    """A boolean in the place of an event, at the clock of another signal."""
    words = f"{name_of(event)} ^= {name_of(pace)}"
    edits = as_asked(process, [event]) + with_equation(draft.text, process, words)
    return f"{name_of(event)} as a boolean that comes with {name_of(pace)}", draft.edited(edits)


def as_asked(process, events):
    """The edits that make booleans of events: what came with an event now comes where the boolean is true."""
    names = {name_of(it) for it in events}
    uses = [use for equation in process.equations for whole in equation.expressions() for use in uses_of(whole, names, None)]
    return (with_kind(process, events, "boolean") if events else []) + [Edit(node.start, node.end, words) for node, words in uses]


def uses_of(node, names, around):
    """The uses of events that are not asked for their truth, each with what stands for it once the event is a boolean."""
    if node.op == "name" and node.at.text in names:
        name = node.at.text
        is_asked_for = around and (around.op in (*FUNCTIONS, "at") or around.op in ("when", "cell") and node is around.parts[-1])
        if not is_asked_for:
            yield node, f"(when {name})" if around else f"when {name}"
    for it in node.parts:
        yield from uses_of(it, names, node)


def asked(draft, process, declaration):
    """An input that comes now and then: as a boolean, where a new boolean is true, and where another one is, which has
    a meaning of its own."""
    others = [it for it in process.inputs if it is not declaration]
    for it in others:
        if are_merged(process, declaration, it):
            yield by_themselves(draft, declaration, it)
    if declaration.kind == "event":
        for it in others:
            yield as_boolean(draft, process, declaration, it)
    for it in others:
        yield beside(draft, declaration, it)
    for it in process.signals():
        if it.kind == "boolean" and it is not declaration:
            yield draft.equated(process, f"{name_of(declaration)} ^= when {name_of(it)}")
