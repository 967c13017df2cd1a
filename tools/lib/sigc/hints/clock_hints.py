"""What most likely is wrong where sigc refuses clocks: the beginners' mistakes of docs/errors.md, as far as the text shows them."""
from sigc.hints.forced_hints import forced_lines
from sigc.hints.near_words import Hint
from sigc.hints.warnings import is_used
from sigc.read.editing import with_equation, Edit
from sigc.read.signal_kinds import kind_of, kinds_of
from sigc.read.syntax import source_of, walk, words_in
from sigc.why.causes import told_of
from sigc.why.loops import above, definitions, untied
from sigc.why.mending import narrowed_operands, renamed_rare, written_twice
from sigc.why.ties import are_merged, is_asked, unasked

MARKS = {"or": "^+", "and": "^*"}


def said_by(reader, process, words, equation):
    """What a clock equation of a signal that is made of its own past says, with this one as an example."""
    return [words], "a-counter-without-a-clock", with_equation(reader.text, process, equation), equation


def nodes_of(process):
    for equation in process.equations:
        for whole in equation.expressions():
            for node in walk(whole):
                yield node, equation


def of_events(node, kinds):
    """What stands for `or` and `and` of events: lines, the entry and edits; None where this is no such operator."""
    if node.op in MARKS and any(kind_of(it, kinds) == "event" for it in node.parts):
        return ["of events `or` is `^+`, and `and` is `^*`"], "a-or-b-of-events", [Edit(node.at.start, node.at.end, MARKS[node.op])]
    return None


def events_among(reader, names):
    """An `or` of events in an equation that names one of these."""
    for process in reader.processes:
        kinds = kinds_of(process)
        for node, equation in nodes_of(process):
            found = of_events(node, kinds)
            if found and set(names) & {it.text for it in words_in(equation.pieces)}:
                return found
    return None


def sampled(reader, names):
    """`A when B` of these two."""
    for process in reader.processes:
        for node, _ in nodes_of(process):
            if node.op == "when" and {it.at.text for it in node.parts if it.op == "name"} == set(names):
                one, other = names
                return [f"`when` does not tie its sides: say how {one} and {other} relate"], "a-when-b-of-two-inputs", []
    return None


def in_called(reader, process):
    """Such a signal in a process that is called."""
    called = {it.called.text for it in process.equations if it.called}
    for it in reader.processes[1:]:
        found = untied(it) if it.name.text in called and it.inputs else []
        if found:
            name, other = found[0].name, it.inputs[0].name.text
            words = f"{name} of {it.name.text} is made of its own past: say there when it comes"
            return said_by(reader, it, words, f"{name} ^= {other}")
    return None


def of_the_past(reader, process, name, other):
    """The signals that are made of their own past, and of which nothing says when they come, where a signal is made of these."""
    found = above(process, name, untied(process))
    if not found:
        return in_called(reader, process)
    if any(name in it.names for it in found):
        return said_by(reader, process, f"{name} is made of its own past: say when it comes", f"{name} ^= {other}")
    loops, inside = [it.name for it in found], set().union(*(it.names for it in found))
    pace = next((it for loop in found for it in loop.others if it not in inside and process.declaration(it)), other)
    words = f"{loops[0]} is made of its own past" if len(loops) == 1 else f"{', '.join(loops[:-1])} and {loops[-1]} are made of their own past"
    return said_by(reader, process, f"{words}: say when {'it comes' if len(loops) == 1 else 'they come'}", " ^= ".join([*loops, pace]))


def of_roots(reader, names):
    first = reader.processes[0]
    declared = [first.declaration(it) for it in names]
    for it, other in zip(declared, reversed(names)):
        found = of_the_past(reader, first, it.name.text, other) if it and it.role != "input" else None
        if found:
            return found
    for it in declared:
        if it and it.role == "input" and not is_used(first, it.name.text):
            return [f"{it.name.text} is used nowhere: take it out, or tie its clock"], "an-unused-input", []
    for it in declared:
        if it and it.role == "input" and it.kind == "event" and is_asked(first, it.name.text):
            return asked_event(it.name.text)
    return told_by_another(reader, first, declared[::-1]) or sampled(reader, names) or of_inputs(declared, names)


def told_by_another(reader, process, declared):
    """A boolean input that nothing asks, where an input has no clock: it was to tell when that one comes."""
    for teller in unasked(process):
        for it in declared:
            if it and it.role == "input" and it is not teller and not is_tied(process, it.name.text):
                equation = f"{it.name.text} ^= when {teller.name.text}"
                return [f"nothing asks the boolean {teller.name.text}: is `{equation}` meant?"], "", with_equation(reader.text, process, equation)
    return None


def is_tied(process, name):
    """Whether a clock equation names a signal."""
    return any(it.form == "clock" and name in [piece.text for piece in words_in(it.pieces)] for it in process.equations)


def of_inputs(declared, names):
    one, other = names
    if not all(it and it.role == "input" for it in declared):
        return [f"a clock equation says how {one} and {other} relate"], "", []
    return [f"say how {one} and {other} relate; where each comes by itself, two boolean inputs that come together tell which does"], "", []


def asked_event(name):
    return [f"{name} is an event, and cannot be asked whether it comes: only a boolean, which comes anyway, tells yes or no"], "an-event-as-a-reset", []


def of_a_loop(reader, process, name):
    """Where a signal is made of one that comes at some instants of another one, by its own past."""
    found = above(process, name, untied(process))
    if not found or not found[0].others:
        return None
    loop, right = found[0], definitions(process)[found[0].name]
    is_sampled = right.op == "when" and right.parts[-1].op == "name"
    clock = f"when {right.parts[-1].at.text}" if is_sampled else loop.others[0]
    return said_by(reader, process, f"{loop.name} is made of its own past: say when it comes", f"{loop.name} ^= {clock}")


def of_a_clock(reader, names):
    first = reader.processes[0]
    declared = first.declaration(names[0])
    if declared and declared.role != "input":
        return of_a_loop(reader, first, names[0])
    if declared is None:
        return None
    found = told_by_another(reader, first, [declared])
    if found:
        return found
    for node, _ in nodes_of(first):
        if node.op == "cell" and node.parts[0].op == "name" and node.parts[0].at.text == names[0]:
            return [f"where a value is held, does {names[0]} come too? A boolean input tells it"], "two-events-or-a-value-that-is-held-between-two-ticks", []
    for it in first.inputs:
        if it is not declared and are_merged(first, declared, it):
            words = f"where {names[0]} and {it.name.text} come by themselves, two boolean inputs that come together tell which does"
            return [words], "", []
    events = [it for it in (declared, *first.inputs) if it.kind == "event" and (it is declared or is_asked(first, it.name.text))]
    return asked_event(events[0].name.text) if events else of_a_loop(reader, first, names[0])


def of_a_condition(reader, names):
    """What is wrong with a condition that is forced: the likeliest fault, and before it what the refusal says."""
    lines = forced_lines(reader, names[0])
    if len(lines) > 1:
        return lines, "condition-x-is-forced", []
    found = of_a_fault(reader, names)
    return ([*lines, *found[0]], *found[1:]) if found else (lines, "", [])


def of_a_fault(reader, names):
    for process in reader.processes:
        for found in written_twice(reader.text, process):
            return [f"{source_of(reader.text, found[0][0])} is written {len(found)} times, as so many conditions: name it once"], "the-same-comparison-twice", []
        for node, rare, other in narrowed_operands(process, True):
            words = f"the operands of `{node.op}` at {node.at.line}:{node.at.col} are present together"
            return [f"{words}: {source_of(reader.text, other)} has to come as rarely as {source_of(reader.text, rare)}"], "a--a-when-b", []
        for equation, name, asked in renamed_rare(process):
            if source_of(reader.text, asked) == names[0]:
                return [f"{equation.lefts[0].text} is {name}, which comes only where {names[0]} is true: `{name} cell ^{names[0]} init ..` keeps its last value"], "", []
    return None


def of_a_cycle(reader, names):
    name = names[0]
    words = f"{name} is needed to compute {name}" + ("; the value before is a delay, `X $ init C`" if "#" not in name else "")
    return [words], "cycle-through-x", []


def of_nothing(reader, names):
    return ["the equations forbid every signal to come: one of them, or a clock equation, is one too many"], "no-reaction-is-possible", []


def clock_hints(reader, text):
    """The hints at a refusal of clocks: the first with its mend where one is near, and what there is to say without it."""
    told = told_of(text)
    if told is None or not reader.processes or reader.faults:
        return []
    found = events_among(reader, told.names) if told.sort in ("root", "clock") else None
    rules = {"root": of_roots, "clock": of_a_clock, "forced": of_a_condition, "cycle": of_a_cycle, "dead": of_nothing}
    lines, entry, edits, *example = found or rules[told.sort](reader, told.names) or ([], "", [])
    whole = [f"{lines[-1]}, as {example[0]}"] if example else lines
    is_fact = bool(found or example) or not edits
    return [*([Hint(whole, entry, edits)] if edits else []), *([Hint(lines, entry)] if lines and is_fact else [])]
