"""Further refusals of a program behind the first one: what sigc says where a refused place is mended or exchanged.

sigc names one refusal. Here its place is mended where a mend is known, or else the equation is exchanged for definitions
of the same signals that are well formed; and sigc is asked again, until it accepts the names and kinds, or says something
about clocks.
"""
from sigc.call.compiler import Refusal
from sigc.hints.tried import shown_hint
from sigc.read.editing import applied, offset_of, original, place_of, with_equation, Edit
from sigc.why.causes import told_of

STAND_IN = {"integer": "{0} := {0} $ init 0", "boolean": "{0} := {0} $ init true", "event": "{0} := ^ {0}"}


def equation_at(reader, offset):
    """The process and the equation at an offset; of a syntax error the faulty one before it."""
    before = None
    for process in reader.processes:
        for equation in (it for it in process.equations if it.pieces):
            if equation.pieces[0].start <= offset < equation.pieces[-1].end:
                return process, equation
            if equation.form == "faulty" and equation.pieces[0].start <= offset:
                before = process, equation
    return before or (None, None)


def defined_names(process, equation):
    """The signals that an equation defines or was to define, and no other one does."""
    lefts = [it.text for it in equation.lefts] or [it.text for it in equation.pieces[:1]]
    others = {it.text for other in process.equations if other is not equation for it in other.lefts}
    found = [process.declaration(it) for it in lefts if it not in others]
    return [it for it in found if it and it.role in ("output", "local")]


def exchange(sigc, reader, refusal, before):
    """The edits after which this refusal does not come again, none where there are none."""
    mended = shown_hint(sigc, reader, refusal, before).edits
    if mended:
        return list(mended)
    if refusal.text.endswith(" is not defined"):
        return undefined(reader, refusal)
    process, equation = equation_at(reader, offset_of(reader.text, refusal.line, refusal.col))
    if equation is None:
        return []
    stand_ins = [STAND_IN[it.kind].format(it.name.text) for it in defined_names(process, equation)]
    text = f"(| {' | '.join(stand_ins)} |)" if stand_ins else "(| |)"
    return [Edit(equation.pieces[0].start, equation.pieces[-1].end, text)]


def undefined(reader, refusal):
    for process in reader.processes:
        for it in process.names():
            if (it.name.line, it.name.col) == (refusal.line, refusal.col) and process.body:
                return with_equation(reader.text, process, STAND_IN[it.kind].format(it.name.text))
    return []


def overlap(edits, others):
    return any(one == other or one.start < other.end and other.start < one.end for one in edits for other in others)


def is_known(reader, refusal):
    """Whether a refusal is one of the text itself: a syntax error where the reader finds none, and a signal without the
    definition that the text has, come of what was exchanged."""
    if refusal.text.endswith(" is not defined"):
        lefts = {piece.text for process in reader.processes for it in process.equations for piece in (*it.lefts, *it.pieces[:1])}
        return refusal.text.split()[0] not in lefts
    return refusal.text != "syntax" or any((it.found.line, it.found.col) == (refusal.line, refusal.col) for it in reader.faults)


def placed_back(reader, refusal, edits):
    """A refusal of the text with these edits, at its place in the text without them; None where it has none."""
    offset = original(offset_of(applied(reader.text, edits), refusal.line, refusal.col), edits)
    return None if offset is None else Refusal(*place_of(reader.text, offset), refusal.text)


def later_refusals(sigc, reader, first, most=6):
    """The refusals of a text behind its first one, at most so many: each with its place in the text."""
    return [it for it, _ in refusals_of(sigc, reader, first, most)][1:]


def refusals_of(sigc, reader, first, most=6):
    """The refusals of a text, each with the edits after which sigc comes to it: at most so many behind the first one."""
    edits, found, at = [], [(first, ())], first
    while at.line and not told_of(at.text) and is_known(reader, at) and len(found) <= most:
        new = exchange(sigc, reader, at, edits)
        if not new or overlap(new, edits):
            break
        edits = edits + new
        refusal = sigc.check(applied(reader.text, edits))
        at = placed_back(reader, refusal, edits) if refusal else None
        if at is None:
            break
        known = [it for it, _ in found]
        if is_known(reader, at) and not told_of(at.text) and at.line and at not in known and not (at.text.startswith("unknown") and at.text in [it.text for it in known]):
            found.append((at, tuple(edits)))
    return found
