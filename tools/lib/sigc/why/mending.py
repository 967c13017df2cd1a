"""Mends of programs whose clocks sigc refuses: texts that were tried with `check`, and are accepted.

What is tried depends on the refusal: what says when a signal comes (why/ties.py), one name for a comparison that is
written twice, a value beside an operand that comes more rarely, a delay, a clock equation less.
"""
import itertools
from typing import NamedTuple

from sigc.call.compiler import limit_of
from sigc.read.editing import fresh, with_equation, with_local, without, Draft, Edit
from sigc.read.syntax import FUNCTIONS, RELATIONS, SUMS, source_of, walk
from sigc.why.causes import told_of
from sigc.why.circles import breakers, circles_of, existing_delay, uses_in
from sigc.why.loops import definitions
from sigc.why.reaction_clauses import Reactions
from sigc.why.ties import clocks, roots
from sigc.why.unreached import never_taken
from sigc.why.weighed import by_meaning

CALLS, SECONDS, DEEPEST = 160, 20, 6
# How many ways to break circles are tried, and which refusals behind a step are gone on with first.
MOST_WAYS = 12
LATER = ("root", "clock", "cycle", "forced", "dead")
# How many mends are put in order: fewer of a program of so many bytes, and few behind one step.
MOST_FOUND, MOST_OF_LONG, LONG, MOST_BEHIND = 6, 3, 6000, 2


class Mend(NamedTuple):
    """What was done, the text that sigc accepts, and what it changes of what was written."""

    words: str
    text: str
    notes: tuple = ()


def is_rare(node, defined, is_deep=False):
    """Whether an operand is a sampled signal, by itself or by its definition; deep: or a function of one."""
    if node.op == "name":
        node = defined.get(node.at.text, node)
    if is_deep and node.op in FUNCTIONS:
        return any(is_rare(it, defined) for it in node.parts)
    return node.op == "when" and node.parts[0].op not in ("number", "truth")


def narrowed_operands(process, is_deep=False):
    """The functions whose one operand comes more rarely than the other: pairs of both operands."""
    defined = definitions(process)
    for equation in process.equations:
        for node in (it for whole in equation.expressions() for it in walk(whole)):
            if node.op in FUNCTIONS and len(node.parts) == 2:
                for rare, other in (node.parts, reversed(node.parts)):
                    if is_rare(rare, defined, is_deep) and not is_rare(other, defined, is_deep) and other.op not in ("number", "truth"):
                        yield node, rare, other


def narrowed(draft):
    """A value for the operand that comes more rarely, where the other one comes alone."""
    for process in draft.processes:
        for node, rare, other in narrowed_operands(process, True):
            value = "0" if node.op not in ("and", "or", "xor") else "false"
            beside = f"^{source_of(draft.text, other)}" if other.op == "name" else f"^({source_of(draft.text, other)})"
            old = draft.text[rare.start : rare.end]
            start, end, inner = rare.start, rare.end, f"({old})" if rare.op != "name" else old
            if draft.text[start - 1 : start] == "(" and draft.text[end : end + 1] == ")":
                start, end, inner = start - 1, end + 1, f"({old})"
            new = f"({inner} default ({value} when {beside}))"
            yield f"{old} default {value} where it does not come", draft.edited([Edit(start, end, new)])


def merged(draft):
    """`default` in the place of a function whose operands both come now and then."""
    for process in draft.processes:
        defined = definitions(process)
        for node in (it for equation in process.equations for whole in equation.expressions() for it in walk(whole)):
            if node.op in FUNCTIONS and len(node.parts) == 2 and all(is_rare(it, defined) for it in node.parts):
                yield f"default for {node.op} at {node.at.line}:{node.at.col}", draft.edited([Edit(node.at.start, node.at.end, "default")])


def held(draft):
    """The last value of a signal that is taken where a boolean is true, beside one that comes oftener."""
    for process in draft.processes:
        clocked = clocked_by_when(process)
        yield from added(draft, process, clocked)
        values = {it.name.text: "0" if it.kind == "integer" else "false" for it in process.names()}
        for node in (it for equation in process.equations for whole in equation.expressions() for it in walk(whole)):
            names = [it.at.text for it in node.parts if it.op == "name"] if node.op in FUNCTIONS else []
            for rare, other in (names, names[::-1]) if len(names) == 2 else ():
                if rare in clocked and other not in clocked and values.get(rare):
                    words = f"{rare} cell ^{other} init {values[rare]}"
                    at = next(it for it in node.parts if it.at.text == rare)
                    yield f"the last value of {rare} at each {other}", draft.edited([Edit(at.start, at.end, f"({words})")])


def added(draft, process, clocked):
    """0 for a term of a sum where it does not come."""
    for node in (it for equation in process.equations for whole in equation.expressions() for it in walk(whole)):
        names = [it.at.text for it in node.parts if it.op == "name"] if node.op in SUMS else []
        for rare, other in (names, names[::-1]) if len(names) == 2 else ():
            if rare in clocked and other not in clocked:
                at = next(it for it in node.parts if it.at.text == rare)
                yield f"{rare} default 0 where it does not come", draft.edited([Edit(at.start, at.end, f"({rare} default (0 when ^{other}))")])


def taken_first(text):
    """Texts in which a function left of a `default` comes where its input does: as it stands, what is right of it never counts.
    The other operands are taken where the input comes."""
    draft = Draft(text)
    inputs = {it.name.text for it in draft.first.inputs}
    reactions = Reactions(draft.first).merge()
    for node in (it for equation in draft.first.equations for whole in equation.expressions() for it in walk(whole)):
        left = node.parts[0] if node.op == "default" else None
        if left is None or left.op not in FUNCTIONS or len(left.parts) != 2 or not never_taken(text, node, reactions):
            continue
        for one, other in (left.parts, left.parts[::-1]):
            if one.op == "name" and one.at.text in inputs and other.op not in ("number", "truth") and not (other.op == "name" and other.at.text in inputs):
                words = source_of(text, other)
                yield f"{words} when ^{one.at.text} in `{source_of(text, left)}`, which comes where {one.at.text} does", draft.edited([Edit(other.start, other.end, f"({words} when ^{one.at.text})")])


def clocked_by_when(process):
    """The signals that a clock equation lets come where a boolean is true, each with what is asked there."""
    found = {}
    for equation in (it for it in process.equations if it.form == "clock"):
        asked = next((it.parts[0] for it in equation.terms if it.op == "at"), None)
        if asked:
            found.update({it.at.text: asked for it in equation.terms if it.op == "name"})
    return found


def renamed_rare(process):
    """The signals that are another one by a definition `X := Y`, where Y comes only where a boolean is true: that definition,
    Y, and what is asked."""
    clocked = clocked_by_when(process)
    for equation in (it for it in process.equations if it.form == "definition" and it.right and it.right.op == "name"):
        name = equation.right.at.text
        if name in clocked and equation.lefts[0].text not in clocked:
            yield equation, name, clocked[name]


def kept(draft):
    """The last value of a signal that is taken where a boolean is true, where it is given another name."""
    for process in draft.processes:
        kinds = {it.name.text: it.kind for it in process.names()}
        for equation, name, asked in renamed_rare(process):
            if asked.op == "name" and kinds.get(name) in ("integer", "boolean"):
                words = f"{name} cell ^{asked.at.text} init {'0' if kinds[name] == 'integer' else 'false'}"
                yield f"the last value of {name} at each {asked.at.text}", draft.edited([Edit(equation.right.start, equation.right.end, words)])


def completed(draft):
    """The last side of a `default` without its condition, so that no case is left out."""
    for process in draft.processes:
        for node in (it for equation in process.equations for whole in equation.expressions() for it in walk(whole)):
            last = node.parts[1] if node.op == "default" else None
            if last and last.op == "when" and last.parts[0].op not in ("number", "truth"):
                start = len(draft.text[: last.at.start].rstrip())
                condition = source_of(draft.text, last.parts[1])
                yield f"without the condition {condition} of the last default", draft.edited([Edit(start, last.end, "")])


def kept_on(draft):
    """The value before of a signal that comes only where one of its conditions is true, where none is; first of signals of
    which the program has that value."""
    for process in draft.processes:
        firsts = {it.name.text: "0" if it.kind == "integer" else "false" for it in process.signals() if it.kind != "event"}
        for equation in process.equations:
            if equation.form != "definition" or not is_open(equation.right):
                continue
            name = equation.lefts[0].text
            before = existing_delay(draft.text, process, name) or f"({name} $ init {firsts.get(name)})"
            if name in firsts:
                yield f"{name} keeps its value, {before}, where no condition of it is true", draft.edited([Edit(equation.right.start, equation.right.end, with_side(draft.text, equation.right, before))])


def is_open(node):
    """Whether an expression comes only where a condition is true, by itself or as the last side of a `default`."""
    last = node.parts[1] if node.op == "default" else node
    return last.op == "when" and last.parts[1].op != "^"


def with_side(text, node, side):
    """An expression with one side of a `default` more."""
    source = text[node.start : node.end]
    return f"{source} default {side}" if node.op == "default" or source.startswith("(") and source.endswith(")") else f"({source}) default {side}"


def is_comparison(node):
    return node.op in RELATIONS


def written_twice(text, process):
    """The comparisons that a process has more than once: lists of nodes."""
    found = {}
    for equation in process.equations:
        for whole in equation.expressions():
            for node in walk(whole):
                if is_comparison(node):
                    found.setdefault(source_of(text, node), []).append((node, equation))
    return [it for it in found.values() if len(it) > 1]


def named_once(draft):
    """One name for a comparison that is written twice."""
    for process in draft.processes:
        for found in written_twice(draft.text, process):
            words = source_of(draft.text, found[0][0])
            whole = next((it.lefts[0].text for node, it in found if it.right is node), None)
            name = whole or fresh(process, "COND")
            edits = [without_brackets(draft.text, node, name) for node, it in found if it.right is not node]
            if not whole:
                edits += with_local(process, "boolean", name) + with_equation(draft.text, process, f"{name} := {words}")
            yield f"one name for {words}, which is written {len(found)} times", draft.edited(edits)


def without_brackets(text, node, name):
    """The edit that puts a name in the place of an expression, and of the brackets around it."""
    start, end = node.start, node.end
    if text[:start].rstrip().endswith("(") and text[end:].lstrip().startswith(")"):
        start, end = len(text[:start].rstrip()) - 1, len(text) - len(text[end:].lstrip()) + 1
        if start and (text[start - 1].isalnum() or text[start - 1] == "_"):
            name = f" {name}"
    return Edit(start, end, name)


def loosened(draft):
    """A clock equation less, or a term of it."""
    for process in draft.processes:
        for equation in process.equations:
            if equation.form != "clock":
                continue
            sources = [source_of(draft.text, it) for it in equation.terms]
            if len(sources) > 2:
                for it in sources:
                    rest = " ^= ".join(other for other in sources if other is not it)
                    edit = Edit(equation.terms[0].start, equation.terms[-1].end, rest)
                    yield f"{rest} without {it}", draft.edited([edit])
            whole = " ^= ".join(sources)
            yield f"without the clock equation {whole}", draft.edited([without(draft.text, process, equation)])


def delayed(draft, told):
    """A delay in the place of a signal that is needed to compute itself."""
    yield from broken_circles(draft)
    process, declaration = draft.owner(told.names[0])
    if declaration is None:
        return
    for it in [declaration, *(it for it in process.signals() if it is not declaration)]:
        value = "0" if it.kind == "integer" else "false"
        for equation in process.equations:
            for whole in equation.expressions() if equation.form == "definition" else ():
                for node in walk(whole):
                    if node.op == "name" and node.at.text == it.name.text:
                        words = f"{it.name.text} $ init {value}"
                        yield f"{words} for {it.name.text} at {node.at.line}:{node.at.col}", draft.edited([Edit(node.start, node.end, f"({words})")])


def broken_circles(draft):
    """The value before of one signal in each circle of equations, named as the program names it where it does."""
    for process in draft.processes:
        circles = circles_of(process)
        ways = [[delays_of(draft, process, circle, names) for names in breakers(process, circle)] for circle in circles]
        if not circles or not all(ways):
            continue
        for chosen in sorted(itertools.islice(itertools.product(*map(enumerate, ways)), MOST_WAYS), key=lambda it: sum(at for at, _ in it)):
            edits = [edit for _, (_, edits) in chosen for edit in edits]
            yield ", ".join(words for _, (words, _) in chosen), draft.edited(edits)


def delays_of(draft, process, circle, names):
    """The values before of signals of a circle, in the place of these, as words and edits."""
    found = [delay_of(draft, process, circle, it) for it in names]
    return ", ".join(words for words, _ in found), [edit for _, edits in found for edit in edits]


def delay_of(draft, process, circle, name):
    """The value before of a signal of a circle, in the place of the signal, as words and edits."""
    value = "0" if process.declaration(name).kind == "integer" else "false"
    words = existing_delay(draft.text, process, name) or f"({name} $ init {value})"
    uses = list(uses_in(process, circle, name))
    lefts = " and ".join(dict.fromkeys(left for left, _ in uses))
    return f"{words} for {name} in {lefts}", [Edit(node.start, node.end, words) for _, node in uses]


def candidates(text, told):
    """What may mend a text that is refused in this way, the likeliest first."""
    draft = Draft(text)
    if told.sort == "root":
        yield from roots(draft, told)
    elif told.sort == "clock":
        yield from narrowed(draft)
        yield from clocks(draft, told)
    elif told.sort == "cycle":
        yield from delayed(draft, told)
    else:
        yield from broken_circles(draft)
        yield from named_once(draft)
        yield from kept_on(draft)
        yield from narrowed(draft)
        yield from held(draft)
        yield from kept(draft)
        yield from completed(draft)
        yield from loosened(draft)
        yield from merged(draft)


def mends_of(sigc, text, most=2, limit=None):
    """Mends of a text that sigc refuses for its clocks, at most so many: those that leave the most to change first, and of
    these the ones that begin in different ways."""
    refusal = sigc.check(text)
    told = told_of(refusal.text) if refusal else None
    if told is None:
        return []
    limit = limit or limit_of(sigc, CALLS, SECONDS)
    found = []
    for it in begun_anew(sigc, text, told, limit):
        if it.text not in [other.text for other in found]:
            found.append(it)
        if len(found) >= (MOST_FOUND if len(text) < LONG else MOST_OF_LONG):
            break
    found = by_meaning(sigc, text, found)
    firsts = {it.words.split("; ")[0]: it for it in reversed(found)}
    begun = [it for it in found if it in firsts.values()]
    return [*begun, *(it for it in found if it not in begun)][:most]


def begun_anew(sigc, text, told, limit):
    """Mends of a text, first of what makes a part of it count that would never do so."""
    for words, new in itertools.islice(taken_first(text), MOST_BEHIND):
        refusal = sigc.check(new)
        other = told_of(refusal.text) if refusal else None
        if refusal is None:
            yield Mend(words, new)
        elif other:
            yield from itertools.islice(tried(sigc, new, other, (words,), DEEPEST, limit), MOST_BEHIND)
    yield from tried(sigc, text, told, (), DEEPEST, limit)


def tried(sigc, text, told, done, depth, limit):
    later = []
    for words, new in candidates(text, told):
        if limit.is_over(sigc):
            return
        refusal = sigc.check(new)
        if refusal is None:
            yield Mend(joined_words((*done, words)), new)
            continue
        other = told_of(refusal.text)
        if other and other != told and (other.sort in ("root", "clock", "cycle") or told.sort in ("root", "clock")):
            later.append((words, new, other, refusal.text))
    if depth > 1:
        for words, new, other, said in sorted(later, key=lambda it: LATER.index(it[2].sort))[:3]:
            named = words if other.sort == told.sort == "root" else f"{words}; then sigc says `{said}`, and"
            behind = tried(sigc, new, other, (*done, named), depth - (1 if other.sort == "root" else 3), limit)
            yield from itertools.islice(behind, MOST_BEHIND)


def joined_words(steps):
    """The words of several steps; one that names the next refusal is gone on with at once."""
    return "; ".join(steps).replace(", and; ", ", and ")
