"""Mends weighed by what they mean: what the writer's own equations give, read by themselves, against runs of the mended program.

sigc runs each mended program over flows by chance. At each instant the equations as they were written say what their signals
are, given all others; where the mended program has something else, the mend changed what was meant, and that is told beside it.
"""
import itertools
import random
from collections.abc import Iterator
from typing import NamedTuple

from sigc.call.compiler import Sigc
from sigc.read import expansion, lexer
from sigc.read.syntax import Process, read, source_of, walk
from sigc.why.causes import Expanded, told_of
from sigc.why.choices import choices
from sigc.why.changed_signals import NUMBERS, instants_of, is_changing
from sigc.why.plain_reading import ABSENT, Reading
from sigc.why.unreached import unreached_parts

# How often booleans are true in the flows of each run: half of the time, and now and then, so that timers run out.
SHARES = (0.5, 0.06)
INSTANTS = 200
MOST_NOTES = 3
# A text of so many bytes is run once.
LONG = 6000


class Weight(NamedTuple):
    """What there is to say of a mended program: the equations that it breaks with how often, the parts of it that never
    count, the inputs that come when the program says, the instants that were looked at, how many signals change, how many
    pairs of events of the text do not always come together, and what is to be said of inputs that were independent."""

    broken: dict
    unreached: list
    tied: list
    instants: int
    changing: int
    apart: int
    joined: list

    def key(self):
        """The more, the better."""
        return (-len(self.unreached), -len(self.tied), -len(self.broken), self.changing, self.apart)


def by_meaning(sigc: Sigc, text: str, mends: list) -> list:
    """Mends, those first that keep most of what was written, each with what it changes. Those with parts that never count are
    left out where there are others."""
    found = []
    for it in mends:
        if (text, it.text) not in sigc.measured:
            sigc.measured[text, it.text] = weight_of(sigc, text, it.text)
        weight = sigc.measured[text, it.text]
        found.append((weight, it._replace(notes=(*notes_of(text, weight), *choices(text, it.text)))))
    least = min((len(weight.unreached) for weight, _ in found), default=0)
    kept = [it for it in found if len(it[0].unreached) == least]
    return [it for _, it in sorted(kept, key=lambda pair: pair[0].key(), reverse=True)]


def weight_of(sigc: Sigc, text: str, mended: str) -> Weight:
    """The weight of a mended program beside the text that it mends."""
    process = read(text).processes[0]
    unreached = [words for _, words in unreached_parts(mended, read(mended).processes[0])]
    broken, instants, changing, there = {}, 0, set(), []
    try:
        for share in SHARES if len(text) < LONG else SHARES[:1]:
            run = instants_of(sigc, mended, drawn_flows(read(mended).processes[0], share))
            found, inputs = broken_by(text, mended, run)
            instants += len(inputs)
            there += inputs
            changing |= changing_in(process, run)
            for number, cases in found.items():
                broken.setdefault(number, []).extend(cases)
    except (lexer.Unreadable, KeyError, IndexError, StopIteration, RecursionError):
        pass
    apart = {frozenset(it) for it in pairs_apart(there, {it.name.text for it in process.inputs if it.kind == "event"})}
    joined = list(joined_words(independent(sigc, text, process), there))
    return Weight(broken, unreached, tied_inside(text, mended), instants, len(changing), len(apart), joined)


def pairs_apart(there, names):
    """The pairs of inputs of which the first one came without the second."""
    return {pair for present in there for pair in itertools.product(names & present, names - present)}


def independent(sigc, text, process):
    """The two inputs that sigc calls independent; none where it says something else."""
    refusal, inputs = sigc.check(text), {it.name.text for it in process.inputs}
    told = told_of(refusal.text) if refusal else None
    return told.names if told and told.sort == "root" and set(told.names) <= inputs else ()


def joined_words(names, there):
    """What a mend makes of two inputs of which each came by itself."""
    found = pairs_apart(there, set(names)) if there else set()
    if names and there and not found:
        yield f"with this, {names[0]} and {names[1]} always come together"
    elif len(found) == 1:
        (other, never), = found
        yield f"with this, {never} never comes without {other}"


def drawn_flows(process: Process, share: float, seed: int = 7) -> dict[str, list[str]]:
    """Flows by chance for the inputs of a process, the same at each call, with booleans true at this share of the instants."""
    chance = random.Random(seed)

    def value(kind):
        if kind == "integer":
            return str(chance.choice(NUMBERS))
        return "true" if kind == "event" or chance.random() < share else "false"

    return {it.name.text: [value(it.kind) for _ in range(INSTANTS)] for it in process.inputs}


def changing_in(process, instants):
    """The signals that a process defines and that are no constants in a run."""
    defined = {it.name.text: it.kind for it in [*process.outputs, *process.locals]}
    return {name for name, kind in defined.items() if is_changing(kind, [it.get(name) for it in instants])}


def broken_by(text, mended, instants):
    """The equations of a text that a run of the mended program breaks, each with its cases, and for each instant the inputs
    of the text that come."""
    process = read(mended).processes[0]
    expanded = Expanded(read(text).processes)
    reading = Reading(read(expanded.text(range(len(expanded.equations)))[0]).processes[0])
    known = {it.name for it in expansion.Expansion(mended).signals}
    asked = {it.name.text for it in process.inputs if it.kind == "boolean"}
    found, there, inputs = {}, [], {it.name for it in expanded.signals if it.role == "input"} & known
    for at, instant in enumerate(instants):
        values = {expanded.short[it.name]: value_of(it, instant.get(it.name), asked) for it in expanded.signals if it.name in known}
        for it in reading.broken(values):
            found.setdefault(it.number, []).append((at, it))
        there.append({it for it in inputs if values[it] is not ABSENT})
    return found, there


def value_of(signal, word, asked):
    """What a signal of the text is; an event that became a boolean comes where that is true."""
    if word is None or signal.kind == "event" and signal.name in asked and word == "false":
        return ABSENT
    return word == "true" if word in ("true", "false") else int(word)


def tied_inside(text, mended):
    """The inputs of which a new clock equation says that they come where a signal is true that is no input."""
    had = {" ^= ".join(source_of(text, it) for it in equation.terms) for equation in read(text).processes[0].equations if equation.form == "clock"}
    process, found = read(mended).processes[0], {}
    inputs = {it.name.text for it in process.inputs}
    for equation in (it for it in process.equations if it.form == "clock"):
        inner = [source_of(mended, it) for it in equation.terms if it.op == "at" and not {node.at.text for node in walk(it) if node.op == "name"} <= inputs]
        if inner and " ^= ".join(source_of(mended, it) for it in equation.terms) not in had:
            found.update({it.at.text: inner[0] for it in equation.terms if it.op == "name" and it.at.text in inputs})
    return list(found.items())


def notes_of(text: str, weight: Weight) -> Iterator[str]:
    """What a mend changes, in words: equations that it does not keep, inputs that do not come freely, and parts that never count."""
    if not weight.instants:
        yield "no drawn run of this has an instant: what it changes was not looked at"
    for name, clock in weight.tied:
        yield f"with this, {name} has to come exactly {clock}, and at no other instant"
    yield from weight.joined
    yield from (f"with this, {words}" for words in weight.unreached[:MOST_NOTES])
    if not weight.broken:
        return
    expanded = Expanded(read(text).processes)
    for number, cases in list(weight.broken.items())[:MOST_NOTES]:
        equation, (_, first) = expanded.equations[number], cases[0]
        place = f"{equation.place.line}:{equation.place.col}"
        often = f"{len(cases)} of {weight.instants} drawn instants"
        if first.name:
            yield f"with this, {equation.lefts[0]} {shown(first.had)} where the equation at {place} gives {given(first.given)} ({often})"
        else:
            yield f"with this, the signals of the clock equation at {place} do not come together ({often})"


def word_of(value):
    return str(value).lower() if isinstance(value, bool) else str(value)


def shown(value):
    return "does not come" if value is ABSENT else f"is {word_of(value)}"


def given(value):
    return "nothing" if value is ABSENT else word_of(value)
