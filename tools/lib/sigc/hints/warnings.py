"""Warnings: what sigc takes, and what was hardly meant."""
from typing import NamedTuple

from sigc.read.signal_kinds import is_integer_comparison, kinds_of
from sigc.read.syntax import source_of, walk, words_in
from sigc.why.deciding_comparisons import deciding_comparisons
from sigc.why.loops import definitions
from sigc.why.mending import clocked_by_when, narrowed_operands, written_twice
from sigc.why.ties import unasked
from sigc.why.unreached import unreached_parts


class Warning(NamedTuple):
    line: int
    col: int
    text: str


def at(piece, text):
    return Warning(piece.line, piece.col, text)


def is_used(process, name):
    """Whether another equation than its own definition names a signal."""
    others = [it for it in process.equations if name not in [left.text for left in it.lefts]]
    return any(piece.text == name for it in others for piece in words_in(it.pieces))


def is_automaton(process):
    """Whether a process is one that sigc-automaton writes: it has a state, and signals for each of them, used or not."""
    outputs = [it.name.text for it in process.outputs if it.kind == "integer"]
    return outputs[:1] == ["STATE"] and any(it.name.text in ("NEXT", "ZSTATE") for it in process.locals)


def given_states(process, processes):
    """The signals of a process that are the state of an automaton that it calls."""
    automata = {it.name.text for it in processes if is_automaton(it)}
    return {it.lefts[0].text for it in process.equations if it.called and it.called.text in automata and it.lefts}


def unused_locals(text, processes):
    for process in processes:
        states = given_states(process, processes)
        for it in [] if is_automaton(process) else process.locals:
            if it.name.text not in states and not is_used(process, it.name.text):
                yield at(it.name, f"local {it.name.text} is not used")
        if process is not processes[0]:
            for it in [*process.inputs, *process.parameters]:
                if not is_used(process, it.name.text):
                    yield at(it.name, f"{it.role} {it.name.text} is not used")


def unasked_inputs(text, processes):
    """The boolean inputs of the first process of which one clock equation says when they come, and nothing else."""
    process = processes[0]
    named = [piece.text for equation in process.equations for piece in words_in(equation.pieces)]
    for it in [] if is_automaton(process) else unasked(process):
        if named.count(it.name.text) == 1:
            yield at(it.name, f"nothing asks the boolean input {it.name.text}: is something to come `when {it.name.text}`, or is it an event?")


def unused_processes(text, processes):
    called = {it.called.text for process in processes for it in process.equations if it.called}
    for process in processes[1:]:
        if process.name.text not in called:
            yield at(process.name, f"process {process.name.text} is not called")


def twice(text, processes):
    """Comparisons that are written twice, where clocks differ by them: of values alone each says the same."""
    for process in processes:
        deciding = deciding_comparisons(process) if written_twice(text, process) else ()
        for found in written_twice(text, process):
            first, *others = [node for node, _ in found if node.at in deciding] or [None]
            for node in others:
                where = f"{source_of(text, node)} stands at {first.at.line}:{first.at.col} too"
                yield at(node.at, f"{where}: two conditions to sigc, which may differ; name it once")


def equal_delays(process, text):
    """The delays of a process that keep the same: lists of nodes with the same operand and the same first value."""
    found = {}
    for equation in process.equations:
        for whole in equation.expressions():
            for node in (it for it in walk(whole) if it.op == "$"):
                declared = process.declaration(equation.lefts[0].text) if node is equation.right else None
                init = node.init or (declared.init if declared else [])
                found.setdefault((source_of(text, node.parts[0]), "".join(it.text for it in init)), []).append(node)
    return [it for it in found.values() if len(it) > 1]


def delayed_twice(text, processes):
    for process in processes:
        for first, *others in equal_delays(process, text):
            for node in others:
                where = f"the delay of {source_of(text, node.parts[0])} at {first.at.line}:{first.at.col} keeps the same"
                yield at(node.at, f"{where}: two memories with one value; name it once, and use the name")


def narrowing(text, processes):
    for process in processes:
        clocked = clocked_by_when(process)
        for node, rare, other in narrowed_operands(process):
            if is_tied(text, rare, other, clocked, process):
                continue
            one, two = source_of(text, rare), source_of(text, other)
            yield at(node.at, f"{two} has to come as rarely as {one} here: the operands of `{node.op}` are present together")


def is_tied(text, rare, other, clocked, process):
    """Whether an equation says that an operand comes as rarely as the one beside it: `B ^= when C` beside `A when C`, or
    `A when ^B` itself."""
    rare = definitions(process).get(rare.at.text, rare) if rare.op == "name" else rare
    condition = rare.parts[-1]
    if other.op != "name":
        return False
    if condition.op in ("^", "name"):
        inner = condition.parts[0] if condition.op == "^" else condition
        if inner.op == "name" and inner.at.text == other.at.text:
            return True
    asked = clocked.get(other.at.text)
    return asked is not None and source_of(text, asked) == source_of(text, condition)


def compared(process):
    """The booleans of a process that an integer comparison defines."""
    kinds = kinds_of(process)
    return {
        it.lefts[0].text
        for it in process.equations
        if it.form == "definition" and it.right and any(is_integer_comparison(node, kinds) for node in walk(it.right))
    }


def steered(text, processes):
    """The inputs that come where a comparison of integers is true: the program decides when it takes them."""
    process = processes[0]
    kinds, names = kinds_of(process), compared(process)
    inputs = {it.name.text: it for it in process.inputs}
    for equation in (it for it in process.equations if it.form == "clock"):
        asked = [it for it in equation.terms if it.op == "at" and decides(it.parts[0], kinds, names)]
        for it in equation.terms:
            if asked and it.op == "name" and it.at.text in inputs:
                name = it.at.text
                yield at(it.at, f"input {name} is taken where {source_of(text, asked[0].parts[0])}: the values of integers decide when it comes")


def decides(node, kinds, names):
    return any(is_integer_comparison(it, kinds) or it.op == "name" and it.at.text in names for it in walk(node))


def unreached(text, processes):
    for process in processes:
        if not is_automaton(process):
            yield from (at(piece, words) for piece, words in unreached_parts(text, process))


RULES = (unused_locals, unasked_inputs, unused_processes, twice, delayed_twice, narrowing, steered)


def warnings_of(reader, is_accepted=True):
    """The warnings of a program without faults, by place; of one that sigc refuses those that do not ask its clocks."""
    if reader.faults or not reader.processes:
        return []
    rules = (*RULES, unreached) if is_accepted else RULES
    return sorted({it for rule in rules for it in rule(reader.text, reader.processes)})


def without_values(names, flows):
    """Those of these inputs that have no value in a flow file."""
    given = {words[0] for words in (line.split(None, 2) for line in flows.split("\n")) if len(words) > 1}
    return [it for it in names if it not in given]


def empty_flows(reader, flows, path="", paces=()):
    """Warnings of the inputs that have no value in a flow file, those that --pace adds last."""
    if not reader.processes:
        return []
    process = reader.processes[0]
    places = {**{it.name.text: it.name for it in process.inputs}, **dict.fromkeys(paces, process.name)}
    where = f" in {path}" if path else ""
    return [at(places[it], f"input {it} has no values{where}: the run ends where it is to come") for it in without_values(places, flows)]
