"""What is wrong with a call: how many constants, arguments and left sides it has and should have, and of which kinds."""
from sigc.read.signal_kinds import kind_of, kinds_of

NUMBERS = {1: "one", 2: "two", 3: "three"}


def called_by(reader, equation):
    return next((it for it in reader.processes if it.name.text == equation.called.text), None)


def outputs_of(called):
    """The outputs of a process, as `MODES has 3 outputs: integer STATE, ..`."""
    count = len(called.outputs)
    listed = ", ".join(f"{it.kind} {it.name.text}" for it in called.outputs)
    return f"{called.name.text} has {count} output{'s' if count != 1 else ''}" + (f": {listed}" if listed else "")


def lefts_of(equation):
    count = len(equation.lefts)
    return f"{NUMBERS.get(count, count)} left side{'s stand' if count != 1 else ' stands'} here"


def too_few_lefts(reader, process):
    """A call of the process that has fewer left sides than outputs; lines, none where there is no such call."""
    for equation in (it for it in process.equations if it.form == "call"):
        called = called_by(reader, equation)
        if called and len(equation.lefts) < len(called.outputs):
            return [f"{outputs_of(called)}; {lefts_of(equation)}, at {equation.pieces[0].line}:{equation.pieces[0].col}"]
    return []


def clash_of_call(reader, process, equation):
    """Why the kinds of a call clash: lines."""
    called = called_by(reader, equation)
    if called is None:
        return []
    kinds = kinds_of(process)
    if len(equation.lefts) != len(called.outputs):
        return [f"{outputs_of(called)}; {lefts_of(equation)}"]
    for word, given, wanted in pairs_of(equation, called, kinds):
        if given and given != wanted.kind and not (word == "output" and (wanted.kind, given) == ("event", "boolean")):
            if word == "output":
                return [f"{outputs_of(called)}; {wanted.name.text} goes to a signal of kind {given}"]
            return [f"the {word} {wanted.name.text} of {called.name.text} is {wanted.kind}, and {given} is given"]
    return []


def pairs_of(equation, called, kinds):
    """The outputs, parameters and inputs of what is called, each with the kind that the call has for it."""
    for it, left in zip(called.outputs, equation.lefts):
        yield "output", kinds.get(left.text), it
    for it, constant in zip(called.parameters, equation.constants):
        yield "parameter", kind_of_constant(constant, kinds), it
    for it, argument in zip(called.inputs, equation.arguments):
        given = kind_of(argument, kinds)
        yield "input", "boolean" if (given, it.kind) == ("event", "boolean") else given, it


def kind_of_constant(pieces, kinds):
    last = pieces[-1]
    return "boolean" if last.text in ("true", "false") else "integer" if last.kind == "number" else kinds.get(last.text)
