"""What most likely is wrong with a name, a kind, a call, a constant or a pragma that sigc refuses."""
from sigc.hints.call_hints import clash_of_call, too_few_lefts
from sigc.hints.clashes import of_operands, of_sides
from sigc.hints.init_hints import init_hints
from sigc.hints.near_words import near, Hint
from sigc.hints.other_marks import comment_hint
from sigc.hints.missing_operators import operator_hints
from sigc.hints.signal_words import word_hint
from sigc.read.editing import groups_of, with_inputs, with_locals, without_declaration, Edit
from sigc.read.inferred_kinds import inferred, undeclared
from sigc.read.signal_kinds import kinds_of
from sigc.read.syntax import walk


def place_in(reader, line, col):
    """The process and the equation in which a place stands; None where it stands in none."""
    for process in reader.processes:
        for equation in process.equations:
            if equation.pieces and any((it.line, it.col) == (line, col) for it in equation.pieces):
                return process, equation
    owner = None
    for process in reader.processes:
        if (process.keyword.line, process.keyword.col) <= (line, col):
            owner = process
    return owner, None


def unknown_hints(reader, line, col, name):
    process, equation = place_in(reader, line, col)
    piece = next((it for it in reader.pieces if (it.line, it.col) == (line, col)), None)
    if process is None or piece is None:
        return []
    if name in ("pre", "fby", "last"):
        return [Hint(["the previous value of X is `X $ init C`, and C the first one"], "0---pre-n--1")]
    found = comment_before(reader, piece) or word_hint(name)
    if found:
        return [found]
    if equation and equation.called and equation.called.start == piece.start:
        return unknown_process(reader, process, piece)
    is_left = any(it.text == name for other in process.equations for it in other.lefts)
    found = [*renamed(reader, process, piece), *from_outside(process, name)]
    declared = declared_here(reader, process, name) if is_left else as_input(reader, process, name)
    return [*declared, *found] if is_left and not is_missing_left(process, name) else [*found, *declared]


def comment_before(reader, piece):
    at = reader.pieces.index(piece)
    one, other = reader.pieces[at - 2 : at] if at > 1 else (piece, piece)
    return comment_hint(reader.text, one) if one.text == other.text == "-" and one.end == other.start and other.line == piece.line else None


def unknown_process(reader, process, piece):
    if piece.text == "current":
        return [Hint(["the last value of A at the instants of B as well is `A cell ^B init 0`"], "marks-and-words-of-other-languages")]
    meant = near(piece.text, [it.name.text for it in reader.processes])
    if meant:
        return [Hint([f"did you mean `{meant}`?"], "", [Edit(piece.start, piece.end, meant)])]
    if process.declaration(piece.text):
        said = f"{piece.text} is a signal, and only a process is called: a product is `{piece.text} * (..)`"
        return [*operator_hints(reader.pieces, reader.pieces.index(piece) + 1, kinds_of(process)), Hint([said])]
    return [Hint([f"no process has the name {piece.text}: write it behind `where`, as `process {piece.text} = (? .. ! ..) ..;`"])]


def is_missing_left(process, name):
    """Whether the name of an output or a local without a definition is near: it may be misspelt."""
    defined = {it.text for equation in process.equations for it in equation.lefts}
    return bool(near(name, [it.name.text for it in [*process.outputs, *process.locals] if it.name.text not in defined]))


def renamed(reader, process, piece):
    """Another name for one that is not declared, wherever the process has it."""
    meant = near(piece.text, [it.name.text for it in process.names()])
    edits = [Edit(it.start, it.end, meant) for equation in process.equations for it in equation.pieces if it.text == piece.text]
    return [Hint([f"did you mean `{meant}`?"], "", edits or [Edit(piece.start, piece.end, meant)])] if meant else []


def from_outside(process, name):
    """A name of a process around this one."""
    outer = process.parent
    while outer and not outer.declaration(name):
        outer = outer.parent
    if outer is None:
        return []
    at = outer.declaration(name).name
    return [Hint([f"it is a name of {outer.name.text}, at {at.line}:{at.col}: {process.name.text} has to take it as an input or a parameter"])]


def declared_here(reader, process, name):
    """A local that was to be declared, and with it the others that the process defines."""
    kinds = {it: kind for it, kind in undeclared(reader, process).items() if it == name or not is_missing_left(process, it)}
    if name not in kinds or not process.end:
        return [Hint([f"{name} is defined here and declared nowhere: a local is declared behind `where`, with its kind"])]
    which, text = "it" if len(kinds) == 1 else ", ".join(kinds), " ".join(groups_of(kinds))
    words = f"declare {which} behind `where`: {text}" if process.where else f"declare {which}: `where {text} end` behind the equations"
    return [Hint([words], "unknown-name-x", with_locals(process, kinds))]


def as_input(reader, process, name):
    """A name that nothing defines: a number, or an input."""
    kind = inferred(reader, process, name)
    begun = f"nothing defines {name}"
    if kind is None or process is not reader.processes[0] or not process.query:
        return [Hint([f"{begun}: write its value where it stands, or let the process take it as an input or a parameter"])]
    words = f"{begun}: write its value where it stands, or make it an input, `{kind} {name}`"
    return [Hint([words], "unknown-name-x", with_inputs(process, kind, [name])), Hint([f"{begun}: write its value where it stands, or an equation for it"])]


def undefined_hints(reader, line, col, name):
    process = next((it for it in reader.processes if any((one.name.line, one.name.col) == (line, col) for one in it.names())), None)
    declaration = next((it for it in process.names() if (it.name.line, it.name.col) == (line, col)), None) if process else None
    if declaration is None:
        return []
    if declaration.init:
        value = "".join(it.text for it in declaration.init)
        words = f"an init is the first value of a delay, and no definition: write {value} where {name} stands, or a parameter"
        edits = [Edit(it.start, it.end, value) for equation in process.equations for it in equation.pieces if it.text == name]
        edits += [without_declaration(reader.text, process, declaration)] if declaration.role == "local" else []
        return [Hint([words], "offset-init-3-as-a-constant", it) for it in (edits, ())]
    lefts = too_few_lefts(reader, process)
    if lefts:
        return [Hint(lefts)]
    if declaration.role == "local" and not any(it.text == name for it in process.body):
        words = f"no equation names {name}: take its declaration away"
        return [Hint([words], "x-is-not-defined", [without_declaration(reader.text, process, declaration)])]
    if any(equation.form == "clock" and any(it.op == "name" and it.at.text == name for it in equation.terms) for equation in process.equations):
        return [Hint([f"a clock equation says when {name} comes; what it is says a definition, `{name} := ..`"])]
    return [Hint([f"each output and each local has an equation, `{name} := ..`; what comes from outside is an input"])]


def clash_hints(reader, line, col):
    process, equation = place_in(reader, line, col)
    found = init_hints(reader, line, col)
    if found or process is None or equation is None:
        return found
    kinds = kinds_of(process)
    for node in (it for whole in equation.expressions() for it in walk(whole)):
        if (node.at.line, node.at.col) == (line, col) and node.parts:
            return of_operands(reader.text, node, kinds)
    if equation.form == "call":
        return [Hint(clash_of_call(reader, process, equation))]
    return of_sides(reader, process, equation, kinds) if equation.form == "definition" else []


def call_hint(reader, line, col, name):
    process, equation = place_in(reader, line, col)
    called = next((it for it in reader.processes if it.name.text == name), None)
    if called and called is reader.processes[0] and (called.name.line, called.name.col) == (line, col):
        words = "the first process is the one that is compiled, and nobody gives it its parameters: the main process comes first"
        return Hint([words], "a-called-process-before-the-main-one")
    if equation and equation.form == "definition":
        return Hint(["several left sides stand before a call alone: each of them has an equation of its own"])
    if called is None or equation is None or equation.form != "call":
        return Hint([])
    wanted = [len(called.parameters), len(called.inputs), len(called.outputs)]
    given = [len(equation.constants), len(equation.arguments), len(equation.lefts)]
    words = [f"{number} {word}{'s' if number != 1 else ''}" for number, word in zip(wanted, ("constant", "argument", "left side"))]
    return Hint([f"{name} has {', '.join(words)}; here are {', '.join(map(str, given))}"])


def recursive_hint(reader, line, col):
    return Hint(["no process calls itself, also not through others: what is to be remembered is a delay, `X $ init C`"])


def bare_hint(reader, line, col):
    """A constant without a clock: what says when it is wanted."""
    process, equation = place_in(reader, line, col)
    if process is None or equation is None:
        return Hint([])
    parameters = {it.name.text for it in process.parameters}
    for node in (it for whole in equation.expressions() for it in walk(whole)):
        if (node.at.line, node.at.col) != (line, col):
            continue
        if node.parts:
            words = "an operator needs a signal among its operands: put the number on the other side"
            return Hint([words], "-limit-and-m---1-of-a-parameter")
        nodes = [it for whole in equation.expressions() for it in walk(whole)]
        signals = [it.at.text for it in nodes if it.op == "name" and it.at.text not in parameters]
        name = (signals or [it.name.text for it in process.inputs] or ["X"])[0]
        return timed(node, name, is_whole=equation.right is node)
    return Hint([])


def timed(node, name, is_whole):
    """A constant at the instants of a signal."""
    words = f"{node.at.text} when ^{name}"
    edit = Edit(node.start, node.end, words if is_whole else f"({words})")
    return Hint([f"a constant has no clock: say when, as `{words}`"], "y--1" if is_whole else "bare-constant", [edit])


def pragma_hint(reader, line, col):
    """What is wrong with a pragma: a name that is none of a signal, or stands in one before, or the number of the cluster."""
    for process in reader.processes:
        signals, seen = [it.name.text for it in process.signals()], set()
        for word, names, label in process.pragmas:
            for it in names:
                if (it.line, it.col) == (line, col) and it.text in seen:
                    return Hint([f"{it.text} stands in a pragma before: a signal has one cluster"])
                if (it.line, it.col) == (line, col):
                    meant = near(it.text, signals)
                    return Hint([f"did you mean `{meant}`?" if meant else f"{it.text} is no signal of {process.name.text}"])
                seen.add(it.text)
            if (word.line, word.col) == (line, col):
                return Hint([f'a cluster is a number from 0 to 63 in quotes, as "1", and not {label.text}'])
    return Hint([])
