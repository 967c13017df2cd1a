"""Calls: the equations of a process in place of each call, with signals of their own."""
from sigc.expand import declarations, equations, operators
from sigc.expand.definitions import Definition
from sigc.expand.messages import At, Refused
from sigc.expand.near import meant
from sigc.expand.scopes import Scope, Signal
from sigc.expand.terms import fitted, leaves, mapped, pointwise, shape_of, sizes_of
from sigc.expand.tree import Declared, Node


def found_model(name: str, scope: Scope):
    """The process of a name: declared here or around, else the first one of the text."""
    return scope.found("models", name) or scope.unit.models.get(name)


def called(node: Node, scope: Scope, lefts: list | None) -> list:
    """The values of the outputs of a call; where left sides are given that are signals of the same kind, they are its outputs."""
    word, given = node.data
    at, model = scope.at(node.at), found_model(word, scope)
    if model is None:
        raise Refused(at, f"unknown process {word}", *meant(word, scope.unit.models))
    process = model.process
    if process in scope.active:
        raise Refused(at, f"recursive call of {word}")
    if len(node.parts) != len(process.inputs):
        raise Refused(at, f"bad call of {word}", f"it has {len(process.inputs)} inputs, and the call {len(node.parts)} arguments")
    if lefts is not None and len(lefts) != len(process.outputs):
        raise Refused(at, f"bad call of {word}", f"it has {len(process.outputs)} outputs, and the call {len(lefts)} left sides")
    arguments = [operators.value_of(it, scope) for it in node.parts]
    return instance(model, given, arguments, lefts or [None] * len(process.outputs), scope, at)


def instance(model, given: list, arguments: list, lefts: list, scope: Scope, at: At) -> list:
    """One copy of a process."""
    unit, process = scope.unit, model.process
    unit.calls += 1
    inner = Scope(unit, model.scope, True)
    inner.prefix = (f"{process.name}_{unit.calls}_", f"{process.name}#{unit.calls}.")
    inner.call = f" in {process.name}#{unit.calls} (called at {at})"
    inner.reset, inner.active = scope.reset, (*scope.active, process)
    declarations.parameters(process, given, inner, scope, at)
    equations.open_scope(process.locals, inner)
    for declared, value in zip(process.inputs, arguments):
        give(declared, value, inner, at)
    outputs = [take(declared, left, inner) for declared, left in zip(process.outputs, lefts)]
    inner.inits = {it.name: it.init for it in process.outputs if it.init is not None}
    equations.declare_signals(process.locals, inner)
    for it in process.pragmas:
        if it.name == "Comes":
            raise Refused(inner.at(it.at), "bad pragma", "`Comes` stands in the first process alone: it is about inputs of the program")
    equations.body(process.body, inner)
    equations.close_scope(inner)
    return [it.value(at) for it in outputs]


def give(declared: Declared, value, inner: Scope, at: At) -> None:
    """Gives an input its argument: a signal as it is, another value by a signal of its own."""
    base, sizes = declarations.kind_of(declared.kind, inner)
    told = f"input {declared.name} of {inner.active[-1].name}"
    if sizes_of(value) != sizes:
        wanted = str(list(sizes)) if sizes else "a single value"
        raise Refused(at, "sizes differ", f"{told} is {wanted}, and the argument {shape_of(value)}")
    value = mapped(lambda it: fitted(it, base, it.at, told), value)
    if all(it.op == "name" and it.kind == base for it in leaves(value)):
        declarations.signal(declared, inner, "input", names_of(value))
        return
    made = declarations.signal(declared, inner, "input")
    pointwise(lambda name, it: inner.unit.defined(name.data, Definition(it, it.at)), [made.value(at), value], at)
    made.role = "input"


def names_of(value):
    return [names_of(it) for it in value] if isinstance(value, list) else value.data


def take(declared: Declared, left: Signal | None, inner: Scope) -> Signal:
    """An output: the signal on the left side if there is one of its kind and sizes."""
    base, sizes = declarations.kind_of(declared.kind, inner)
    if left is not None and left.kind == base and left.sizes == sizes:
        return declarations.signal(declared, inner, "output", left.names)
    return declarations.signal(declared, inner, "output")


def dropped(node: Node, scope: Scope) -> None:
    """A call without a left side."""
    results = called(node, scope, None)
    if results:
        scope.unit.told(scope.at(node.at), f"the outputs of {node.data[0]} are dropped")
