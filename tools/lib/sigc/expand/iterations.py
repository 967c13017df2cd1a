"""Iterations: a body once for each index."""
from sigc.expand import equations, models, operators
from sigc.expand.definitions import Definition
from sigc.expand.defined_names import defined_in
from sigc.expand.messages import Refused
from sigc.expand.scopes import Current, Sampled, Scope, Signal, Value, part_of
from sigc.expand.terms import EVENT, INTEGER, Term, constant, fitted, leaves, mapped, shape_of, sizes_of
from sigc.expand.tree import Block, Iteration
from sigc.expand.tree import Definition as Defined


def iteration(found: Iteration, scope: Scope) -> None:
    last = operators.integer_of(found.last, scope, "the last index")
    if last < -1 or last >= operators.MOST_ELEMENTS:
        raise Refused(scope.at(found.last.at), f"an iteration to {last}", "it goes from 0 to the last index; to -1 it is nothing")
    begins = beginnings(found.begins, scope) if found.begins is not None and last >= 0 else {}
    names = [name for name, is_bare in defined_in(found.body).items() if is_bare]
    for number in range(last + 1):
        inner = Scope(scope.unit, scope)
        inner.turns = f" [{found.index}={number}]" + scope.turns
        inner.values[found.index] = Value(constant(number, INTEGER, scope.at(found.at)))
        inner.begins = {name: (number, value, array_of(name, scope)) for name, value in begins.items()}
        for name in names:
            elements(name, number, inner, scope)
        equations.body(found.body, inner)


def elements(name: str, number: int, inner: Scope, scope: Scope) -> None:
    """Makes the name of an array that the body defines without an index mean its element."""
    signal = array_of(name, scope)
    if signal is None:
        return
    if number >= signal.sizes[0]:
        raise Refused(inner.at(signal.at.place), f"index {number} is out of range", f"{name} has the elements 0 to {signal.sizes[0] - 1}")
    inner.signals[name] = Current(signal, number)


def array_of(name: str, scope: Scope) -> Signal | None:
    """The array that a name means outside of the iteration; none where it means none."""
    found = scope.find(name)
    if isinstance(found, Current):
        found = part_of(found)
    return found if isinstance(found, Signal) and not isinstance(found, Sampled) and found.sizes else None


def beginnings(body, scope: Scope) -> dict:
    """What the `with` part of an iteration gives, by names."""
    found: dict = {}
    for it in definitions_of(body, scope):
        right = it.right
        is_call = right.op == "call" and models.found_model(right.data[0], scope) is not None
        values = models.called(right, scope, None) if is_call else [operators.value_of(right, scope)]
        if len(values) != len(it.lefts):
            raise Refused(scope.at(it.lefts[0].at), "several left sides without a call")
        for left, value in zip(it.lefts, values):
            signal = array_of(left.name, scope)
            at = scope.at(left.at)
            if signal is None or left.indices:
                raise Refused(at, f"{left.name} is no array that the iteration defines", "with X := .. says the element before X[0]")
            if left.name in found:
                raise Refused(at, f"{left.name} is defined twice")
            found[left.name] = beginning(signal, value, at, scope)
    return found


def definitions_of(body, scope: Scope) -> list[Defined]:
    """The definitions of a `with` part; Refused where it has other equations."""
    if isinstance(body, Block) and not body.locals.signals:
        return [found for it in body.bodies for found in definitions_of(it, scope)]
    if isinstance(body, Defined) and not body.is_partial:
        return [body]
    raise Refused(scope.at(body.at if hasattr(body, "at") else body.places[0]), "`with` takes definitions alone", "with X := V, or with (| X := V | Y := W |)")


def beginning(signal: Signal, value, at, scope: Scope):
    """The value before the first element, of which each part may be used more than once; bare constants come with the array."""
    if sizes_of(value) != signal.sizes[1:]:
        wanted = str(list(signal.sizes[1:])) if signal.sizes[1:] else "a single value"
        raise Refused(at, "sizes differ", f"an element of {signal.name} is {wanted}, and this {shape_of(value)}")
    clock = Term("clock", EVENT, at, [leaves(signal.value(at))[0]])

    def one(term: Term) -> Term:
        term = fitted(term, signal.kind, at, signal.name)
        if term.op == "name":
            return term
        name = scope.unit.fresh(f"{leaves(signal.value(at))[0].data}_before", signal.kind, at, f"{signal.name}[-1]")
        scope.unit.defined(name, Definition(term, at, scope.pace() or clock))
        return Term("name", signal.kind, at, [], name)

    return mapped(one, value)
