"""Equations of the text: definitions, clocks, calls, claims and compositions. Cases, iterations and automata have files of their own."""
from sigc.expand import automata, cases, declarations, iterations, models, operators
from sigc.expand.definitions import Definition
from sigc.expand.messages import Refused
from sigc.expand.near import meant
from sigc.expand.representatives import is_own
from sigc.expand.scopes import Current, Sampled, Scope, Signal, Value, part_of
from sigc.expand.terms import EVENT, Term, fitted, is_constant, leaves, pointwise, shape_of, sizes_of, truth
from sigc.expand.tree import Automaton, Block, CallOnly, Case, Claim, Clocks, Dropped, Iteration, Left, Locals
from sigc.expand.tree import Definition as Defined


def open_scope(found: Locals, scope: Scope) -> None:
    """Declares what a scope has beside signals."""
    scope.uses += [scope.unit.modules.used(it, scope) for it in found.uses]
    declarations.declare(found, scope)


def declare_signals(found: Locals, scope: Scope) -> None:
    for it in found.signals:
        declarations.signal(it, scope, "local")
        if it.init is not None:
            scope.inits[it.name] = it.init


def close_scope(scope: Scope) -> None:
    """Refused where an output or a local of a scope has no definition."""
    for found in scope.signals.values():
        if isinstance(found, Signal) and not isinstance(found, Sampled) and found.role in ("output", "local"):
            missing = [it for it in found.kernel_names() if not scope.unit.definitions.get(it)]
            if missing:
                which = found.name if len(missing) == len(found.kernel_names()) else scope.unit.names.user(missing[0])
                raise Refused(found.at, f"{which} is not defined")


def body(found, scope: Scope) -> None:
    """The equations of a body."""
    WRITERS[type(found)](found, scope)


def block(found: Block, scope: Scope) -> None:
    inner = scope
    if found.locals != Locals():
        inner = Scope(scope.unit, scope)
        open_scope(found.locals, inner)
        declare_signals(found.locals, inner)
    for it in found.bodies:
        body(it, inner)
    if inner is not scope:
        close_scope(inner)


def target(left: Left, scope: Scope) -> Signal:
    """The signal, or the part of it, that a left side defines."""
    at, found = scope.at(left.at), scope.find(left.name)
    if found is None:
        raise Refused(at, f"unknown name {left.name}", *meant(left.name, scope.visible()))
    if isinstance(found, Value):
        raise Refused(at, f"constant {left.name} is defined", "its value is given where it is declared")
    if isinstance(found, Current):
        found = found.signal if left.indices else part_of(found)
    if found.role == "input" or isinstance(found, Sampled):
        raise Refused(at, f"input {left.name} is defined")
    return part(found, left, scope)


def part(found: Signal, left: Left, scope: Scope) -> Signal:
    """The element of a signal that the indices of a left side say."""
    if len(left.indices) > len(found.sizes):
        raise Refused(scope.at(left.at), f"{left.name} is no array" if not found.sizes else f"{left.name} has {len(found.sizes)} sizes")
    path = []
    for node, size in zip(left.indices, found.sizes):
        term = operators.single(node, scope, "an index")
        if not is_constant(term):
            raise Refused(scope.at(node.at), "a left side has a constant as index", f"write {left.name} := (S : V) next ..")
        if not 0 <= term.data < size:
            raise Refused(scope.at(node.at), f"index {term.data} is out of range", f"{left.name} has the elements 0 to {size - 1}")
        path.append(term.data)
    told = left.name + "".join(f"[{it}]" for it in path)
    return Signal(told, found.kind, found.sizes[len(path) :], found.at, found.role, found.inner(tuple(path)))


def definition(found: Defined, scope: Scope) -> None:
    right = found.right
    is_call = right.op == "call" and models.found_model(right.data[0], scope) is not None
    targets = [target(it, scope) for it in found.lefts]
    if not is_call and len(targets) > 1:
        raise Refused(scope.at(found.lefts[0].at), "several left sides without a call")
    if is_call:
        results = models.called(right, scope, None if found.is_partial else targets)
        if len(results) != len(targets):
            raise Refused(scope.at(right.at), f"bad call of {right.data[0]}", f"it has {len(results)} outputs")
    else:
        results = [operators.value_of(with_declared_init(found, scope), scope)]
    for left, signal, value in zip(found.lefts, targets, results):
        defined(signal, value, left, found, scope)


def with_declared_init(found: Defined, scope: Scope):
    """The right side; a delay without an init of its own has the one that its signal is declared with."""
    right = found.right
    if right.op == "delay" and right.data[1] is None and len(found.lefts) == 1 and not found.lefts[0].indices:
        init = scope.declared_init(found.lefts[0].name)
        if init is not None:
            right.data = (right.data[0], init)
    return right


def defined(signal: Signal, value, left: Left, found: Defined, scope: Scope) -> None:
    """Defines a signal by a value of its sizes; one value for all elements of an array is an array of it."""
    at = scope.at(left.at)
    if sizes_of(value) != signal.sizes:
        wanted = f"an array of {list(signal.sizes)}" if signal.sizes else "a single value"
        raise Refused(at, "sizes differ", f"{signal.name} is {wanted}, and its right side {shape_of(value)}")

    def one(name: Term, term: Term) -> None:
        term = fitted(term, signal.kind, at, signal.name)
        if name.data == term.data and term.op == "name" and found.right.op == "call":
            return
        if found.is_partial and term.op == operators.NEVER:
            return
        if found.is_partial and is_constant(term):
            raise Refused(scope.at(found.right.at), "a constant has no clock here", f"say when: {signal.name} ::= .. when B")
        scope.unit.defined(name.data, Definition(term, at, None if found.is_partial else scope.pace(), found.is_partial))

    pointwise(one, [signal.termed(signal.names, at), value], at)


def clocks(found: Clocks, scope: Scope) -> None:
    """`^=`, and the relations of clocks that are made of it."""
    terms = []
    for node in found.terms:
        term = leaves(operators.value_of(node, scope))[0]
        if not is_own(term) or term.op == operators.NEVER:
            raise Refused(scope.at(node.at), "a constant has no clock here", "a clock equation is about signals")
        terms.append(term)
    if found.op == "^=":
        scope.unit.tie(terms, scope.at(found.places[0]))
        return
    for one, other, place in zip(terms, terms[1:], found.places):
        relate(found.op, one, other, scope.at(place), scope)


def relate(op: str, one: Term, other: Term, at, scope: Scope) -> None:
    one, other = (scope.unit.named(it, "OPERAND", None) for it in (one, other))
    both = Term("^*", EVENT, at, [one, other])
    rest = Term("^-", EVENT, at, [one, one])
    scope.unit.tie({"^<": [one, both], "^>": [other, both], "^#": [both, rest]}[op], at)


def call_only(found: CallOnly, scope: Scope) -> None:
    models.dropped(found.call, scope)


def claim(found: Claim, scope: Scope) -> None:
    """A boolean of its own for what is claimed or assumed."""
    at, unit = scope.at(found.at), scope.unit
    term = truth(operators.single(found.claimed, scope, "a boolean"))
    if is_constant(term):
        if not term.data:
            raise Refused(at, f"this {found.word} is false", "what it says is a constant")
        return
    number = len(unit.claims[found.word]) + 1
    name = unit.fresh(f"{found.word}_{number}", "boolean", at, f"{found.word}_{number}")
    unit.defined(name, Definition(term, at, scope.pace()))
    unit.claims[found.word].append(name)


def told_dropped(found: Dropped, scope: Scope) -> None:
    scope.unit.told(scope.at(found.at), f"this is dropped: {found.what}")


WRITERS = {
    Block: block, Defined: definition, Clocks: clocks, CallOnly: call_only, Claim: claim, Dropped: told_dropped,
    Case: lambda *it: cases.case(*it), Iteration: lambda *it: iterations.iteration(*it), Automaton: lambda *it: automata.automaton(*it),
}
