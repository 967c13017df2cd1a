"""Cases: branches of which one is taken, with sampled inputs and merged results."""
from sigc.expand import equations, operators
from sigc.expand.branches import Branching
from sigc.expand.comparisons import joined
from sigc.expand.defined_names import defined_in
from sigc.expand.definitions import Definition
from sigc.expand.memories import chained
from sigc.expand.messages import At, Refused
from sigc.expand.scopes import Current, Sampled, Scope, Signal, Value, listed, part_of
from sigc.expand.terms import BOOLEAN, EVENT, INTEGER, TRUTHS, Enumeration, Term, alone, settled
from sigc.expand.tree import Block, Case


def case(found: Case, scope: Scope) -> None:
    at, unit = scope.at(found.at), scope.unit
    chosen = alone(operators.single(found.chosen, scope))
    if operators.is_constant(chosen):
        raise Refused(scope.at(found.chosen.at), "a case of a constant", "it wants a signal: write `if` for a constant condition")
    chosen = unit.named(chosen, "CHOSEN", scope.pace())
    beats = beats_of(found, chosen, scope)
    bodies = [(it.body, beat, label_of(it, number)) for number, (it, beat) in enumerate(zip(found.branches, beats), 1)]
    branches(bodies, scope, at)


def label_of(branch, number: int) -> str:
    """What a branch is called in names of the kernel."""
    value = branch.values[0] if branch.values else None
    if value is not None and value.op == "enum":
        return value.data[1]
    return "else" if value is None else f"case{number}"


def values_of(found: Case, kind: object, scope: Scope) -> list[list[int] | None]:
    """The values of each branch; Refused where one stands twice or is of another kind."""
    seen: dict = {}
    rows = []
    for branch in found.branches:
        if branch.values is None:
            rows.append(None)
            continue
        row = []
        for node in branch.values:
            term = settled(operators.single(node, scope, "a value"), kind)
            at = scope.at(node.at)
            if not operators.is_constant(term):
                raise Refused(at, "a value of a case has to be a constant")
            if alone(term).kind != kind and not {term.kind, kind} <= set(TRUTHS):
                raise Refused(at, "types clash", f"the case is of {kind}, and this value {term.kind}")
            if term.data in seen:
                raise Refused(at, "this value stands twice in the case", f"the other one is at {seen[term.data]}")
            seen[term.data] = at
            row.append(term.data)
        rows.append(row)
    return rows


def beats_of(found: Case, chosen: Term, scope: Scope) -> list[str]:
    """A boolean for each branch, that says where it is taken; no two of them are true together."""
    rows = values_of(found, chosen.kind, scope)
    every = set(range(len(chosen.kind.values))) if isinstance(chosen.kind, Enumeration) else {True, False} if chosen.kind in TRUTHS else None
    given = {it for row in rows for it in row or []}
    if None in rows and every is not None and given >= every:
        raise Refused(scope.at(found.branches[-1].at), "this `else` is never taken", "the branches before it have all values of the type")
    if chosen.kind in TRUTHS:
        return boolean_beats(found, rows, chosen, scope)
    beats: list[str] = []
    for branch, row in zip(found.branches, rows):
        at = scope.at(branch.at)
        taken = [Term("name", BOOLEAN, at, [], it) for it in beats]
        tests = [scope.unit.comparisons.of(chosen.data, chosen.kind, it, at) for it in row or []]
        none = Term("not", BOOLEAN, at, [joined("or", taken, at)]) if taken else None
        if row is None:
            term = none or every_time(chosen, at)
        elif chosen.kind == INTEGER and none is not None:
            term = Term("and", BOOLEAN, at, [joined("or", tests, at), none])
        else:
            term = joined("or", tests, at)
        beats.append(scope.unit.named(term, "TAKEN", None, f"{scope.unit.names.user(chosen.data)} in this branch").data)
    return beats


def every_time(chosen: Term, at: At) -> Term:
    return Term("clock", EVENT, at, [chosen])


def boolean_beats(found: Case, rows: list, chosen: Term, scope: Scope) -> list[str]:
    beats, given = [], [it for row in rows for it in row or []]
    for branch, row in zip(found.branches, rows):
        at = scope.at(branch.at)
        row = [it for it in (True, False) if it not in given] if row is None else row
        term = chosen if row == [True] else Term("not", BOOLEAN, at, [chosen]) if row == [False] else every_time(chosen, at)
        beats.append(scope.unit.named(term, "TAKEN", None).data)
    return beats


def branches(bodies: list, scope: Scope, at: At, resets: list | None = None) -> list[Scope]:
    """Each body where its beat is true, and the merged results; their scopes."""
    scopes, results = [], {}
    for number, (body, beat, label) in enumerate(bodies):
        inner = Scope(scope.unit, scope)
        inner.branch = Branching(scope.unit, beat, label, at)
        if resets and resets[number] is not None:
            inner.reset = resets[number]
        copies = {name: copy_of(name, label, scope, inner) for name in defined_in(body)}
        inner.signals.update({name: it for name, it in copies.items() if it is not None})
        branch_body(body, inner)
        for name, it in copies.items():
            if it is not None:
                results.setdefault(name, []).append(it)
        scopes.append(inner)
    for name, parts in results.items():
        merge(name, parts, scope, at)
        tell_absent(name, bodies, scope, at)
    return scopes


def tell_absent(name: str, bodies: list, scope: Scope, at: At) -> None:
    """Reports the branches that do not define a signal which others define."""
    for body, _, _ in bodies:
        if name not in defined_in(body):
            scope.unit.told(scope.at(body.at) if hasattr(body, "at") else at, f"{name} is absent where this branch is taken: no equation here defines it")


def branch_body(body, inner: Scope) -> None:
    """The equations of a branch. What its `where` declares, the conditions of a state see too."""
    if not isinstance(body, Block):
        equations.body(body, inner)
        return
    equations.open_scope(body.locals, inner)
    equations.declare_signals(body.locals, inner)
    for it in body.bodies:
        equations.body(it, inner)
    equations.close_scope(inner)


def outside(name: str, scope: Scope) -> Signal | None:
    """The signal of outside that a branch defines; none where the name means no signal, which its definition will say."""
    found = scope.find(name)
    if isinstance(found, Current):
        return part_of(found)
    return found if isinstance(found, Signal) and not isinstance(found, (Sampled, Value)) and found.role != "input" else None


def copy_of(name: str, label: str, scope: Scope, inner: Scope) -> Signal | None:
    """What a branch makes of a signal of outside that it defines. Elements that it leaves out have no definition."""
    of = outside(name, scope)
    if of is None:
        return None
    unit = scope.unit

    def made(names):
        if isinstance(names, list):
            return [made(it) for it in names]
        return unit.fresh(f"{names}_{label}", of.kind, of.at, f"{unit.names.user(names)} in {label}")

    return Signal(of.name, of.kind, of.sizes, of.at, "result", made(of.names))


def merge(name: str, parts: list[Signal], scope: Scope, at: At) -> None:
    """A signal of outside comes where a branch that defines it does."""
    unit, of = scope.unit, outside(name, scope)
    columns = list(zip(listed(of.names), *(listed(it.names) for it in parts)))
    for names in columns:
        defined = [it for it in names[1:] if unit.definitions.get(it)]
        for it in names[1:]:
            if it not in defined:
                unit.signals.pop(it)
        if defined:
            terms = [Term("name", of.kind, at, [], it) for it in defined]
            unit.defined(names[0], Definition(chained(terms, of.kind, at), at, None, True, unit.definitions[defined[0]][0].place()))
