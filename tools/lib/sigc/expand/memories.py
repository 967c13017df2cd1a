"""Delays, and what is made of them: windows, cells, counters; in a state that is entered anew they begin with their inits again."""
from sigc.expand.definitions import Definition
from sigc.expand.messages import At
from sigc.expand.terms import BOOLEAN, EVENT, INTEGER, Term, constant


def lasting(kind: object) -> object:
    """The kind of what is remembered of a signal."""
    return BOOLEAN if kind == EVENT else kind


def delayed(term: Term, init: Term, at: At, scope) -> Term:
    """The previous value of a term."""
    kind = lasting(term.kind)
    if scope.reset is None:
        return Term("delay", kind, at, [term], init)
    return begun_anew(term, init, at, scope)


def begun_anew(term: Term, init: Term, at: At, scope) -> Term:
    """A delay in a state that may be entered anew. What is remembered is kept at the clock of the state, so that an entry
    counts also where the signal does not come:

        Z_all := (init when RESET) default ZK, ZK := K $ 1 init init, K := X default Z_all, K ^= RESET, Z := Z_all when ^X
    """
    unit, kind, reset = scope.unit, lasting(term.kind), scope.reset
    source = unit.named(term, "X", scope.pace())
    held, kept, before = (unit.fresh(it, kind, at) for it in ("HELD", "KEPT", "BEFORE"))
    anew = Term("name", BOOLEAN, at, [], reset)
    named = {it: Term("name", kind, at, [], it) for it in (held, kept, before)}
    unit.defined(held, Definition(Term("default", kind, at, [Term("when", kind, at, [init, anew]), named[before]]), at))
    unit.defined(before, Definition(Term("delay", kind, at, [named[kept]], init), at))
    unit.defined(kept, Definition(Term("default", kind, at, [source, named[held]]), at))
    unit.tie([named[kept], anew], at)
    return Term("when", kind, at, [named[held], Term("clock", EVENT, at, [source])])


def delays(term: Term, inits: list[Term], at: At, scope) -> list[Term]:
    """The n previous values of a term, the last one first; inits are the oldest first."""
    found = [term]
    for init in reversed(inits):
        before = scope.unit.named(found[-1], "Z", scope.pace()) if len(found) > 1 else found[-1]
        found.append(delayed(before, init, at, scope))
    return found[1:]


def celled(term: Term, beat: Term, init: Term, at: At, scope) -> Term:
    """A cell: its own memory where a state may be entered anew, else the kernel's."""
    kind = lasting(term.kind)
    if scope.reset is None:
        return Term("cell", kind, at, [term, beat], init)
    unit, pace = scope.unit, scope.pace()
    name = unit.fresh("CELL", kind, at)
    made = Term("name", kind, at, [], name)
    when = unit.named(beat, "BEAT", pace)
    value = unit.named(term, "X", pace)
    before = unit.named(delayed(made, init, at, scope), "Z", pace)
    unit.defined(name, Definition(Term("default", kind, at, [value, Term("when", kind, at, [before, when])]), at, pace))
    unit.tie([made, Term("^+", EVENT, at, [value, Term("beat", EVENT, at, [when])])], at)
    return made


def beat_of(term: Term, at: At) -> Term:
    """When a signal beats: a boolean where it is true, another one where it comes."""
    return term if term.kind == EVENT else Term("beat" if term.kind == BOOLEAN else "clock", EVENT, at, [term])


def counted(term: Term, size: int, at: At, scope) -> Term:
    """`A count N`."""
    unit = scope.unit
    beat = unit.named(beat_of(term, at), "BEAT", scope.pace())
    name = unit.fresh("COUNT", INTEGER, at)
    made = Term("name", INTEGER, at, [], name)
    before = unit.named(delayed(made, constant(size - 1, INTEGER, at), at, scope), "Z", scope.pace())
    is_last = Term(">=", BOOLEAN, at, [before, constant(size - 1, INTEGER, at)])
    next_one = Term("+", INTEGER, at, [before, constant(1, INTEGER, at)])
    zero = Term("when", INTEGER, at, [constant(0, INTEGER, at), is_last])
    unit.defined(name, Definition(Term("default", INTEGER, at, [zero, next_one]), at))
    unit.tie([made, beat], at)
    return made


def since(term: Term, other: Term, is_from: bool, at: At, scope) -> Term:
    """`A after B` and `A from B`: the beats of A since the last one of B."""
    unit, pace = scope.unit, scope.pace()
    beat, start = (unit.named(beat_of(it, at), "BEAT", pace) for it in (term, other))
    name = unit.fresh("COUNT", INTEGER, at)
    made = Term("name", INTEGER, at, [], name)
    before = unit.named(delayed(made, constant(0, INTEGER, at), at, scope), "Z", pace)
    parts = [Term("when", INTEGER, at, [constant(0, INTEGER, at), start]), Term("+", INTEGER, at, [before, constant(1, INTEGER, at)])]
    if is_from:
        both = Term("^*", EVENT, at, [beat, start])
        parts.insert(0, Term("when", INTEGER, at, [constant(1, INTEGER, at), both]))
    unit.defined(name, Definition(chained(parts, INTEGER, at), at))
    unit.tie([made, Term("^+", EVENT, at, [beat, start])], at)
    return Term("when", INTEGER, at, [made, beat])


def chained(parts: list[Term], kind: object, at: At) -> Term:
    """Terms with `default` between each two."""
    found = parts[0]
    for it in parts[1:]:
        found = Term("default", kind, at, [found, it])
    return found
