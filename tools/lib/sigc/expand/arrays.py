"""Arrays: elements by a constant or by a signal, arrays with one element changed, and operands that are taken element by element."""
from sigc.expand.comparisons import joined
from sigc.expand.definitions import Definition
from sigc.expand.memories import chained
from sigc.expand.messages import At, Refused
from sigc.expand.representatives import clock_of
from sigc.expand.terms import BOOLEAN, INTEGER, TRUTHS, Term, agreed, alone, constant, is_constant, leaves, mapped, pointwise, shape_of, sizes_of, whole


def named(value, wanted: str, scope):
    """A value of which each part may be used more than once: names and constants."""
    return mapped(lambda it: it if is_constant(it) else scope.unit.named(alone(it), wanted, scope.pace()), value)


def elementwise(function, values: list, at: At, scope):
    """A function of values, by their elements. A single value beside arrays is used for each element, so it has a name."""
    if any(isinstance(it, list) for it in values):
        values = [it if isinstance(it, list) else named(it, "OPERAND", scope) for it in values]
    return pointwise(function, values, at)


def tied(terms: list[Term], at: At, scope) -> list[Term]:
    """Terms that come together, with names for those whose clock has none."""
    if sum(not is_constant(it) for it in terms) < 2:
        return terms
    terms = [it if is_constant(it) or clock_of(it) else scope.unit.named(alone(it), "OPERAND", scope.pace()) for it in terms]
    clocks = {clock_of(it).data: clock_of(it) for it in terms if not is_constant(it)}
    if len(clocks) > 1:
        scope.unit.tie(list(clocks.values()), at)
    return terms


def enumerated(values: list, at: At, scope) -> list:
    """`[E1, .., En]`."""
    if any(sizes_of(it) != sizes_of(values[0]) for it in values):
        raise Refused(at, "sizes differ", "the elements are " + ", ".join(shape_of(it) for it in values))
    terms = iter(tied(leaves(values), at, scope))
    return together(mapped(lambda _: next(terms), values), scope)


def together(values: list, scope) -> list:
    """An array whose elements come together, bare constants with the others."""
    terms = iter(coming(leaves(values), scope))
    return mapped(lambda _: next(terms), values)


def coming(terms: list[Term], scope) -> list[Term]:
    """Elements of which bare constants come with the others, also where each element is taken by itself."""
    at = next((number for number, it in enumerate(terms) if not is_constant(it)), None)
    if at is None or not any(is_constant(it) for it in terms):
        return terms
    first = terms[at] if clock_of(terms[at]) else scope.unit.named(alone(terms[at]), "OPERAND", scope.pace())
    comes = Term("clock", "event", first.at, [first])
    terms = [*terms[:at], first, *terms[at + 1 :]]
    return [Term("when", it.kind, it.at, [it, comes]) if is_constant(it) else it for it in terms]


def in_range(index: int, size: int, at: At) -> int:
    if not 0 <= index < size:
        raise Refused(at, f"index {index} is out of range", f"the array has the elements 0 to {size - 1}")
    return index


def element(value, index: Term, at: At, scope):
    """The element that an index says."""
    if not isinstance(value, list):
        raise Refused(at, "this is no array", "an index stands behind an array alone")
    index = whole(index)
    if is_constant(index):
        return value[in_range(index.data, len(value), index.at)]
    return chosen(value, index, at, scope)


def chosen(value: list, index: Term, at: At, scope):
    """The element that a signal says; an index out of range ends the run, as a division by 0 that is only done then."""
    unit = scope.unit
    index = unit.named(index, "INDEX", scope.pace())
    value = named(value, "ELEMENT", scope)
    first = next((it for it in leaves(value) if not is_constant(it)), None)
    tied([index] + ([first] if first else []), at, scope)
    cases = [unit.comparisons.of(index.data, INTEGER, number, at) for number in range(len(value))]
    outside = unit.named(Term("not", BOOLEAN, at, [joined("or", cases, at)]), "OUTSIDE", scope.pace())
    fault = Term("/", INTEGER, at, [Term("when", INTEGER, at, [index, outside]), constant(0, INTEGER, at)], "index")
    fault = unit.named(fault, "FAULT", scope.pace())

    def one(*terms: Term) -> Term:
        terms, kind = agreed(list(terms), at)
        last = Term("=", BOOLEAN, at, [fault, constant(0, INTEGER, at)]) if kind in TRUTHS else Term("name", kind, at, [], fault.data)
        parts = [Term("when", kind, at, [it, case]) for it, case in zip(terms, cases)]
        return chained([*parts, last], BOOLEAN if kind in TRUTHS else kind, at)

    return pointwise(one, value, at)


def changed(index: Term, new, value, at: At, scope) -> list:
    """`(S : V) next A`."""
    if not isinstance(value, list):
        raise Refused(at, "this is no array", "behind `next` stands an array")
    if sizes_of(new) not in (sizes_of(value), sizes_of(value[0])):
        raise Refused(at, "sizes differ", f"{shape_of(new)} is no element of {shape_of(value)}, and no array as it is")
    index, is_each = whole(index), sizes_of(new) == sizes_of(value)
    new, value = named(new, "NEW", scope), named(value, "OLD", scope)
    rows = new if is_each else [new] * len(value)
    tied([index, leaves(new)[0], leaves(value)[0]], at, scope)
    if is_constant(index):
        number = in_range(index.data, len(value), index.at)
        return together([*value[:number], rows[number], *value[number + 1 :]], scope)
    index = scope.unit.named(index, "INDEX", scope.pace())
    cases = [scope.unit.comparisons.of(index.data, INTEGER, number, at) for number in range(len(value))]
    return [replaced(*it, at) for it in zip(rows, value, cases)]


def replaced(new, old, case: Term, at: At):
    """The new value where a case holds, else the old one."""

    def one(first: Term, second: Term) -> Term:
        (first, second), kind = agreed([first, second], at)
        second = Term("when", kind, at, [second, Term("clock", "event", at, [case])]) if is_constant(second) else second
        return Term("default", kind, at, [Term("when", kind, at, [first, case]), second])

    return pointwise(one, [new, old], at)


def set_elements(names, value, at: At, pace: Term | None, unit) -> None:
    """Defines signals, in nested lists, by a value of their sizes."""
    if isinstance(names, list):
        for name, it in zip(names, value):
            set_elements(name, it, at, pace, unit)
    else:
        unit.defined(names, Definition(value, at, pace))
