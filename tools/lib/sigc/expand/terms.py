"""Expressions of single values: what expressions of the text become before their clocks are worked out. Arrays are lists of them."""
from dataclasses import dataclass, field

from sigc.expand.messages import At, Refused

INTEGER, BOOLEAN, EVENT = "integer", "boolean", "event"
TRUTHS = (BOOLEAN, EVENT)
ARITHMETIC = ("+", "-", "*", "/", "modulo")
ORDERS = ("<", "<=", ">", ">=")
EQUALITIES = ("=", "/=")
LOGIC = ("and", "or", "xor")
CLOCKS = ("^+", "^*", "^-")
LEAST, GREATEST = -(1 << 63), (1 << 63) - 1


class Enumeration:
    """A type of named values."""

    def __init__(self, name: str, values: list[str]):
        self.name, self.values = name, values

    def __str__(self) -> str:
        return self.name


class OneOf:
    """The kind of a value `#a` whose type is not known yet: the types that have it."""

    def __init__(self, value: str, types: list[Enumeration]):
        self.value, self.types = value, types

    def __str__(self) -> str:
        return " or ".join(it.name for it in self.types)


@dataclass(slots=True, eq=False)
class Term:
    """An expression of one value: const and name with their data, operators of the kernel, and `if`.

    `when` before its operand is beat, `^` is clock; a delay and a cell have their init, a constant, as data.
    """

    op: str
    kind: object
    at: At
    parts: list = field(default_factory=list)
    data: object = None


def constant(value: int | bool, kind: object, at: At) -> Term:
    return Term("const", kind, at, [], value)


def is_constant(term: Term) -> bool:
    return term.op == "const"


def sizes_of(value) -> tuple[int, ...]:
    """The sizes of a value: none for a single one."""
    return (len(value), *sizes_of(value[0])) if isinstance(value, list) else ()


def leaves(value) -> list[Term]:
    """The single values of a value, in order."""
    return [it for part in value for it in leaves(part)] if isinstance(value, list) else [value]


def mapped(function, value):
    """A value with a function of each of its single ones."""
    return [mapped(function, it) for it in value] if isinstance(value, list) else function(value)


def pointwise(function, values: list, at: At):
    """A function of values of one size, or of an array and single values: applied to their elements."""
    arrays = [it for it in values if isinstance(it, list)]
    if not arrays:
        return function(*values)
    if any(len(it) != len(arrays[0]) for it in arrays):
        told = ", ".join(shape_of(it) for it in arrays)
        raise Refused(at, "sizes differ", f"the operands are arrays of {told}")
    rows = [[it[number] if isinstance(it, list) else it for it in values] for number in range(len(arrays[0]))]
    return [pointwise(function, row, at) for row in rows]


def shape_of(value) -> str:
    """The sizes of a value as they are shown."""
    return "[" + ", ".join(map(str, sizes_of(value))) + "]" if isinstance(value, list) else "a single value"


# The operands of an operator that have its own kind.
PASSED = {"when": (0,), "default": (0, 1), "if": (1, 2)}


def settled(term: Term, kind: object) -> Term:
    """A term whose kind `#a` leaves open, once its kind is known."""
    if not isinstance(term.kind, OneOf) or not isinstance(kind, Enumeration):
        return term
    if is_constant(term):
        return value_of(term, kind)
    parts = [settled(it, kind) if number in PASSED[term.op] else it for number, it in enumerate(term.parts)]
    return Term(term.op, kind, term.at, parts, term.data)


def value_of(term: Term, kind: Enumeration) -> Term:
    """The value of a type that `#a` is."""
    if kind not in term.kind.types:
        raise Refused(term.at, "types clash", f"{kind.name} has no value #{term.data}: it has {', '.join('#' + it for it in kind.values)}")
    return constant(kind.values.index(term.data), kind, term.at)


def alone(term: Term) -> Term:
    """A term to which nothing beside it gives a kind."""
    if not isinstance(term.kind, OneOf):
        return term
    if len(term.kind.types) > 1:
        told = " or ".join(f"{it.name}#{term.kind.value}" for it in term.kind.types)
        while not is_constant(term):
            term = term.parts[PASSED[term.op][0]]
        raise Refused(term.at, f"#{term.data} is a value of several types", f"write {told}")
    return settled(term, term.kind.types[0])


def agreed(terms: list[Term], at: At) -> tuple[list[Term], object]:
    """Terms of one kind, and that kind: an event beside a boolean is one. Refused where they clash."""
    known = [it.kind for it in terms if not isinstance(it.kind, OneOf)]
    if not known:
        return of_values(terms, at)
    terms = [alone(settled(it, known[0])) for it in terms]
    kinds = {it.kind for it in terms}
    if kinds <= set(TRUTHS):
        return terms, EVENT if kinds == {EVENT} else BOOLEAN
    if len(kinds) > 1:
        told = " and ".join(dict.fromkeys(str(it.kind) for it in terms))
        raise Refused(at, "types clash", f"the operands are {told}")
    return terms, kinds.pop()


def of_values(terms: list[Term], at: At) -> tuple[list[Term], object]:
    """Values of enumerations that nothing else gives a kind: of the type that has them all."""
    common = [it for it in terms[0].kind.types if all(it in term.kind.types for term in terms)]
    if not common:
        raise Refused(at, "types clash", "no type has the values " + " and ".join(f"#{it.kind.value}" for it in terms))
    kind = common[0] if len(common) == 1 else OneOf(terms[0].kind.value, common)
    return [settled(it, kind) for it in terms], kind


def needed(term: Term, kinds: tuple, at: At) -> Term:
    """A term of one of these kinds; Refused where it is another."""
    term = alone(term)
    if term.kind not in kinds:
        wanted = "an integer" if INTEGER in kinds else "a boolean"
        raise Refused(at, "types clash", f"found {term.kind}; wanted {wanted}")
    return term


def truth(term: Term) -> Term:
    return needed(term, TRUTHS, term.at)


def whole(term: Term) -> Term:
    return needed(term, (INTEGER,), term.at)


def fitted(term: Term, kind: object, at: At, name: str) -> Term:
    """A term that defines a signal of a kind; Refused where it does not fit."""
    term = alone(settled(term, kind))
    if term.kind == kind or kind == BOOLEAN and term.kind == EVENT or is_constant(term) and kind == EVENT and term.data is True:
        return term
    raise Refused(at, "types clash", f"{name} is {kind}, and its right side {term.kind}")
