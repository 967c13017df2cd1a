"""Functions of single values: their kinds, and their values if the operands are constants."""
from sigc.expand.messages import At, Refused
from sigc.expand.terms import (ARITHMETIC, BOOLEAN, EQUALITIES, GREATEST, INTEGER, LEAST, ORDERS, Enumeration, Term, agreed, alone, constant, is_constant,
                               truth, whole)


def quotient(one: int, other: int) -> int:
    """A quotient, truncated toward zero."""
    found = abs(one) // abs(other)
    return found if (one < 0) == (other < 0) else -found


COMPUTED = {
    "+": lambda a, b: a + b,
    "-": lambda a, b: a - b,
    "*": lambda a, b: a * b,
    "/": quotient,
    "modulo": lambda a, b: a - quotient(a, b) * b,
    "<": lambda a, b: a < b,
    "<=": lambda a, b: a <= b,
    ">": lambda a, b: a > b,
    ">=": lambda a, b: a >= b,
    "=": lambda a, b: a == b,
    "/=": lambda a, b: a != b,
    "and": lambda a, b: a and b,
    "or": lambda a, b: a or b,
    "xor": lambda a, b: a != b,
}


def bounded(value: int, at: At) -> int:
    if not LEAST <= value <= GREATEST:
        raise Refused(at, "a constant outside 64 bits", f"its value is {value}")
    return value


def folded(op: str, terms: list[Term], kind: object, at: At) -> Term:
    """The value of a function of constants."""
    one, other = (it.data for it in terms)
    if op in ("/", "modulo") and other == 0:
        raise Refused(at, "division by zero", "the divisor is a constant of value 0")
    value = COMPUTED[op](one, other)
    return constant(bounded(value, at) if kind == INTEGER else bool(value), kind, at)


def function(op: str, one: Term, other: Term, at: At) -> Term:
    """A function of two operands."""
    if op in ARITHMETIC or op in ORDERS:
        terms = [whole(one), whole(other)] if not is_ordered_enumeration(op, one, other) else no_order(at)
        kind = INTEGER if op in ARITHMETIC else BOOLEAN
    elif op in EQUALITIES:
        terms, kind = [alone(it) for it in agreed([one, other], at)[0]], BOOLEAN
    else:
        terms, kind = [truth(one), truth(other)], BOOLEAN
    if all(map(is_constant, terms)):
        return folded(op, terms, kind, at)
    return Term(op, kind, at, terms)


def is_ordered_enumeration(op: str, one: Term, other: Term) -> bool:
    return op in ORDERS and any(isinstance(it.kind, Enumeration) for it in (one, other))


def no_order(at: At) -> None:
    raise Refused(at, "types clash", "values of an enumeration have no order: compare them by `=` and `/=`")


def negated(term: Term, at: At) -> Term:
    """`not` of a truth."""
    term = truth(term)
    return constant(not term.data, BOOLEAN, at) if is_constant(term) else Term("not", BOOLEAN, at, [term])


def minus(term: Term, at: At) -> Term:
    """The negative of an integer."""
    term = whole(term)
    return constant(bounded(-term.data, at), INTEGER, at) if is_constant(term) else Term("neg", INTEGER, at, [term])
