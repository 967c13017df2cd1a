"""Functions of values, for the second evaluator."""
from second.partial_values import Clash, known, lifted

LEAST, MOST = -(2**63), 2**63 - 1


class Fault(Exception):
    """An operation without a result, by which a run ends."""


def fitting(value: int) -> int:
    if not LEAST <= value <= MOST:
        raise Fault("overflow")
    return value


def quotient(a: int, b: int) -> int:
    """Truncated toward zero."""
    if b == 0:
        raise Fault("division by zero")
    return abs(a) // abs(b) * (1 if (a < 0) == (b < 0) else -1)


POINTWISE = {
    "+": lambda a, b: fitting(a + b), "-": lambda a, b: fitting(a - b), "*": lambda a, b: fitting(a * b),
    "/": lambda a, b: fitting(quotient(a, b)), "modulo": lambda a, b: a - quotient(a, b) * b, "neg": lambda a: fitting(-a),
    "=": lambda a, b: a == b, "/=": lambda a, b: a != b, "<": lambda a, b: a < b, "<=": lambda a, b: a <= b,
    ">": lambda a, b: a > b, ">=": lambda a, b: a >= b, "and": lambda a, b: a and b, "or": lambda a, b: a or b,
    "xor": lambda a, b: a != b, "not": lambda a: not a, "abs": lambda a: fitting(abs(a)),
}
TRUTHS = ("=", "/=", "<", "<=", ">", ">=", "and", "or", "xor", "not")


def applied(name: str, values: list):
    """The value of a function."""
    if name in POINTWISE:
        return lifted(POINTWISE[name], *values)
    if name not in OF_ARRAYS:
        raise Clash(name)
    return OF_ARRAYS[name](values)


def extreme(which):
    """`max` and `min`, of operands or of the elements of one array."""

    def of(values: list):
        if len(values) > 1:
            return lifted(lambda *it: which(it), *values)
        return which(values[0]) if isinstance(values[0], list) and known(values[0]) else None if isinstance(values[0], list) else values[0]

    return of


def element(values: list):
    array, index = values
    if index is None or array is None:
        return None
    if not 0 <= index < len(array):
        raise Fault("index out of range")
    return array[index]


def changed(values: list):
    """`(S : V) next A`: V is an element, or an array of A's size."""
    index, value, array = values
    if index is None or array is None:
        return None
    is_whole = isinstance(value, list) and not (isinstance(array[0], list) and not isinstance(value[0], list))
    return [(value[i] if is_whole else value) if i == index else it for i, it in enumerate(array)]


def joined_arrays(values: list):
    return values[0] + values[1] if None not in values else None


def repeated(values: list):
    return (values[0] if isinstance(values[0], list) else [values[0]]) * values[1]


OF_ARRAYS = {"max": extreme(max), "min": extreme(min), "[]": list, "index": element, "next": changed, "|+": joined_arrays, "|*": repeated}
