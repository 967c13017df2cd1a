"""Values of which parts may be unknown (None), for the second evaluator: arrays are lists."""
from collections.abc import Callable


class Clash(Exception):
    """Equations that do not hold together."""


def blank(shape: tuple):
    """A value of these sizes of which nothing is known."""
    return [blank(shape[1:]) for _ in range(shape[0])] if shape else None


def known(value) -> bool:
    return all(map(known, value)) if isinstance(value, list) else value is not None


def joined(old, new):
    """What is known by either of two values."""
    if isinstance(old, list) and isinstance(new, list):
        if len(old) != len(new):
            raise Clash(f"sizes {len(old)} and {len(new)}")
        return [joined(a, b) for a, b in zip(old, new)]
    if isinstance(old, list) and new is not None:
        return [joined(it, new) for it in old]
    return new if old is None else old


def lifted(how: Callable, *values):
    """A function of single values, applied to the elements of arrays of one size."""
    sizes = {len(it) for it in values if isinstance(it, list)}
    if not sizes:
        return None if None in values else how(*values)
    if len(sizes) > 1:
        raise Clash(f"sizes {sizes}")
    return [lifted(how, *(it[i] if isinstance(it, list) else it for it in values)) for i in range(sizes.pop())]


def sizes_of(value) -> tuple:
    return (len(value), *sizes_of(value[0])) if isinstance(value, list) else ()


def placed(shape: tuple, path: list[int], value):
    """A value of which nothing is known but the element at a path."""
    found = place = blank(shape)
    for i in path[:-1]:
        place = place[i]
    place[path[-1]] = joined(place[path[-1]], value)
    return found


def picked(condition, first, second):
    """`if`, by elements where the condition is an array."""
    if isinstance(condition, list):
        parts = [[it[i] if isinstance(it, list) else it for it in (first, second)] for i in range(len(condition))]
        return [picked(it, *part) for it, part in zip(condition, parts)]
    if condition is None:
        return None
    chosen, other = (first, second) if condition else (second, first)
    return joined(blank(sizes_of(other)), chosen) if isinstance(other, list) else chosen


def both(a: bool | None, b: bool | None) -> bool | None:
    """`and` of presences that may be unknown."""
    if a is False or b is False:
        return False
    return True if a and b else None


def opposite(a: bool | None) -> bool | None:
    return None if a is None else not a


def either(a: bool | None, b: bool | None) -> bool | None:
    return opposite(both(opposite(a), opposite(b)))


def beats(present: bool | None, value) -> bool | None:
    """Whether a signal beats: a boolean where it is true, any other one where it is present."""
    if present is not True:
        return present
    return None if value is None else value is not False
