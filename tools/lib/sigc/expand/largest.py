"""The largest value of a constant with which a program fits, where one constant decides its size."""
from sigc.expand.messages import Refused
from sigc.expand.sizes import MOST_SIGNALS

MOST_TRIED, MOST_SIGNALS_TRIED = 4, 20_000


def advice(found) -> list[str]:
    """Lines with the constants of the text that decide its size, each with its largest value."""
    if found.count > MOST_SIGNALS_TRIED:
        return []
    lines = []
    for name, value in list(found.unit.counts.items())[:MOST_TRIED]:
        most = largest(found, name, value)
        if most:
            lines.append(f"it fits with {name} = {most}: {name} is {value} now")
    return lines


def largest(found, name: str, value: int) -> int:
    """The largest value below this one with which a program fits, 0 where there is none."""
    low, high = 0, value
    while high - low > 1:
        middle = (low + high) // 2
        if fits(found, name, middle):
            low = middle
        else:
            high = middle
    return low


def fits(found, name: str, value: int) -> bool:
    from sigc.expand.expansion import expanded

    try:
        return expanded(found.path, found.include, found.text, {name: value}).count <= MOST_SIGNALS
    except Refused:
        return False
