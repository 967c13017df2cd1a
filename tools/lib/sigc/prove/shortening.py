"""Counterexamples made shorter: instants whose values can be left out of the flows, as runs by sigc show."""
from sigc.prove.counterexamples import broken_at, flows_text, meets, run_of

MOST_TRIED = 40


def without(flows: dict, instants: list, begun: int, end: int) -> dict:
    """Flows without the values that are read at these instants, counted from 0."""
    found = {}
    for name, values in flows.items():
        first = sum(name in it for it in instants[:begun])
        last = first + sum(name in it for it in instants[begun:end])
        found[name] = values[:first] + values[last:]
    return found


def shortened(asked, flows: dict, is_true: bool, property_) -> tuple[dict, list, int | None]:
    """Flows that break a property, with as few instants as a few tries find; their run, and the instant that breaks it."""

    def run(given: dict) -> tuple[list, int | None]:
        instants = run_of(asked, flows_text(asked, given)).instants
        number = broken_at(instants, is_true, property_)
        return instants, number if number is not None and meets(asked, instants[:number]) else None

    instants, number = run(flows)
    if number is None:
        return flows, instants, None
    size, tried = number // 2, 0
    while size and tried < MOST_TRIED:
        begun = 0
        while begun + size <= number and tried < MOST_TRIED:
            tried += 1
            shorter = without(flows, instants, begun, begun + size)
            found, at = run(shorter)
            if at is not None and at < number:
                flows, instants, number = shorter, found, at
            else:
                begun += size
        size = min(size // 2, number // 2)
    return (without(flows, instants, number, len(instants)) if number else flows), instants, number
