"""What C11 promises that every compiler takes, and what a text has more of."""
import re

MOST_NESTED, MOST_LETTERS, MOST_NAMES, MOST_OUTSIDE = 63, 4095, 511, 31
DECLARED = re.compile(r"    (?:const )?(?:int|u?int[0-9]+_t) ([^()]*);\Z")


def nested(line: str) -> int:
    """How many parentheses are nested in a line."""
    depth = deepest = 0
    for it in line:
        depth += (it == "(") - (it == ")")
        deepest = max(deepest, depth)
    return deepest


def declared(lines: list) -> int:
    """How many names the body of a step declares, its two parameters among them."""
    return 2 + sum(len(it[1].split(", ")) for it in map(DECLARED.match, lines) if it)


def beyond(text: str, outside: list) -> list:
    """Lines that say what a file has more of than C11 promises, and which functions have names that a linker may take for one."""
    lines = text.splitlines()
    counts = (
        (max(map(len, lines)), MOST_LETTERS, "characters in a line"),
        (max(nested(it) for it in lines if not it.lstrip().startswith("/*")), MOST_NESTED, "nested parentheses"),
        (declared(lines), MOST_NAMES, "names in a block"),
    )
    found = [f"the step has {count} {what}: a compiler of C11 may refuse more than {most}" for count, most, what in counts if count > most]
    alike = same_beginning(outside, MOST_OUTSIDE)
    return found + ([f"a linker may look at {MOST_OUTSIDE} characters of a function's name, in which these agree: {' '.join(alike)}"] if alike else [])


def same_beginning(names: list, length: int) -> list:
    """The names that agree with another one in their first letters."""
    by_beginning = {}
    for it in names:
        by_beginning.setdefault(it[:length], []).append(it)
    return [it for found in by_beginning.values() if len(found) > 1 for it in found]
