"""The names and comments of a step in C, as a text of lines that the literal writer reads beside an image.

Each line is a word, a blank, and what it gives. The lines come in the order of `Given`: of a list, one line for each item.
"""
from typing import NamedTuple

SINGLE = ("prefix", "include")


class Given(NamedTuple):
    """The names of a step: of the functions for inputs and outputs, of its variables, of the fields of the state, and the
    variables that nothing reads; the lines of the first comment, and a comment for each operation that is done."""

    prefix: str
    include: str
    input: list
    output: list
    signal: list
    comes: list
    field: list
    next: list
    unread: list
    head: list
    comment: list


class Unreadable(Exception):
    """A text that is no names file, with the number of its first wrong line."""


def text_of(given: Given) -> str:
    """The lines of a names file."""
    lines = []
    for word, it in zip(Given._fields, given):
        lines += [f"{word} {one}\n" for one in ([it] if word in SINGLE else it)]
    return "".join(lines)


def read(text: str) -> Given:
    """The names in a text of lines; Unreadable where a line has no known word, or stands before its place."""
    found, last = {word: [] for word in Given._fields}, 0
    for number, line in enumerate(text.splitlines(), 1):
        word, _, rest = line.partition(" ")
        if word not in found or Given._fields.index(word) < last or (word in SINGLE and found[word]):
            raise Unreadable(f"line {number} of the names: `{word}` is no word that may stand here")
        found[word].append(rest)
        last = Given._fields.index(word)
    for word in SINGLE:
        if not found[word]:
            raise Unreadable(f"the names have no line `{word}`")
    return Given(**{word: it[0] if word in SINGLE else it for word, it in found.items()})
