"""The text of a system as tokens with their places, and what is wrong at a place."""
import re
from typing import NamedTuple

PIECE = re.compile(
    r"(?P<blank>[ \t\r\n]+|%[^%]*%)"
    r"|(?P<name>[A-Za-z][A-Za-z0-9_]*)"
    r"|(?P<number>[0-9]+)"
    r'|(?P<file>"[^"\r\n]*")'
    r"|(?P<mark>:=|[()\[\]?!,.;=])"
)


class Place(NamedTuple):
    line: int
    col: int


class Token(NamedTuple):
    kind: str
    text: str
    place: Place


class Fault(Exception):
    """What does not fit in the text of a system: where, what is wrong, and what to write instead."""

    def __init__(self, place, text, *advice):
        super().__init__(text)
        self.place, self.text, self.advice = place, text, advice


def why_none(text):
    """What is wrong with a text that begins with no token."""
    if text[0] == "%":
        return "this comment does not end", "a comment stands between two `%`"
    if text[0] == '"':
        return "this name of a file does not end on its line", 'write it as "filter.sig"'
    return f"`{text[0]}` begins no word of a system" if " " < text[0] <= "~" else "this character begins no word of a system",


def tokens_of(text):
    """The tokens of a text, the end last."""
    at, line, begun, found = 0, 1, 0, []
    while at < len(text):
        piece, place = PIECE.match(text, at), Place(line, at - begun + 1)
        if not piece:
            raise Fault(place, *why_none(text[at:]))
        if piece.lastgroup != "blank":
            found.append(Token(piece.lastgroup, piece[0], place))
        line += piece[0].count("\n")
        if "\n" in piece[0]:
            begun = piece.start() + piece[0].rindex("\n") + 1
        at = piece.end()
    return [*found, Token("end", "", Place(line, at - begun + 1))]
