"""Programs as tokens. docs/language.md has the language."""
import re
from typing import NamedTuple

RESERVED = set(
    "process where end integer boolean event init when default cell not and or xor modulo true false pragmas".split()
)
KINDS = ("integer", "boolean", "event")
PIECE = re.compile(
    r"(?P<blank>[ \t\r\n]+|%[^%]*%)"
    r"|(?P<name>[A-Za-z][A-Za-z0-9_]*)"
    r"|(?P<number>[0-9]+)"
    r'|(?P<label>"[ !#-~]*")'
    r"|(?P<mark>\(\||\|\)|:=|\^=|\^\+|\^\*|\^-|/=|<=|>=|[|(){},;?!^$=<>+\-*/])"
)


class Unreadable(Exception):
    """The text is no program, as far as this reader goes."""


class Token(NamedTuple):
    kind: str
    text: str
    line: int
    col: int


def tokens_of(text):
    """The tokens of a program's text as they are asked for, the end of the text last."""
    at, line, begun = 0, 1, 0
    while at < len(text):
        piece = PIECE.match(text, at)
        if not piece:
            raise Unreadable(f"{line}:{at - begun + 1}: no token begins here")
        if piece.lastgroup != "blank":
            yield Token(piece.lastgroup, piece[0], line, at - begun + 1)
        line += piece[0].count("\n")
        if "\n" in piece[0]:
            begun = piece.start() + piece[0].rindex("\n") + 1
        at = piece.end()
    yield Token("end", "", line, at - begun + 1)


def words_of(words):
    """Words as a line, with blanks where a reader expects them."""
    line, before = "", None
    for it in words:
        is_tight = before in (None, "(", "^") or it in (")", ",")
        line += it if is_tight else f" {it}"
        before = it
    return line
