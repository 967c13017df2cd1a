"""The tokens of a program in SIGNAL V4: those of the kernel, and the marks of arrays, enumerations and labels."""
import re
from typing import NamedTuple

from sigc.expand.messages import Place, Refused
from sigc.read.lexer import RESERVED as KERNEL_WORDS

PIECE = re.compile(
    r"(?P<blank>[ \t\r\n]+|%[^%]*%)"
    r"|(?P<name>[A-Za-z][A-Za-z0-9_]*)"
    r"|(?P<number>[0-9]+)"
    r'|(?P<label>"[ !#-~]*")'
    r"|(?P<mark>\(\||\|\)|\|\+|\|\*|::=|:=|::|-->|\^=|\^\+|\^\*|\^-|\^<|\^>|\^#|/=|<=|>=|[|(){},;?!^$=<>+\-*/\[\]#:])"
)
# Marks that no kernel has: a text with one of them is none.
FOREIGN_MARKS = {"[", "]", "#", ":", "::", "::=", "-->", "|+", "|*", "^<", "^>", "^#"}
# What a program that is expanded may not use as a name, beside the kernel's words.
WORDS = set("if then else case array of with automaton state do unless until go resume type enum constant module use".split())
# Operators between two operands that are names elsewhere.
BETWEEN = {"count", "after", "from", "window", "next"}
WRITTEN = {"&": "`and` is written in letters", "~": "`not` is written in letters", "'": 'a label is written in `"`', "\\": "not equal is `/=`"}
MOST_NUMBER = 9223372036854775807


class Token(NamedTuple):
    """A token with its place; the end of the text is the last one."""

    kind: str
    text: str
    line: int
    col: int


def tokens_of(text: str, file: str) -> list[Token]:
    """The tokens of a text, the end last; Refused at a byte that begins none."""
    found, at, line, begun = [], 0, 1, 0
    match = PIECE.match
    while at < len(text):
        piece = match(text, at)
        if not piece:
            raise Refused(Place(file, line, at - begun + 1), *no_token(text[at]))
        kind, end = piece.lastgroup, piece.end()
        if kind != "blank":
            found.append(Token(kind, piece[0], line, at - begun + 1))
        elif "\n" in piece[0]:
            line += piece[0].count("\n")
            begun = text.rindex("\n", at, end) + 1
        at = end
    return [*found, Token("end", "", line, at - begun + 1)]


def no_token(byte: str) -> tuple[str, ...]:
    """What is said of a byte that begins no token."""
    if byte == "%":
        return "comment not closed", "a comment stands between two `%`"
    if byte == '"':
        return "label not closed", "a label stands between two quotes on one line"
    if byte == ".":
        return "unexpected byte `.`", "there are no real numbers and no fields: count in parts of a thousand, and name each part of a structure"
    if byte in WRITTEN:
        return f"unexpected byte `{byte}`", WRITTEN[byte]
    return (f"unexpected byte `{byte}`" if " " <= byte <= "~" else "unexpected byte",)


def is_name(token: Token) -> bool:
    """Whether a token may name something."""
    return token.kind == "name" and token.text not in KERNEL_WORDS and token.text not in WORDS
