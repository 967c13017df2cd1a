"""What sigc refuses of a text that is otherwise a program: nesting, operators of one equation, large numbers, and its length.

docs/limits.md has the numbers. The reader of the scripts goes further, so that it can say what is wrong.
"""
from typing import NamedTuple

from sigc.read.files_read import PROGRAM_BYTES
from sigc.read.syntax import NESTED, Piece, Reader, walk

OPERATORS, LARGEST = 512, "9223372036854775807"
OPERANDS = ("name", "number", "truth")


class Excess(NamedTuple):
    """A piece at which a text passes a limit, and the words of sigc; no piece where the whole text is too long."""

    piece: Piece
    words: str


def first_excess(reader: Reader) -> Excess | None:
    """The first limit that a faultless text passes, as sigc names it; None where it keeps to all of them."""
    if len(reader.text) > PROGRAM_BYTES:
        return Excess(None, f"program longer than {PROGRAM_BYTES} bytes")
    large = next((it for it in reader.pieces if is_large(it)), None)
    if large:
        return Excess(large, "number too large")
    deep = [Excess(reader.too_deep, f"nesting deeper than {NESTED}")] if reader.too_deep else []
    many = [Excess(it, f"more than {OPERATORS} operators") for it in crowded(reader)]
    return min([*deep, *many], key=lambda it: it.piece.start, default=None)


def is_large(piece):
    """Whether a number has more than 63 bits; it may have any number of digits."""
    digits = piece.text.lstrip("0")
    return piece.kind == "number" and (len(digits), digits) > (len(LARGEST), LARGEST)


def crowded(reader):
    """The first operator too many of each equation that has more than sigc takes."""
    for process in reader.processes:
        for equation in process.equations:
            operators = sorted((node.at for whole in equation.expressions() for node in walk(whole) if node.op not in OPERANDS), key=lambda it: it.start)
            yield from operators[OPERATORS : OPERATORS + 1]
