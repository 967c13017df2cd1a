"""A fault of the syntax with what stands around it, and what was found and wanted there in words."""
from typing import NamedTuple

from sigc.read.lexer import KINDS, RESERVED
from sigc.read.syntax import OPERATORS

BEGINNINGS = ("not", "-", "^", "(", "when")


class Around(NamedTuple):
    """A fault of the syntax: the text, the pieces, where the found one stands among them, the fault, and the processes."""

    text: str
    pieces: list
    at: int
    fault: object
    processes: list = ()

    def piece(self, step):
        place = self.at + step
        return self.pieces[place] if 0 <= place < len(self.pieces) else self.pieces[-1]

    @property
    def found(self):
        return self.pieces[self.at]

    @property
    def before(self):
        return self.piece(-1)

    def kinds(self):
        """The kinds of the names that are declared in the text, as far as it can be read."""
        found, kind = {}, None
        for before, it in zip(self.pieces, self.pieces[1:]):
            kind = before.text if before.text in KINDS else None if before.text in (";", "!", ")", "|", "(|") else kind
            if kind and before.text in (kind, ",") and it.kind == "name" and it.text not in RESERVED:
                found[it.text] = kind
        return found

    def matching(self, at):
        """The piece that closes the bracket at a place, None where none does."""
        depth = 0
        for it in self.pieces[at:]:
            depth += (it.text in ("(", "{", "(|")) - (it.text in (")", "}", "|)"))
            if depth == 0:
                return it
        return None

    def innermost(self):
        return self.fault.open[-1][1] if self.fault.open else ""


def listed(words):
    return words[0] if len(words) == 1 else ", ".join(words[:-1]) + " or " + words[-1]


def wanted_words(fault):
    """What could stand at a fault, in few words."""
    rest, words = list(fault.wanted), []
    if "an expression" in rest:
        rest = [it for it in rest if it not in BEGINNINGS]
    if sum(it in OPERATORS for it in rest) > 3:
        rest = [it for it in rest if it not in OPERATORS] + ["an operator"]
    for it in rest:
        words.append(it if it.startswith(("a ", "an ")) else f"`{it}`")
    return listed(words) if words else ""


def found_words(piece):
    return "the end of the text" if piece.kind == "end" else f"`{piece.text}`"


def unclosed(fault):
    """What is open at the end of a text: each opening and what closes it, the innermost first."""
    return [f"the `{it.text}` at {it.line}:{it.col} wants `{close}`" for it, close in reversed(fault.open)]
