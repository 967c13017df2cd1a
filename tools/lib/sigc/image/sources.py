"""What stands in a program at the place of an operation of its image: for comments, and for the names of what fails."""
import re

from sigc.clocks.plans import is_intermediate
from sigc.image import image_text
from sigc.read import syntax

COMMENT = re.compile(r"%[^%]*%")
LONGEST = 110


def copy_of(name):
    """The copy that a signal belongs to, with a dot behind it; nothing for the first process."""
    return name[: name.rfind(".") + 1]


class Source:
    """A program's text, by the places of its operators."""

    def __init__(self, text, image, places=lambda line, column: (line, column), home=None):
        self.text, self.image, self.places = COMMENT.sub(lambda it: re.sub(r"[^\n]", " ", it[0]), text), image, places
        self.home, self.nodes = home, {}
        for process in syntax.read(self.text).processes:
            for equation in process.equations:
                for whole in equation.expressions():
                    for node in syntax.walk(whole):
                        self.nodes[node.at.line, node.at.col] = equation, node

    def place(self, it):
        """The place of an operation in the program that the user has."""
        return self.places(it.line, it.column)

    def comment(self, it):
        """The place of an operation and what stands there, in one line."""
        name = self.image.signals[it.target].name if it.target is not None else ""
        copy = copy_of(name)
        line, column = self.place(it)
        said, place = self.said(it, name), f"{line}:{column}"
        if self.home and not self.home.is_kernel:
            said, place = self.home.words(said), self.home.place(line, column)
        return f"{place} {syntax.truncated(said, LONGEST)}{f' ({copy[:-1]})' if copy and said and copy not in said else ''}"

    def said(self, it, name):
        equation, node = self.nodes.get((it.line, it.column), (None, None))
        if it.kind == "Read" or node is None or not node.parts:
            return image_text.does_text(self.image, it) if it.kind != "Store" else ""
        words = syntax.source_of(self.text, node)
        if equation.form == "definition" and node is equation.right:
            return f"{equation.lefts[0].text} := {words}"
        return words

    def speaks_of(self, it):
        """The signal of the program that an operation is a part of: what it gives, or else what its equation defines."""
        name = self.image.signals[it.target].name
        equation, _ = self.nodes.get((it.line, it.column), (None, None))
        if not is_intermediate(name) or equation is None:
            return name
        if equation.lefts:
            return copy_of(name) + equation.lefts[0].text
        return next((copy_of(name) + term.at.text for term in equation.terms if term.op == "name"), name)
