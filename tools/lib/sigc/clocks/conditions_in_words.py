"""How the conditions of an image are called in words: as the first process names them, where it does.

A signal of a call that equations A := B make the same as one outside has the outer name. A truth of a call alone that is
computed from such signals is that expression, with the outer names and the constants of the call.
"""
import re

from sigc.read import expansion, lexer, syntax
from sigc.trace import observing

AT_PLACE = re.compile(r"(?:(?P<copy>.*)\.)?#(?P<line>[0-9]+):(?P<col>[0-9]+)")
OVER_TIME = {"$", "when", "default", "cell", "init", "^", "^=", "^+", "^*", "^-"}
MOST_WORDS = 9


class Called:
    """The names of conditions of a program's text. `observed` is what the image was made of, where that is the program
    written anew with its calls expanded."""

    def __init__(self, text, flat=None, observed=None):
        self.text, self.observed = text, observed
        self.flat = flat or expansion.Expansion(text)
        self.outer = observing.alike_in(self.flat)
        self.nodes = nodes_by_place(text)
        self.plain = {written: name for name, written in observed.spelled.items()} if observed else {}
        self.definitions = {it.words[0].text: it.words[2:] for it in self.flat.equations if it.words[1].text == ":="}

    def name(self, written):
        """A condition of the image in the words of the program."""
        found = AT_PLACE.fullmatch(written)
        if found:
            return self.expression(int(found["line"]), int(found["col"]), found["copy"] or "") or written
        return self.signal(self.plain.get(written, written))

    def signal(self, name):
        """A signal under its outer name, or as the expression that it is."""
        name = self.outer.get(name, name)
        if "#" not in name:
            return name
        words = self.definitions.get(name, [])
        return self.spoken(words) if 1 < len(words) <= MOST_WORDS and self.is_outer(words) else name

    def is_outer(self, words):
        """Whether words are an expression of one instant over signals that have names outside of calls."""
        names = [self.outer.get(it.text, it.text) for it in words if it.is_signal]
        return bool(names) and not any("#" in it for it in names) and not any(it.text in OVER_TIME for it in words)

    def expression(self, line, col, copy):
        """The expression whose operator stands at a place, in a copy."""
        if self.observed:
            line, col, copy = self.observed.places.get((line, col), (line, col, copy))
        node = self.nodes.get((line, col))
        if not node or not copy:
            return syntax.source_of(self.text, node) if node else None
        for it in self.flat.equations:
            if it.copy == copy and any((word.line, word.col) == (line, col) for word in it.words):
                return self.spoken([word for word in it.words if self.is_in(word, node)])
        return None

    def is_in(self, word, node):
        first, last = (self.place(at) for at in (node.start, node.end))
        return first <= (word.line, word.col) < last

    def place(self, at):
        """The line and the column of an offset in the text."""
        begun = self.text.rfind("\n", 0, at) + 1
        return self.text.count("\n", 0, at) + 1, at - begun + 1

    def spoken(self, words):
        """Words as a line, with the outer names; a copy's signal that has none keeps its own."""
        line = lexer.words_of(self.outer.get(it.text, it.text) if it.is_signal else it.text for it in words)
        return re.sub(r"((?:^|[(<>=+*/,-]|not|and|or|xor|modulo) ?)- (?=\d)", r"\1-", line)


def nodes_by_place(text):
    """The expressions of a text by the places of their operators."""
    found = {}
    for process in syntax.read(text).processes:
        for equation in process.equations:
            for node in (it for whole in equation.expressions() for it in syntax.walk(whole)):
                found[node.at.line, node.at.col] = node
    return found
