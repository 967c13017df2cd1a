"""A program's text laid out: one equation a line, declarations on one line where they fit, and every comment kept.

Words stay as they are, and so do comments, with all that stands inside them. A comment at the beginning of a line has a line
of its own, any other stays behind the word that it follows.
"""
import re
from typing import NamedTuple

from sigc.read import syntax, text_limits
from sigc.read.lexer import PIECE, RESERVED

WIDTH = 120
# So wide the declarations behind where may stand on one line.
NARROW = 80
TIGHT_BEFORE = (")", "}", ",", ";")
TIGHT_BEHIND = ("(", "{", "^")
# Behind one of these a minus stands before its operand.
BEFORE_OPERANDS = (
    "(", "(|", "|", ",", "{", ":=", "^=", "^+", "^*", "^-", "=", "/=", "<", "<=", ">", ">=", "+", "-", "*", "/", "modulo", "and", "or", "xor", "not",
    "default", "when", "init",
)


class Unformatted(Exception):
    """The text is not laid out: the place, and why."""

    def __init__(self, line, col, why):
        super().__init__(f"{line}:{col}: {why}" if line else why)
        self.line, self.col = line, col


class Comment(NamedTuple):
    """A comment: whether a line begins with it, whether one ends with it, and whether an empty line stands before it."""

    text: str
    begins: bool
    ends: bool
    is_apart: bool


class Word(NamedTuple):
    """A word with the comments before it, and whether an empty line stands before it."""

    text: str
    kind: str
    comments: list
    is_apart: bool


def words_of(text):
    """The words of a text, the end last."""
    found, comments, at, breaks = [], [], 0, 1
    while at < len(text):
        piece = PIECE.match(text, at)
        at = piece.end()
        if piece.lastgroup != "blank":
            found.append(Word(piece[0], piece.lastgroup, comments, breaks > 1 and bool(found)))
            comments, breaks = [], 0
        elif piece[0].startswith("%"):
            blanks = re.compile(r"[ \t\r\n]*").match(text, at)[0]
            comments.append(Comment(piece[0], breaks > 0, "\n" in blanks or at == len(text), breaks > 1 and bool(found or comments)))
            breaks = 0
        else:
            breaks += piece[0].count("\n")
    return [*found, Word("", "end", comments, False)]


class Layout:
    """Where lines begin: for a word by its place the column of its line, and the column where a comment ends the line before."""

    def __init__(self, words):
        self.words, self.at = words, 0
        self.breaks, self.columns, self.in_pragmas = {}, {}, set()
        while self.text() == "process":
            self.process(0)
        self.breaks[len(words) - 1] = 0

    def text(self):
        return self.words[self.at].text

    def step(self, column):
        """Goes on behind a word."""
        self.columns.setdefault(self.at, column)
        self.at += 1

    def to(self, end, column):
        while self.at < end:
            self.step(column)

    def begin(self, column):
        """Begins a line with the word here."""
        self.breaks[self.at] = column

    def closing(self, begin, texts):
        """The place of the first of these words that stands in no bracket that was opened since."""
        depth = 0
        for at in range(begin, len(self.words)):
            text = self.words[at].text
            if text in texts and depth <= 0:
                return at
            depth += (text in ("(", "{", "(|")) - (text in (")", "}", "|)"))
        return len(self.words) - 1

    def fits(self, begin, end, column, width=WIDTH):
        """Whether words fit into a line that begins at a column, and no comment among them begins a line."""
        length, before = column, None
        for at in range(begin, end):
            comments = self.words[at].comments if at > begin else []
            if any(it.begins for it in comments):
                return False
            length += sum(1 + max(map(len, it.text.split("\n"))) for it in comments)
            length += len(self.blank(before, at)) + len(self.words[at].text)
            before = at
        return length <= width

    def blank(self, before, at):
        """What stands between two words of one line."""
        if before is None:
            return ""
        one, text = self.words[before].text, self.words[at].text
        if one == "!" and text == ")":
            return " "
        if text in TIGHT_BEFORE or one in TIGHT_BEHIND or one == "-" and self.is_sign(before):
            return ""
        if text in ("(", "{") and at not in self.in_pragmas and self.words[at + 1].text != "?":
            is_name = self.words[before].kind == "name" and one not in RESERVED
            return "" if is_name or one == "}" else " "
        return " "

    def is_sign(self, at):
        return at > 0 and self.words[at - 1].text in BEFORE_OPERANDS

    # Processes.

    def process(self, column):
        """A process, whose lines begin at a column."""
        self.begin(column)
        begun = self.at
        query = next(at for at in range(begun, len(self.words)) if self.words[at].text == "?")
        end = self.closing(query, (")",)) + 1
        if self.fits(begun, end, column):
            self.to(end, column + 2)
        else:
            self.interface(query, end, column)
        if self.text() == "pragmas":
            self.pragmas(column)
        self.body(column)
        if self.text() == "where":
            self.where(column)
        self.step(column)

    def interface(self, query, end, column):
        """An interface that does not fit into one line: inputs and outputs have lines of their own."""
        self.to(query - 1, column + 2)
        self.begin(column + 2)
        middle = self.closing(query, ("!",))
        for last in (middle, end):
            is_short = self.fits(self.at, last, column + 3)
            while self.at < last:
                is_between = self.text() == ";" and not is_short
                self.step(column + 5)
                if is_between and self.at < last and self.text() not in ("!", ")"):
                    self.begin(column + 5)
            if last == middle:
                self.begin(column + 3)

    def pragmas(self, column):
        self.begin(column)
        begun = self.at
        end = next(at for at in range(begun, len(self.words)) if self.words[at].text == "end") + 2
        self.in_pragmas |= set(range(begun, end))
        is_short = self.fits(begun, end, column)
        while self.at < end:
            if not is_short and (self.words[self.at - 1].text == "pragmas" or self.words[self.at - 1].kind == "label"):
                self.begin(column if self.text() == "end" else column + 2)
            self.step(column + 2)

    def where(self, column):
        """What stands between where and end: on one line where it fits, and no process is among it."""
        self.begin(column)
        begun = self.at
        self.step(column + 2)
        end = self.closing(self.at, ("process", "end"))
        has_process = self.words[end].text == "process"
        is_short = self.fits(begun, end + (0 if has_process else 2), column, NARROW)
        while self.text() != "end":
            if self.text() == "process":
                self.process(column + 2)
                is_short = False
                continue
            if not is_short:
                self.begin(column + 2)
            self.to(self.closing(self.at, (";",)) + 1, column + 4)
        if has_process or not is_short:
            self.begin(column)
        self.step(column)

    # Equations.

    def body(self, column):
        if self.text() == "(|":
            self.begin(column)
            self.composition(column)
        else:
            self.begin(column + 2)
            self.equation(column + 2)

    def composition(self, column):
        """Equations between (| and |), each on a line."""
        self.step(column)
        while self.text() != "|)":
            if self.text() == "|":
                self.begin(column + 1)
                self.step(column + 1)
            elif self.text() == "(|":
                self.columns[self.at] = column + 3
                self.composition(column + 3)
            else:
                self.equation(column + 3)
        if self.words[self.at - 1].text != "(|":
            self.begin(column + 1)
        self.step(column + 1)

    def equation(self, column):
        """An equation on one line, or broken before each default that stands in no bracket."""
        end = self.closing(self.at, ("|", "|)", "where", ";"))
        is_short, depth = self.fits(self.at, end, column), 0
        self.step(column)
        while self.at < end:
            depth += (self.text() in ("(", "{")) - (self.text() in (")", "}"))
            if not is_short and depth == 0 and self.text() == "default":
                self.begin(column + 4)
            self.step(column + 4)


class Lines:
    """The lines of a text in the making."""

    def __init__(self):
        self.lines, self.line = [], None

    def begin(self, column, is_apart):
        if self.line is not None:
            self.lines.append(self.line)
            self.lines += [""] if is_apart else []
        self.line = " " * column

    def add(self, blank, text):
        self.line += (blank if self.line.strip(" ") else "") + text

    def text(self):
        return "\n".join([*self.lines, *([self.line] if self.line else [])]) + "\n"


def laid_out(words):
    """The text of words by their layout."""
    layout, lines, before = Layout(words), Lines(), None
    for at, word in enumerate(words):
        column, is_open = layout.breaks.get(at), False
        inside = column if column is not None else layout.columns.get(at, 0)
        shift = 2 if word.text in ("|", "|)") or word.text == "end" and column is not None and at not in layout.in_pragmas else 0
        for it in word.comments:
            if it.begins or lines.line is None:
                lines.begin(inside + shift, it.is_apart)
            lines.add(" ", it.text)
            is_open = it.ends
        if word.kind == "end":
            break
        is_first = bool(words[at - 1].text in ("(|", "where")) if at else True
        if column is not None or is_open:
            lines.begin(inside, word.is_apart and column is not None and not is_first)
            lines.add("", word.text)
        else:
            lines.add(" " if word.comments else layout.blank(before, at), word.text)
        before = at
    return lines.text()


def formatted(text):
    """The text laid out; Unformatted where it is no program, or too long to be read."""
    reader = syntax.Reader(text)
    if reader.is_cut:
        raise Unformatted(0, 0, f"more than {syntax.MOST_PIECES} words")
    reader.program()
    if reader.strange:
        at = reader.strange[0]
        raise Unformatted(text.count("\n", 0, at) + 1, at - text.rfind("\n", 0, at), "no word begins here")
    if reader.faults or not reader.processes:
        fault = reader.faults[0].found if reader.faults else reader.here()
        raise Unformatted(fault.line, fault.col, f"found `{syntax.truncated(fault.text)}`" if fault.text else "the text ends")
    excess = text_limits.first_excess(reader)
    if excess:
        raise Unformatted(excess.piece.line if excess.piece else 0, excess.piece.col if excess.piece else 0, excess.words)
    words = words_of(text)
    made = laid_out(words)
    if told(words_of(made)) != told(words):
        raise Unformatted(0, 0, "its words would not stay the same")
    return made


def told(words):
    """What must stay as it is: the words and the comments in their order."""
    return [it for word in words for it in (*(comment.text for comment in word.comments), word.text)]
