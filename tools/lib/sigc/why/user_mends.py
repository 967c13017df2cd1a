"""Fixes of a kernel as fixes of the program that it was made of: further inputs, further equations, and names in other words.

Each is tried: the changed program is expanded, and sigc accepts its kernel. A fix that has no such form is left out.
"""
import difflib
import re

from sigc.call import opened
from sigc.call.compiler import Sigc
from sigc.call.refusing import Refused
from sigc.expand.tokens import Token, tokens_of
from sigc.read import syntax
from sigc.read.editing import Edit, applied, difference, offset_of
from sigc.why.mending import Mend

EQUATION = re.compile(r" \| (.*)")
NAME = re.compile(r"[A-Za-z]\w*")
PART = re.compile(r"[A-Za-z]\w*(?:\[[^\]]*\])*")
LAST_NAME = re.compile(r"[A-Za-z]\w*\Z")
PLACE = re.compile(r"\bat (\d+):(\d+)")


class NoForm(Exception):
    """A fix that cannot be written in the user's text."""


class UserText:
    """The text of a program that has a kernel, and where things are in it."""

    def __init__(self, home: opened.Opened):
        self.home, self.text = home, home.source
        self.tokens = tokens_of(self.text, home.path)
        names = [it.text for it in syntax.read(home.text).pieces[:2]]
        self.begin = next((n for n in range(len(self.tokens) - 1) if [it.text for it in self.tokens[n : n + 2]] == names), None)
        if self.begin is None:
            raise NoForm

    def offset(self, token: Token) -> int:
        return offset_of(self.text, token.line, token.col)

    def inputs(self, added: list[tuple[str, str]]) -> list[Edit]:
        """Inputs before the others."""
        at = next(it for it in self.tokens[self.begin :] if it.text == "?")
        return [Edit(self.offset(at) + 1, self.offset(at) + 1, "".join(f" {kind} {name};" for name, kind in added))] if added else []

    def end_of_body(self) -> int:
        """Where the composition of the first process ends."""
        depth = 0
        for it in self.tokens[self.begin :]:
            depth += (it.text == "(|") - (it.text == "|)")
            if it.text == "|)" and not depth:
                return self.offset(it)
        raise NoForm

    def equations(self, added: list[str]) -> list[Edit]:
        """Equations after the others, each on a line if the composition ends on its own."""
        at = self.end_of_body() if added else 0
        line = self.text[self.text.rfind("\n", 0, at) + 1 : at]
        before, after = ("| ", f"\n{line}") if not line.strip() else (f"{'' if self.text[at - 1].isspace() else ' '}| ", " ")
        return [Edit(at, at, before + f"{after}| ".join(map(self.words, added)) + after)] if added else []

    def words(self, text: str) -> str:
        """An expression of the kernel in the user's names; NoForm where a name is none of the user's text."""
        shown = [self.home.name(it) for it in NAME.findall(text)]
        if any(re.search(r"[#. =]|\[-", it) for it in shown):
            raise NoForm
        return self.home.words(text)

    def other_words(self, old: str, new: str, number: int) -> Edit:
        """The change of a name in a line of the kernel, at the user's place."""
        it = difference(old, new)
        name, at = old[it.start : it.end], self.home.expansion.at(number, it.start + 1).place
        begin = self.begin_of_name(offset_of(self.text, at.line, at.col))
        part = PART.match(self.text, begin)
        if not NAME.fullmatch(name) or at.file != self.home.path or not part or base_of(part[0]) != base_of(self.home.name(name)):
            raise NoForm
        pieces = re.split(rf"\b{name}\b", it.text)
        return Edit(begin, part.end(), part[0].join(map(self.words, pieces)))

    def begin_of_name(self, at: int) -> int:
        """Where a name begins whose first index is at an offset; another offset as it is."""
        found = LAST_NAME.search(self.text[:at]) if self.text[at : at + 1] == "[" else None
        return found.start() if found else at


def base_of(name: str) -> str:
    """A name without indices, and without the call that it belongs to."""
    return name.rpartition(".")[2].partition("[")[0]


def edits_of(user: UserText, old: str, new: str) -> list[Edit]:
    """The edits of the user's text that a change of the kernel stands for."""
    known = {it.name.text for it in syntax.read(old).processes[0].inputs}
    found = user.inputs([(it.name.text, it.kind) for it in syntax.read(new).processes[0].inputs if it.name.text not in known])
    one, other = old.split("\n"), new.split("\n")
    added: list[str] = []
    for tag, a, b, c, d in difflib.SequenceMatcher(None, one, other, autojunk=False).get_opcodes():
        changed = [(number, *pair) for number, pair in enumerate(zip(one[a:b], other[c:d]), a + 1)] if tag != "equal" else []
        found += [user.other_words(before, after, number) for number, before, after in changed if number > 1]
        if tag == "delete" or b - a > d - c:
            raise NoForm
        added += [equation_in(it) for it in other[c + b - a : d]]
    return [*dict.fromkeys(found), *user.equations(added)]


def equation_in(line: str) -> str:
    found = EQUATION.fullmatch(line)
    if not found:
        raise NoForm
    return found[1]


def of_user(sigc: Sigc, home: opened.Opened, mends: list[Mend], include: tuple) -> list[Mend]:
    """The fixes of a kernel that can be written in the user's text, and are accepted there."""
    found = []
    for it in mends:
        try:
            user = UserText(home)
            text = applied(user.text, edits_of(user, home.text, it.text))
            made = opened.Opened(home.path, text, include)
        except (NoForm, Refused):
            continue
        if sigc.check(made.text) is None:
            found.append(Mend(told(home, it.words), text, tuple(told(home, note) for note in it.notes)))
    return found


def told(home: opened.Opened, words: str) -> str:
    """What is said of a fix, with the user's names and places."""
    return home.words(PLACE.sub(lambda it: f"at {home.place(int(it[1]), int(it[2]))}", words))
