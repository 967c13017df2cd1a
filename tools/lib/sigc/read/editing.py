"""Edits of a program's text, and a program that was read as a draft of another one."""
import difflib
import itertools
import re
from typing import NamedTuple

from sigc.read.syntax import read


class Edit(NamedTuple):
    """The text that stands in the place of the bytes from `start` to `end`."""

    start: int
    end: int
    text: str


def applied(text, edits):
    for it in sorted(edits, key=lambda it: (-it.start, -it.end)):
        text = text[: it.start] + it.text + text[it.end :]
    return text


def offset_of(text, line, col):
    lines = text.split("\n")
    return sum(len(it) + 1 for it in lines[: line - 1]) + col - 1


def place_of(text, offset):
    return text.count("\n", 0, offset) + 1, offset - (text.rfind("\n", 0, offset) + 1) + 1


def original(offset, edits):
    """The offset in the old text of an offset in the text with these edits; None inside one."""
    for it in sorted(edits, key=lambda it: it.start):
        if offset < it.start:
            break
        if offset < it.start + len(it.text):
            return None
        offset -= len(it.text) - (it.end - it.start)
    return offset


def difference(old, new):
    """One edit that makes the new text of the old one."""
    first = next((at for at, (a, b) in enumerate(zip(old, new)) if a != b), min(len(old), len(new)))
    most = min(len(old), len(new)) - first
    last = next((at for at in range(most) if old[-1 - at] != new[-1 - at]), most)
    return Edit(first, len(old) - last, new[first : len(new) - last])


def differences(old, new):
    """The edits that make the new text of the old one, one for each run of lines that differ."""
    one, other = old.splitlines(True), new.splitlines(True)
    at, found = [0], []
    for it in one:
        at.append(at[-1] + len(it))
    for tag, a, b, c, d in difflib.SequenceMatcher(None, one, other, autojunk=False).get_opcodes():
        if tag != "equal":
            it = difference(old[at[a] : at[b]], "".join(other[c:d]))
            found.append(Edit(at[a] + it.start, at[a] + it.end, it.text))
    return found


def changed_lines(old, new):
    """The lines that a mend takes away and puts in, as pairs of a sign and a line with its number."""
    found, one, other = [], old.split("\n"), new.split("\n")
    for tag, a, b, c, d in difflib.SequenceMatcher(None, one, other, autojunk=False).get_opcodes():
        if tag != "equal":
            found += [("-", at + 1, one[at]) for at in range(a, b)]
            found += [("+", at + 1, other[at]) for at in range(c, d)]
    return found


def with_equation(text, process, *equations):
    """The edits that put equations behind the others of a process."""
    body, words = process.body, " | ".join(equations)
    if body[0].text != "(|":
        return [Edit(body[0].start, body[0].start, "(| "), Edit(body[-1].end, body[-1].end, f" | {words} |)")]
    last, close = body[-2], body[-1]
    if last is body[0]:
        return [Edit(last.end, close.start, f" {words} ")]
    begun = text.rfind("\n", 0, close.start) + 1
    indent = text[begun : close.start]
    if indent.strip() or not begun:
        return [Edit(last.end, last.end, f" | {words}")]
    return [Edit(begun, begun, "".join(f"{indent}| {it}\n" for it in equations))]


def with_inputs(process, kind, names):
    """The edits that put inputs of one kind before the others."""
    if process.inputs and process.inputs[0].kind == kind:
        begin = process.inputs[0].name.start
        return [Edit(begin, begin, f"{', '.join(names)}, ")]
    begin = process.query.end
    return [Edit(begin, begin, f" {kind} {', '.join(names)}" + (";" if process.inputs else ""))]


def with_tellers(process, tellers):
    """The edits that declare boolean inputs, each directly before the inputs that are declared with another one: pairs of
    that one and a name."""
    groups = {}
    for declaration, name in sorted(tellers, key=lambda it: it[0].name.start):
        groups.setdefault(declaration.group, []).append(name)
    return [before_group(process, group, ", ".join(names)) for group, names in groups.items()]


def before_group(process, group, names):
    at = next(at for at, it in enumerate(process.inputs) if it.group is group)
    before = process.inputs[at - 1] if at else None
    if process.inputs[at].kind == "boolean":
        return Edit(process.inputs[at].name.start, process.inputs[at].name.start, f"{names}, ")
    if before and before.kind == "boolean":
        return Edit(before.name.end, before.name.end, f", {names}")
    return Edit(group.start, group.start, f"boolean {names}; ")


def with_local(process, kind, name):
    if process.where:
        return [Edit(process.where.end, process.where.end, f" {kind} {name};")]
    return [Edit(process.end.start, process.end.start, f" where {kind} {name}; end")]


def with_locals(process, kinds):
    """The edits that declare locals: a map from names to their kinds."""
    text = " ".join(f"{group}" for group in groups_of(kinds))
    if process.where:
        return [Edit(process.where.end, process.where.end, f" {text}")]
    return [Edit(process.end.start, process.end.start, f" where {text} end")]


def groups_of(kinds):
    """The declarations of names with their kinds, one for each kind."""
    return [f"{kind} {', '.join(name for name, it in kinds.items() if it == kind)};" for kind in dict.fromkeys(kinds.values())]


def with_kind(process, declarations, kind):
    """The edits that make inputs of another kind, at their places among the others."""
    inputs, edits = process.inputs, []
    kinds = [kind if it in declarations else it.kind for it in inputs]
    if inputs[0] in declarations:
        edits.append(Edit(inputs[0].group.start, inputs[0].group.end, kind))
    for (one, one_kind), (other, other_kind) in itertools.pairwise(zip(inputs, kinds)):
        if one in declarations or other in declarations:
            edits.append(Edit(one.name.end, other.name.start, ", " if one_kind == other_kind else f"; {other_kind} "))
    return edits


def without(text, process, equation):
    """The edit that takes an equation away, with the bar beside it."""
    at = process.body.index(equation.pieces[0])
    end = process.body.index(equation.pieces[-1])
    if process.body[at - 1].text == "|":
        return Edit(process.body[at - 2].end, equation.pieces[-1].end, "")
    if end + 1 < len(process.body) and process.body[end + 1].text == "|":
        return Edit(equation.pieces[0].start, process.body[end + 1].end + 1, "")
    return Edit(equation.pieces[0].start, equation.pieces[-1].end, "(| |)" if process.body[0] is equation.pieces[0] else "")


def without_declaration(text, process, declaration):
    """The edit that takes a local's declaration away."""
    group = [it for it in process.locals if it.group is declaration.group]
    at = group.index(declaration)
    if len(group) == 1:
        return Edit(len(text[: declaration.group.start].rstrip()), text.index(";", end_of(declaration)) + 1, "")
    if at:
        return Edit(end_of(group[at - 1]), end_of(declaration), "")
    return Edit(declaration.name.start, group[1].name.start, "")


def end_of(declaration):
    return declaration.init[-1].end if declaration.init else declaration.name.end


def of_kind(process, declaration, kind):
    """The edits that declare an output or a local with another kind."""
    group = [it for it in process.names() if it.group is declaration.group]
    if len(group) == 1:
        return [Edit(declaration.group.start, declaration.group.end, kind)]
    at, last = group.index(declaration), end_of(group[-1])
    start, end = (end_of(group[at - 1]), end_of(declaration)) if at else (declaration.name.start, group[1].name.start)
    if end == last:
        return [Edit(start, last, f"; {kind} {declaration.name.text}")]
    return [Edit(start, end, ""), Edit(last, last, f"; {kind} {declaration.name.text}")]


def fresh(process, name):
    names = {it.name.text for it in process.names()}
    while name in names:
        name += "_"
    return name


class Draft:
    """A program that was read, and where the signal of a refusal is declared."""

    def __init__(self, text):
        self.text = text
        self.processes = read(text).processes
        self.first = self.processes[0]

    def owner(self, name):
        """The process and the declaration of a signal that sigc names, as COUNT#1.N; no declaration of an intermediate."""
        found = re.fullmatch(r"(?:(\w+)#\d+\.)?(\w+)", name)
        if not found:
            return self.intermediate(name), None
        process = self.first if not found[1] else next(it for it in self.processes if it.name.text == found[1])
        return process, process.declaration(found[2])

    def intermediate(self, name):
        line, col = map(int, re.search(r"#(\d+):(\d+)", name).groups())
        for process in self.processes:
            for equation in process.equations:
                if any(it.line == line and it.col == col for it in equation.pieces):
                    return process
        return self.first

    def edited(self, edits):
        return applied(self.text, edits)

    def equated(self, process, words):
        return f"the clock equation {words}", self.edited(with_equation(self.text, process, words))


def names_in(process, *roles):
    return [it for it in process.signals() if not roles or it.role in roles]
