"""Whether a text is a kernel as it is: its syntax is the kernel's, and no bare constant stands in it where the kernel allows none."""
import functools
import re

from sigc.expand.tokens import FOREIGN_MARKS
from sigc.read import syntax
from sigc.read.lexer import RESERVED

BUILT_IN = {"min", "max", "abs"}
# Operands that may be constants: of a function one of them, of `when` the first.
FUNCTIONS = {"=", "/=", "<", "<=", ">", ">=", "+", "-", "*", "/", "modulo", "and", "or", "xor"}


# What no writer of a kernel writes, also where the rest of the text cannot be read: kinds of arrays, enumerations, automata.
MEANT = re.compile(r"\[[^\]\n]*\]\s*(?:integer|boolean|event)\b|=\s*enum\b|\bautomaton\s+\w+\s+state\b|\bconstant\s+(?:\[|integer\b|boolean\b)")


def is_meant_wider(text: str) -> bool:
    """Whether a text is written as no kernel."""
    return bool(MEANT.search(re.sub(r"%[^%]*%", " ", text)))


@functools.lru_cache(maxsize=1)
def reader_of(text: str):
    """The kernel's reader of a text, which more than one question asks."""
    return syntax.read(text)


def is_kernel(text: str, tokens: list) -> bool:
    """Whether sigc takes the syntax of a text, and its bare constants."""
    if is_foreign(tokens):
        return False
    reader = reader_of(text)
    return has_syntax(reader) and not has_bare_constant(reader) and not has_built_in(reader)


def is_foreign(tokens: list) -> bool:
    """Whether a mark stands among these tokens that no kernel has, or two names beside each other."""
    before = False
    for it in tokens:
        is_name = it.kind == "name" and it.text not in RESERVED
        if is_name and before or it.text in FOREIGN_MARKS and it.kind == "mark":
            return True
        before = is_name
    return False


def is_expanded(text: str) -> bool:
    """Whether a text of the kernel's syntax is one to be expanded."""
    reader = reader_of(text)
    return has_syntax(reader) and (has_bare_constant(reader) or has_built_in(reader))


def has_built_in(reader) -> bool:
    """Whether a function of the front end is called that no process is, which sigc would refuse."""
    names = {it.name.text for it in reader.processes}
    called = {it.called.text for process in reader.processes for it in process.equations if it.called}
    return bool(called & (BUILT_IN - names))


def fault_of(text: str) -> tuple[int, int] | None:
    """Where a text stops to be one of the kernel; none where it is one."""
    reader = reader_of(text)
    if reader.strange:
        at = reader.strange[0]
        return text.count("\n", 0, at) + 1, at - text.rfind("\n", 0, at)
    return (reader.faults[0].found.line, reader.faults[0].found.col) if reader.faults else None


def has_syntax(reader) -> bool:
    return not reader.faults and not reader.strange


def has_bare_constant(reader) -> bool:
    """Whether a constant stands where the kernel allows none."""
    for process in reader.processes:
        parameters = {it.name.text for it in process.parameters}
        for equation in process.equations:
            tops = [equation.right] if equation.right else []
            if any(is_bare(it, parameters) for it in [*tops, *equation.arguments, *equation.terms]):
                return True
    return False


def is_constant(node, parameters: set[str]) -> bool:
    if node.op == "neg":
        return node.parts[0].op == "number"
    return node.op in ("number", "truth") or node.op == "name" and node.at.text in parameters


def is_bare(node, parameters: set[str]) -> bool:
    """Whether an expression is a constant or has one where none may stand."""
    work = [(node, False)]
    while work:
        node, may_be = work.pop()
        if is_constant(node, parameters):
            if not may_be:
                return True
            continue
        constants = [is_constant(it, parameters) for it in node.parts]
        if node.op in FUNCTIONS and all(constants):
            return True
        allowed = [node.op in FUNCTIONS or node.op == "when" and number == 0 for number in range(len(node.parts))]
        work += zip(node.parts, allowed)
    return False
