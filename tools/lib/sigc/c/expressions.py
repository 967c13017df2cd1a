"""Values as expressions of C: their text, how tightly it binds, what it reads, and the constant where it is one."""
from typing import NamedTuple

CHOICE, OR, AND, EQUALITY, RELATION, SUM, PRODUCT, UNARY, ATOM = range(9)
LEAST, MOST = -(1 << 63), (1 << 63) - 1
MARKS = {"Eq": "==", "Ne": "!=", "Lt": "<", "Le": "<=", "Gt": ">", "Ge": ">=", "Div": "/", "Mod": "%"}
MIRRORED = {"Lt": "Gt", "Gt": "Lt", "Le": "Ge", "Ge": "Le", "Eq": "Eq", "Ne": "Ne"}
DECIDED = {
    "Eq": lambda a, b: a == b, "Ne": lambda a, b: a != b, "Lt": lambda a, b: a < b,
    "Le": lambda a, b: a <= b, "Gt": lambda a, b: a > b, "Ge": lambda a, b: a >= b,
}


class Value(NamedTuple):
    """An expression: its text, the level of its operator, the variables that it reads, its constant or None, and its type."""

    text: str
    level: int
    reads: frozenset = frozenset()
    constant: int = None
    kind: str = "int64_t"

    def at(self, level):
        """The text where an operator of a level takes it."""
        return self.text if self.level >= level else f"({self.text})"


def constant(value):
    """A constant: the least integer has no digits of its own in C."""
    text = "INT64_MIN" if value == LEAST else str(value)
    return Value(text, ATOM if value >= 0 or value == LEAST else UNARY, frozenset(), value)


def variable(name, kind="int64_t"):
    return Value(name, ATOM, frozenset((name,)), None, kind)


def negation(it):
    if it.constant is not None:
        return constant(1 - it.constant)
    if it.text.startswith("!") and it.level == UNARY:
        return Value(it.text[1:], ATOM if it.text[1] != "(" else ATOM, it.reads)
    return Value(f"!{it.at(ATOM)}", UNARY, it.reads)


def joined(level, mark, parts):
    """Truths joined by `&&` or `||`, each once; mixed ones stand in parentheses."""
    texts = list(dict.fromkeys(it.text if it.level == level or it.level > EQUALITY or it.level in (EQUALITY, RELATION) else f"({it.text})" for it in parts))
    if len(texts) == 1:
        return parts[0]
    return Value(f" {mark} ".join(texts), level, frozenset().union(*(it.reads for it in parts)))


def conjunction(parts):
    if any(it.constant == 0 for it in parts):
        return constant(0)
    rest = [it for it in parts if it.constant is None]
    return joined(AND, "&&", rest) if rest else constant(1)


def disjunction(parts):
    if any(it.constant == 1 for it in parts):
        return constant(1)
    rest = [it for it in parts if it.constant is None]
    return joined(OR, "||", rest) if rest else constant(0)


def choice(test, first, second):
    """`first` where the test is true, and else `second`."""
    if test.constant is not None:
        return first if test.constant else second
    if first.text == second.text:
        return first
    reads = test.reads | first.reads | second.reads
    kinds = {it.kind for it in (first, second) if it.constant is None}
    return Value(f"{test.at(OR)} ? {first.at(OR)} : {second.text}", CHOICE, reads, None, kinds.pop() if len(kinds) == 1 else "int")


def truth_choice(test, first, second):
    """The same of truths: a test itself where it is chosen from true and false."""
    if (first.constant, second.constant) == (1, 0):
        return test
    if (first.constant, second.constant) == (0, 1):
        return negation(test)
    return choice(test, first, second)


def compared(function, first, second):
    """A comparison of integers; one that is decided by its operands is a constant, since compilers warn of it."""
    if first.constant is not None and second.constant is not None:
        return constant(int(DECIDED[function](first.constant, second.constant)))
    if first.constant is not None:
        return compared(MIRRORED[function], second, first)
    if first.text == second.text:
        return constant(int(DECIDED[function](0, 0)))
    if second.constant == LEAST and function in ("Lt", "Ge"):
        return constant(int(function == "Ge"))
    if second.constant == MOST and function in ("Gt", "Le"):
        return constant(int(function == "Le"))
    level = EQUALITY if function in ("Eq", "Ne") else RELATION
    return Value(f"{first.at(SUM)} {MARKS[function]} {second.at(SUM)}", level, first.reads | second.reads)


def same(first, second):
    """Whether two truths are equal."""
    for one, another in ((first, second), (second, first)):
        if one.constant is not None:
            return another if one.constant else negation(another)
    if first.text == second.text:
        return constant(1)
    for one, another in ((first, second), (second, first)):
        if another.level == UNARY:
            return other(one, negation(another))
    return Value(f"{first.at(ATOM)} == {second.at(ATOM)}", EQUALITY, first.reads | second.reads)


def other(first, second):
    """Whether they differ."""
    if first.constant is None and second.constant is None and first.text != second.text:
        for one, another in ((first, second), (second, first)):
            if another.level == UNARY:
                return same(one, negation(another))
        return Value(f"{first.at(ATOM)} != {second.at(ATOM)}", EQUALITY, first.reads | second.reads)
    return negation(same(first, second))


TRUTHS = {"And": lambda a, b: conjunction([a, b]), "Or": lambda a, b: disjunction([a, b]), "Xor": other, "Eq": same, "Ne": other}


def cast(kind, it):
    """A value as one of a type, said where that is not its own."""
    if it.kind == kind or it.constant is not None or kind in ("int64_t", "int"):
        return it
    return Value(f"({kind}){it.at(UNARY)}", UNARY, it.reads, None, kind)


def reckoned(name, operands, kind):
    """A sum, a product and the like that stays within a type, reckoned in that type."""
    if kind not in ("int", *(it.kind for it in operands if it.constant is None)):
        first = operands[0]
        operands = [Value(f"({kind}){first.at(UNARY)}", UNARY, first.reads, None, kind), *operands[1:]]
    reads = frozenset().union(*(it.reads for it in operands))
    first, second = operands[0], operands[-1]
    if name == "Neg":
        return Value(f"-{first.at(ATOM)}", UNARY, reads, None, kind)
    level = SUM if name in ("Add", "Sub") else PRODUCT
    mark = {"Add": "+", "Sub": "-", "Mul": "*", "Div": "/", "Mod": "%"}[name]
    return Value(f"{first.at(level)} {mark} {second.at(level + 1)}", level, reads, None, kind)


def function(name, operands, are_truths, kind="int64_t"):
    """A function that neither overflows nor divides by zero."""
    if name == "Id":
        return operands[0]
    if name == "Not":
        return negation(operands[0])
    if are_truths:
        return TRUTHS[name](*operands)
    if name in DECIDED:
        return compared(name, *operands)
    first, second = operands[0], operands[-1]
    if name == "Mod" and second.constant in (1, -1):
        return constant(0)
    if name == "Div" and second.constant == 1:
        return first
    return reckoned(name, operands, kind)


def is_safe(name, operands):
    """Whether a function always has a value within 64 bits."""
    if name in ("Div", "Mod"):
        divisor = operands[1].constant
        return divisor is not None and divisor != 0 and (name == "Mod" or divisor != -1)
    return name not in ("Neg", "Add", "Sub", "Mul")
