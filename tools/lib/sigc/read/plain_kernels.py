"""Whether a text is plainly a kernel of sigc, so that no script has to expand it: it has the kernel's syntax, no constant where
a clock is wanted, and no call of a process that it does not have."""
from sigc.read import syntax

CONSTANTS = ("number", "truth")


def is_plainly_kernel(text: str) -> bool:
    """Whether the scripts' reader finds no fault, no bare constant and no unknown process in a text."""
    try:
        reader = syntax.read(text)
    except RecursionError:
        return False
    names = {it.name.text for it in reader.processes}
    called = {it.called.text for process in reader.processes for it in process.equations if it.called}
    return bool(names) and called <= names and not reader.faults and not any(map(has_bare, reader.processes))


def has_bare(process) -> bool:
    """Whether a constant of a process stands where the kernel takes none, or might."""
    parameters = {it.name.text for it in process.parameters}
    wholes = [it for equation in process.equations for it in equation.expressions()]
    nodes = [it for whole in wholes for it in syntax.walk(whole)]
    clocked = [part for it in nodes for part in clocked_parts(it)]
    computed = [it for it in nodes if it.op in syntax.FUNCTIONS and not (it.op == "neg" and it.parts[0].op == "number")]
    return any(is_constant(it, parameters) for it in [*wholes, *clocked, *computed])


def clocked_parts(node) -> list:
    """The operands of an expression that need a clock of their own."""
    if node.op == "when":
        return node.parts[1:]
    return node.parts if node.op in ("default", "$", "cell", "^", "at", *syntax.CLOCK_MARKS) else []


def is_constant(node, parameters) -> bool:
    """Whether an expression has no signal in it."""
    if node.op == "name":
        return node.at.text in parameters
    return node.op in CONSTANTS or node.op in syntax.FUNCTIONS and all(is_constant(it, parameters) for it in node.parts)
