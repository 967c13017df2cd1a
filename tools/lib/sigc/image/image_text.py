"""The parts of an image as text."""
from sigc.image import images

MARKS = {"And": "and", "Or": "or", "Xor": "xor", "Eq": "=", "Ne": "/=", "Lt": "<", "Le": "<=", "Gt": ">", "Ge": ">="}
MARKS |= {"Add": "+", "Sub": "-", "Mul": "*", "Div": "/", "Mod": "modulo"}


def value_text(kind, value):
    return str(value) if kind == "integer" else ("false", "true")[value]


def reference_text(number):
    """A guard, or a child of a node."""
    return ("never", "always")[number] if number < 2 else f"node {number - 2}"


def operand_texts(image, operands):
    """Constants stand beside signals, and are truths where these are."""
    kinds = [image.signals[it.signal].kind for it in operands if it.signal is not None]
    return [value_text(kinds[0], it.value) if it.signal is None else image.signals[it.signal].name for it in operands]


def function_text(image, function, operands):
    texts = operand_texts(image, operands)
    if function == "Id":
        return texts[0]
    if function in images.SINGLE:
        return f"{'-' if function == 'Neg' else 'not '}{texts[0]}"
    return f"{texts[0]} {MARKS[function]} {texts[1]}"


def does_text(image, operation):
    """What an operation does."""
    names = [it.name for it in image.signals]
    first, *rest = operation.fields
    if operation.kind == "Read":
        return f"read {names[first]}"
    if operation.kind == "Fun":
        return f"{names[first]} := {function_text(image, *rest)}"
    if operation.kind == "Copy":
        return f"{names[first]} := {names[rest[0]]}"
    if operation.kind == "Const":
        return f"{names[first]} := {value_text(image.signals[first].kind, rest[0])}"
    if operation.kind == "DelayRead":
        return f"{names[first]} := memory {rest[0]}"
    return f"memory {first} := {names[rest[0]]}"


def signal_lines(image):
    for number, signal in enumerate(image.signals):
        role = "input " if number < image.inputs else "output " if number < image.inputs + image.outputs else ""
        yield f"{number} {role}{signal.kind} {signal.name}"


def node_lines(image):
    for number, node in enumerate(image.nodes):
        name = image.signals[image.conditions[node.condition]].name
        yield f"{number} {name} ? {reference_text(node.high)} : {reference_text(node.low)}"


def operation_lines(image):
    for number, it in enumerate(image.operations):
        guard = "" if it.guard == 1 else f"{reference_text(it.guard)}: "
        yield f"{number} {it.line}:{it.column} {guard}{does_text(image, it)}"


def parts_of(image):
    """The parts by their titles, each as lines."""
    yield "signals", signal_lines(image)
    yield "conditions", (f"{n} {image.signals[it].name}" for n, it in enumerate(image.conditions))
    yield "memories", (f"{n} {it.kind} {value_text(it.kind, it.init)}" for n, it in enumerate(image.memories))
    yield "nodes", node_lines(image)
    yield "operations", operation_lines(image)
