"""The program that runs a step over a flow file or over standard input: the files of C in `main`, with a program's names."""
from sigc.c.c_files import Unit, quoted
from sigc.c.comments import commented
from sigc.c.marked_files import filled
from sigc.c.users_main import Users
from sigc.image.images import Signal

ANY_INTEGER = ("INT64_MIN", "INT64_MAX")
# What main.c has in the place of these marks for a kernel; what it has for a program that is none is in users_main.
PLAIN = dict.fromkeys(("ports", "named", "values", "named_value", "other_name", "arrays", "array_line", "named_wanted"), "")
PLAIN |= {"context": "const Context *context, ", "context_given": "&context, ", "ports_count": "INPUTS"}
PLAIN |= {"port_name": "context->flows[i].name", "signal": "end->signal"}


def main_text(unit: Unit, users: Users | None = None) -> str:
    """The text of main.c for a program's unit; of a program that is no kernel with the user's names, values and places."""
    inputs = unit.inputs()
    words = users.words() if users else PLAIN | {"row": filled("main/rows.c"), "told": filled("main/told.c", p=unit.prefix)}
    names = users.port_names() if users else [signal.name for signal in inputs]
    return filled(
        "main/main.c", p=unit.prefix, stem=unit.stem, inputs=len(inputs), **{name: unit.words[name] for name in ("title", "path", "made")},
        order=commented(" ".join(names)), flows="".join(flow(unit, signal, users) for signal in inputs),
        output_functions="\n".join(output_functions(unit, users)), input_functions="\n".join(input_functions(unit, words["named_wanted"])),
        **{name: text for name, text in words.items() if name != "named_wanted"},
    )


def flow(unit: Unit, signal: Signal, users: Users | None) -> str:
    """The row of an input in the table of flows."""
    least, most = unit.bounds_of(signal) or ANY_INTEGER
    name, kind = (users.shown(signal.name), users.kind(signal)) if users else (signal.name, signal.kind.upper())
    return f"{{{quoted(name)}, {kind}, NULL, 0, 0, 0, {least}, {most}}}, "


def output_functions(unit: Unit, users: Users | None) -> list[str]:
    """The functions that write outputs. A compiler warns of unused functions: each kind of output brings its own."""
    outputs = unit.outputs()
    plain = [signal for signal in outputs if not users or users.is_plain(signal)]
    are_integers = {signal.kind == "integer" for signal in plain}
    used = {"lines": bool(outputs), "names": bool(plain), "integers": True in are_integers, "truths": False in are_integers}
    functions = [filled(f"main/{name}.c") for name in used if used[name]] + (users.writing() if users else [])
    return functions + [(writer if signal in plain or not users else users.writer)(unit, signal) for signal in outputs]


def input_functions(unit: Unit, named_wanted: str) -> list[str]:
    """The functions that read inputs."""
    inputs = unit.inputs()
    return [filled("main/inputs.c", named_wanted=named_wanted)] * bool(inputs) + [reader(unit, number, signal) for number, signal in enumerate(inputs)]


def writer(unit: Unit, signal: Signal) -> str:
    """The function that takes an output."""
    name = f"{quoted(signal.name + ' ')}, {len(signal.name) + 1}"
    value = "" if signal.kind == "event" else f", {unit.kind_of(signal)} value"
    put = "put_integer" if signal.kind == "integer" else "put_truth"
    return f"void w_{unit.prefix}_{signal.name}(Context *context{value})\n{{\n    {put}(context, {name}, {'1' if signal.kind == 'event' else 'value'});\n}}\n"


def reader(unit: Unit, number: int, signal: Signal) -> str:
    """The function that gives an input."""
    head = f"int r_{unit.prefix}_{signal.name}(Context *context"
    if signal.kind == "event":
        return f"{head})\n{{\n    int64_t value;\n    return take(context, {number}, &value);\n}}\n"
    kind, bounds = unit.kind_of(signal), unit.bounds_of(signal)
    if kind == "int64_t" and bounds is None:
        return f"{head}, int64_t *value)\n{{\n    return take(context, {number}, value);\n}}\n"
    lines = ["int64_t taken = 0;", f"int is_there = take(context, {number}, &taken);"]
    if bounds:
        lines += [f"context->is_outside = is_there && (taken < {bounds[0]} || taken > {bounds[1]});", "is_there = is_there && !context->is_outside;"]
    lines += [f"*value = ({kind})taken;", "return is_there;"]
    return f"{head}, {kind} *value)\n{{\n" + "".join(f"    {line}\n" for line in lines) + "}\n"
