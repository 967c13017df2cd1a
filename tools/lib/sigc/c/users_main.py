"""What main.c has of a program that is no kernel: the user's names of inputs, arrays between brackets, values as `#red`, and the
places of its text. The functions for that stand in c/users as files of C, with marks like @names@."""
import os
from collections.abc import Iterable

from sigc.c.c_files import quoted
from sigc.expand.flows import Port, listed

FOLDER = f"{os.path.dirname(os.path.realpath(__file__))}/users"
NAMED_VALUE = """    if (kind >= NAMED) {
        return named_value(word, &NAMES[kind - NAMED], value);
    }
"""
NAMED_WANTED = """    if (flow->kind >= NAMED) {
        int i;
        for (i = 0; i < NAMES[flow->kind - NAMED].count; i++) {
            fprintf(stderr, "%s%s", i == 0 ? "" : " or ", NAMES[flow->kind - NAMED].names[i]);
        }
        fprintf(stderr, " is wanted\\n");
        return;
    }
"""
ARRAY_LINE = """            } else if (port_of(name) != NULL) {
                status = read_arrays(context, port_of(name), path, number, begin, at, end, is_counted, &total);
                if (status != 0) {
                    return status;
                }
"""
TOLD = """    } else {
        fprintf(stderr, "end: %s after %lu instants\\n", ends[number].text, instants);
"""
ENDS = """/* The ends by the numbers that {p}_step answers: the signal, and what is said, in the words of the program's text. */
static const struct {{
    const char *signal, *text;
}} ends[] = {{
{rows}
}};

"""


def text_of(name: str, **marks: str) -> str:
    """A file of C in c/users, with its marks filled in."""
    with open(f"{FOLDER}/{name}", encoding="ascii") as it:
        text = it.read()
    for mark, given in marks.items():
        text = text.replace(f"@{mark}@", given)
    return text


class Users:
    """The user's names, values and places of one program; unit has its files."""

    def __init__(self, home, unit):
        self.home, self.unit, self.expansion = home, unit, home.expansion
        self.ports = {name: it for it in self.expansion.inputs + self.expansion.outputs for name in listed(it.names)}
        self.types = list(dict.fromkeys(it.kind for it in self.ports.values() if hasattr(it.kind, "values")))

    def shown(self, name: str) -> str:
        return self.expansion.name(name)

    def port_names(self) -> list[str]:
        return [it.name for it in self.expansion.inputs]

    def kind(self, signal) -> str:
        """The kind of an input, as the table of flows has it."""
        kind = self.ports[signal.name].kind
        return f"NAMED + {self.types.index(kind)}" if kind in self.types else signal.kind.upper()

    def is_plain(self, signal) -> bool:
        return self.ports[signal.name].is_plain()

    def words(self) -> dict[str, str]:
        """The parts of main.c that differ."""
        has_arrays = any(it.sizes for it in self.expansion.inputs)
        found = dict.fromkeys(("array_line", "arrays", "named_value", "named_wanted", "values"), "")
        if self.types:
            found["values"] = text_of("values.c", names=self.tables())
            found |= {"named_value": NAMED_VALUE, "named_wanted": NAMED_WANTED}
        if has_arrays:
            found |= {"arrays": text_of("flows.c").lstrip("\n") + "\n", "array_line": ARRAY_LINE}
        kernel_names = "".join(f"{quoted(it.name)}, " for it in self.unit.inputs())
        other = " || is_word(name, kernel_names[i])" if self.unit.inputs() else ""
        names = f"/* The names of the inputs' elements in the kernel, which flow files may have too. */\nstatic const char *const kernel_names[] = {{{kernel_names}NULL}};\n\n"
        found |= {"ports": f", PORTS = {len(self.expansion.inputs)}", "named": ", NAMED" if self.types else "", "other_name": other}
        found |= {"row": self.ends() + text_of("rows.c", ports=self.port_table()) + ("\n" + names if other else ""), "told": TOLD}
        return found | {"context": "", "context_given": "", "ports_count": "PORTS", "port_name": "ports[i].name", "signal": "ends[number].signal"}

    def tables(self) -> str:
        """The names of the values of each type."""
        lines = []
        for number, it in enumerate(self.types):
            lines.append(f"static const char *const names_{number}[] = {{{', '.join(quoted('#' + value) for value in it.values)}}};")
        rows = ", ".join(f"{{names_{number}, {len(it.values)}}}" for number, it in enumerate(self.types))
        return "\n".join([*lines, f"static const Names NAMES[] = {{{rows}}};\n"])

    def port_table(self) -> str:
        """The inputs with their flows; the last one is none."""
        sizes: dict[tuple, str] = {}
        rows, first = [], 0
        for it in self.expansion.inputs:
            sizes.setdefault((*it.sizes, 0), f"sizes_{len(sizes)}")
            rows.append(f"    {{{quoted(it.name)}, {first}, {len(listed(it.names))}, {sizes[*it.sizes, 0]}}},\n")
            first += len(listed(it.names))
        sizes.setdefault((0,), f"sizes_{len(sizes)}")
        lines = "".join(f"static const int {name}[] = {{{', '.join(map(str, it))}}};\n" for it, name in sizes.items())
        return f"{lines}static const Port ports[] = {{\n{''.join(rows)}    {{NULL, 0, 0, {sizes[0,]}}}\n}};\n"

    def ends(self) -> str:
        """The table of the ends in the words of the user."""
        rows = ['    {"", ""}'] + [f"    {{{quoted(signal)}, {quoted(text)}}}" for signal, text in self.said()]
        return ENDS.format(p=self.unit.prefix, rows=",\n".join(rows))

    def said(self) -> Iterable[tuple[str, str]]:
        """Of each end the signal and what a run says."""
        for end in self.unit.user_ends():
            signal = self.shown(end.name)
            if end.what == "EXHAUSTED":
                yield signal, f"input {signal} exhausted"
            else:
                yield signal, f"{end.what.lower().replace('_', ' ')} at {end.place}"

    def writer(self, unit, it) -> str:
        """The function that takes an output, of an array one element."""
        before, after = around(self.ports[it.name], it.name)
        value = "" if it.kind == "event" else f", {unit.kind_of(it)} value"
        lines = [f"put_text(context, {quoted(before)});", self.put(it), *([f'put_text(context, "{after}\\n");'] if after is not None else [])]
        return f"void w_{unit.prefix}_{it.name}(Context *context{value})\n{{\n" + "".join(f"    {line}\n" for line in lines) + "}\n"

    def put(self, signal) -> str:
        """The call that writes a value."""
        kind = self.ports[signal.name].kind
        if kind in self.types:
            return f"put_named(context, &NAMES[{self.types.index(kind)}], value);"
        if signal.kind == "integer":
            return "put_digits(context, value);"
        return 'put_text(context, "true");' if signal.kind == "event" else 'put_text(context, value ? "true" : "false");'

    def writing(self) -> list[str]:
        """The functions that write outputs which are not written as in the kernel."""
        outputs = [it for it in self.unit.outputs() if not self.is_plain(it)]
        is_named = any(self.ports[it.name].kind in self.types for it in outputs)
        parts = [("outputs.c", outputs), ("integers.c", is_named or any(it.kind == "integer" for it in outputs)), ("named.c", is_named)]
        return [text_of(name).lstrip("\n") for name, is_used in parts if is_used]


def around(port: Port, name: str) -> tuple[str, str | None]:
    """What stands before the value of an element, and after it if it is the last one: `L [` and `]`."""

    def laid_out(names) -> str:
        return "[" + ",".join(map(laid_out, names)) + "]" if isinstance(names, list) else "\0"

    pieces, names = f"{port.name} {laid_out(port.names)}".split("\0"), listed(port.names)
    number = names.index(name)
    return pieces[number], pieces[-1] if number == len(names) - 1 else None
