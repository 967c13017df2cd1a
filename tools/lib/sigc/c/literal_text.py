"""The literal text of a step in C: for each operation of an image what it does, in the order of the image, and nothing else.

It is made of an image and of its names (`names_file`) alone, so that whoever has both can say what the text is. Memories are
read into variables first and written back last: a step that cannot be done leaves the state as it was.
"""
from sigc.c import literal_helpers
from sigc.c.literal_guards import MOST_BYTES, Guards, TooLong
from sigc.c.names_file import Given
from sigc.image import images

LEAST, MOST = -(1 << 63), (1 << 63) - 1
MOST_DIGITS = (1 << 31) - 1
MARKS = {"Lt": "<", "Le": "<=", "Gt": ">", "Ge": ">=", "Eq": "==", "Ne": "!=", "Xor": "!=", "And": "&&", "Or": "||"}
# What a comparison of a signal with itself gives; compilers warn of it where it is written.
OF_ITSELF = {"Eq": 1, "Le": 1, "Ge": 1, "Ne": 0, "Lt": 0, "Gt": 0, "Xor": 0}
CHECKED = {"Add": "add", "Sub": "subtract", "Mul": "multiply"}
STEP = """/* {head} */
#include "{include}"
{helpers}
const {prefix}_end {prefix}_ends[{count}] = {{
{ends}
}};

void {prefix}_init({prefix}_state *state)
{{
{init}}}

int {prefix}_step({prefix}_state *state, {prefix}_context *context)
{{
{variables}
{body}
{ending}    return 0;
}}
"""


def number(value: int) -> str:
    """A number of 64 bits: the least one has no digits of its own in C, and large ones have a type."""
    if value in (LEAST, MOST):
        return "INT64_MIN" if value < 0 else "INT64_MAX"
    if abs(value) <= MOST_DIGITS:
        return str(value)
    return f"{'-' if value < 0 else ''}INT64_C({abs(value)})"


def quoted(name: str) -> str:
    """A name as a string of C."""
    return '"' + "".join(f"\\{it}" if it in '"\\?' else it for it in name) + '"'


class Literal:
    """The text of the step of an image, with given names."""

    def __init__(self, image: images.Image, given: Given):
        self.image, self.given = image, given
        self.operations = [it for it in image.operations if it.guard != 0]
        self.comes = dict(zip(range(image.inputs, image.inputs + image.outputs), given.comes))
        self.guards, self.ends, self.helpers = Guards(image, given.signal), [], set()

    def text(self) -> str:
        """The text of the file; TooLong where it has more bytes than a file may have."""
        body = "".join(self.within(self.blocks()))
        found = STEP.format(
            head="\n   ".join(self.given.head), include=self.given.include, prefix=self.given.prefix, count=len(self.ends) + 1,
            helpers=literal_helpers.texts(self.helpers), ends=self.rows(), init=self.init(), variables=self.variables(), body=body, ending=self.ending(),
        )
        return "".join(self.within([found]))

    def within(self, pieces):
        """Pieces of a text, as long as they have no more bytes than a file may have."""
        length = 0
        for it in pieces:
            length += len(it)
            if length > MOST_BYTES:
                raise TooLong
            yield it

    # Around the operations.

    def rows(self):
        rows = [f'    {{{self.given.prefix}_DONE, 0, 0, ""}}']
        rows += [f"    {{{self.given.prefix}_{what}, {line}, {column}, {quoted(name)}}}" for what, line, column, name in self.ends]
        return ",\n".join(rows)

    def init(self):
        lines = [f"    state->{field} = {number(it.init)};\n" for field, it in zip(self.given.field, self.image.memories)]
        return "".join(lines) or "    (void)state;\n"

    def variables(self):
        """What the step declares, and the names that nothing reads."""
        lines = [f"    {type_of(it.kind)} {name} = 0;\n" for name, it in zip(self.given.signal, self.image.signals)]
        lines += [f"    int {name} = 0;\n" for name in self.given.comes]
        lines += [f"    {type_of(it.kind)} {name} = state->{field};\n" for name, field, it in zip(self.given.next, self.given.field, self.image.memories)]
        return "".join([*lines, *(f"    (void){name};\n" for name in self.given.unread)])

    def ending(self):
        """What is kept, and the outputs that come."""
        lines = [f"    state->{field} = {name};\n" for field, name in zip(self.given.field, self.given.next)]
        for give, (signal, comes) in zip(self.given.output, self.comes.items()):
            value = "" if self.image.signals[signal].kind == "event" else f", {self.given.signal[signal]}"
            lines.append(f"    if ({comes}) {{ {give}(context{value}); }}\n")
        return "".join(lines)

    # Operations.

    def blocks(self):
        """The operations: a block for each longest run of neighbours with one guard, and none where it is always true."""
        last = 1
        for it, comment in zip(self.operations, self.given.comment):
            if it.guard != last and last != 1:
                yield "    }\n"
            if it.guard not in (1, last):
                yield f"    if ({self.guards.text(it.guard)}) {{\n"
            last, indent = it.guard, "    " if it.guard == 1 else "        "
            yield f"{indent}/* {comment} */\n"
            yield from (f"{indent}{line}\n" for line in self.does(it))
        if last != 1:
            yield "    }\n"

    def end(self, what, it):
        """The number of an end of the step at an operation."""
        self.ends.append((what, it.line, it.column, self.image.signals[it.fields[0]].name))
        return len(self.ends)

    def operand(self, it):
        return number(it.value) if it.signal is None else self.given.signal[it.signal]

    def does(self, it):
        """The lines of an operation."""
        if it.kind == "Store":
            memory, signal = it.fields
            return [f"{self.given.next[memory]} = {self.given.signal[signal]};"]
        target = it.fields[0]
        lines = self.reads(it, target) if it.kind == "Read" else self.gives(it, self.given.signal[target])
        return [*lines, f"{self.comes[target]} = 1;"] if target in self.comes else lines

    def reads(self, it, target):
        """The next value of an input."""
        name, ask = self.given.signal[target], self.given.input[target]
        if self.image.signals[target].kind == "event":
            return [f"if (!{ask}(context)) {{ return {self.end('EXHAUSTED', it)}; }}", f"{name} = 1;"]
        return [f"if (!{ask}(context, &{name})) {{ return {self.end('EXHAUSTED', it)}; }}"]

    def gives(self, it, name):
        """A value for a variable."""
        if it.kind == "Fun":
            return self.function(it, name, it.fields[1], it.fields[2])
        source = it.fields[1]
        value = {"Copy": lambda: self.given.signal[source], "Const": lambda: number(source), "DelayRead": lambda: self.given.next[source]}[it.kind]()
        return [f"{name} = {value};"]

    def function(self, it, name, function, operands):
        """What a function gives, or the end where it has no value."""
        values = [self.operand(one) for one in operands]
        if function in ("Id", "Not"):
            return [f"{name} = {'!' if function == 'Not' else ''}{values[0]};"]
        if function in OF_ITSELF and operands[0] == operands[1]:
            return [f"{name} = {OF_ITSELF[function]};"]
        if function in MARKS:
            return [f"{name} = {values[0]} {MARKS[function]} {values[1]};"]
        if function in CHECKED:
            return [self.checked(CHECKED[function], values, name, self.end("OVERFLOW", it))]
        if function == "Neg":
            return [self.checked("subtract", ["0", *values], name, self.end("OVERFLOW", it))]
        return self.divided(it, name, function, values)

    def divided(self, it, name, function, values):
        """A quotient or a remainder. A remainder by a divisor that is not 0 always has a value, and no end of its own."""
        zero = self.end("DIVISION_BY_ZERO", it)
        test = f"if ({values[1]} == 0) {{ return {zero}; }}"
        if function == "Div":
            return [test, self.checked("divide", values, name, self.end("OVERFLOW", it))]
        return [test, self.checked("modulo", values, name, zero)]

    def checked(self, helper, values, name, end):
        self.helpers.add(helper)
        return f"if ({helper}({', '.join(values)}, &{name})) {{ return {end}; }}"


def type_of(kind):
    return "int64_t" if kind == "integer" else "int"


def literal_text(image: images.Image, given: Given) -> str:
    """The file of a step in C."""
    return Literal(image, given).text()
