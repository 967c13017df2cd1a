"""The two files of a program in C: NAME.h, which tells what there is, and NAME.c, which has the step."""
from typing import NamedTuple

from sigc.c import c_names, expressions, step_text
from sigc.c.comments import commented
from sigc.c.marked_files import filled, functions

WHAT = ("DONE", "EXHAUSTED", "OVERFLOW", "DIVISION_BY_ZERO", "OUT_OF_RANGE")
INDEX = "INDEX_OUT_OF_RANGE"
PLACE = "\n    const char *place; /* FILE:LINE:COLUMN, with the indices and the calls around it */"
NO_STATE = "    uint8_t nothing; /* no signal is asked for its value before */"
NOTE = """   Types are as narrow as the values{ranges}.
   Operations that always have a value within 64 bits, {count} of those that may fail otherwise, are not tested for it.
"""

# Which writer made a step, and what is proved of it: a line of the first comment of each file.
SHORT = "The step in {stem}.c is the short one: a script wrote it, and nothing about it is proved."
LITERAL = "The step in {stem}.c is the literal one: a script wrote it, and nothing about it is proved."


def quoted(text):
    """A text of printable ASCII as a string of C; no two question marks begin a trigraph."""
    return '"' + text.replace("\\", "\\\\").replace('"', '\\"').replace("??", '?""?') + '"'


class UserEnd(NamedTuple):
    """What a step may end with: what it is, the user's place as line, column and in words, and the kernel's name of the signal."""

    what: str
    line: int
    column: int
    place: str
    name: str


class Unit:
    """A program's step as files, whose names begin with `prefix`; home leads from the kernel of one that is none to its text."""

    def __init__(self, step, path, title, made=SHORT, home=None):
        self.home = None if home is None or home.is_kernel else home
        self.step, self.prefix, self.image = step, step.prefix, step.image
        self.stem = c_names.stem(self.prefix)
        self.words = {"p": self.prefix, "path": commented(path), "title": title, "stem": self.stem, "count": len(step.ends) + 1}
        self.words["made"] = made.format(stem=self.stem)
        self.words["note"] = self.note()

    def note(self):
        """What the ranges of inputs are, where they were given."""
        if not self.step.ranges:
            return ""
        given = [f"{self.image.signals[signal].name}={low}..{high}" for signal, (low, high) in self.step.ranges.given.items()]
        ranges = f" where inputs stay within {', '.join(given)};\n   {self.prefix}_step answers {self.prefix}_OUT_OF_RANGE where one does not" if given else ""
        return NOTE.format(ranges=ranges, count=len(self.step.steps.safe))

    def functions(self):
        """The names of the functions and tables that a linker sees."""
        asked = [f"r_{self.prefix}_{it.name}" for it in self.inputs()] + [f"w_{self.prefix}_{it.name}" for it in self.outputs()]
        return [f"{self.prefix}_init", f"{self.prefix}_step", f"{self.prefix}_ends", *asked]

    def inputs(self):
        return self.image.signals[: self.image.inputs]

    def outputs(self):
        return self.image.signals[self.image.inputs : self.image.inputs + self.image.outputs]

    def kind_of(self, signal):
        return self.step.kind(self.image.signals.index(signal))

    def bounds_of(self, signal):
        """The range that was given for an input, as texts of C."""
        given = self.step.ranges.given.get(self.image.signals.index(signal)) if self.step.ranges else None
        return [expressions.constant(it).text for it in given] if given else None

    def header(self):
        """The text of NAME.h."""
        what = ", ".join(f"{self.prefix}_{it}" for it in self.whats())
        given = {"guard": f"{self.prefix}_H", "state": self.state(), "what": what, "inputs": self.asked(), "outputs": self.given()}
        given |= {"types": self.types(), "place": PLACE if self.has_user_ends() else ""}
        return filled("unit/unit.h", **self.words, **given)

    def whats(self):
        return [*(WHAT[:5] if self.step.has_ranges() else WHAT[:4]), *([INDEX] if self.has_user_ends() else [])]

    def has_user_ends(self):
        """Whether the ends have places and names of a text that is no kernel."""
        return self.home is not None

    def kernel_ends(self):
        """The ends of the step: what each is, its place and its signal in the kernel."""
        return [(WHAT[it.what], it.line, it.column, it.name) for it in self.step.ends]

    def user_ends(self):
        """The ends as the user reads them."""
        for what, line, column, name in self.kernel_ends():
            at, is_index = self.home.expansion.at(line, column), what == WHAT[3] and self.home.expansion.is_index(line, column)
            yield UserEnd(INDEX if is_index else what, at.place.line, at.place.col, str(at), name)

    def types(self):
        """The enumerations of inputs and outputs, each value by its name."""
        kinds = [it.kind for it in self.home.expansion.inputs + self.home.expansion.outputs] if self.home else []
        lines = []
        for it in dict.fromkeys(it for it in kinds if hasattr(it, "values")):
            values = ", ".join(f"{self.prefix}_{it.name}_{value}" for value in it.values)
            lines.append(f"\n/* The values of {it.name}. */\nenum {{ {values} }};\n")
        return "".join(lines)

    def state(self):
        """The fields, each with the place and the words of its delay."""
        lines = []
        for memory, name in self.step.fields.items():
            it = self.step.steps.delays[memory][0]
            lines.append(f"    {self.step.memory_kind(memory)} {name}; /* {commented(self.step.source.comment(it))} */")
        return "\n".join(lines) or NO_STATE

    def asked(self):
        """The functions that an instance asks for its inputs."""
        if not self.image.inputs:
            return ""
        lines = ["", "/* Yours: each gives the next value of an input, and 1; or 0 where there is none. A truth is 0 or 1. An input is asked", "   for where its clock says so, at most once an instant, in the order of the step. */"]
        for signal, it in enumerate(self.inputs()):
            value = "" if it.kind == "event" else f", {self.step.kind(signal)} *value"
            lines.append(f"int r_{self.prefix}_{it.name}({self.prefix}_context *context{value});")
        return "\n".join(lines) + "\n"

    def given(self):
        if not self.image.outputs:
            return ""
        lines = ["", "/* Yours: each takes the value of an output, where it comes, once the instant is done, in the order of declaration. */"]
        for signal, it in enumerate(self.outputs(), self.image.inputs):
            value = "" if it.kind == "event" else f", {self.step.kind(signal)} value"
            lines.append(f"void w_{self.prefix}_{it.name}({self.prefix}_context *context{value});")
        return "\n".join(lines) + "\n"

    def unit(self):
        """The text of NAME.c."""
        given = {"helpers": self.helpers(), "ends": self.ends(), "init": self.init(), "body": self.body()}
        return filled("unit/unit.c", **self.words, **given)

    def helpers(self):
        """The functions that tell whether a result is within 64 bits."""
        return functions("unit/arithmetic.c", self.step.helpers)

    def ends(self):
        rows = [f'    {{{self.prefix}_DONE, 0, 0, ""}}']
        if self.has_user_ends():
            rows = [f'    {{{self.prefix}_DONE, 0, 0, "", ""}}']
            rows += [f"    {{{self.prefix}_{it.what}, {it.line}, {it.column}, {quoted(self.home.name(it.name))}, {quoted(it.place)}}}" for it in self.user_ends()]
        else:
            rows += [f"    {{{self.prefix}_{what}, {line}, {column}, {quoted(name)}}}" for what, line, column, name in self.kernel_ends()]
        return ",\n".join(rows)

    def init(self):
        lines = [f"    state->{name} = {step_text.first_value(self.image.memories[memory])};" for memory, name in self.step.fields.items()]
        return "\n".join(lines) or "    state->nothing = 0;"

    def body(self):
        """The step: what it declares, what it does not use, and its statements."""
        lines = list(self.declarations())
        marks = {"state": "state->", "context": "(context"}
        lines += [f"    (void){name};" for name, mark in marks.items() if not any(mark in line for line in self.code_lines())]
        lines += [f"    (void){name};" for name in self.step.unread() if name not in self.step.constants]
        return "\n".join([*lines, *([""] if lines else []), *self.step.body()])

    def code_lines(self):
        return [line for line in self.step.lines if not line.lstrip().startswith("/*")]

    def declarations(self):
        """The variables that are not constants of the step, by their kinds."""
        by_kind = {}
        for name, (kind, has_zero) in self.step.declared.items():
            by_kind.setdefault(kind, []).append(f"{name} = 0" if has_zero else name)
        for kind, names in by_kind.items():
            line = f"    {kind} {names[0]}"
            for it in names[1:]:
                if len(line) + len(it) > step_text.WIDTH:
                    yield f"{line};"
                    line = f"    {kind} {it}"
                else:
                    line += f", {it}"
            yield f"{line};"
