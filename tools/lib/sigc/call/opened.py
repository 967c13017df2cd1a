"""A program as the scripts take it: a kernel as it is, any other one expanded, with what leads from the kernel home to its text.

All scripts open programs here. What is wrong with a program that has no kernel is said at its own place. The package that
expands is loaded for a program that may need it alone: reading it takes longer than all else that a script reads.
"""
import re

from sigc.call.refusing import Refused
from sigc.read import files_read, plain_kernels, shown_places

END_AT = re.compile(r"end: (overflow|division by zero) at (\d+):(\d+) (after .*)")
ERROR_AT = re.compile(r"error (\d+):(\d+): (.*)")
WORD = re.compile(r"[A-Za-z][A-Za-z0-9_]*|#\d+:\d+")


def bracketed(name, text):
    """A name inside a text: in brackets where it is an expression beside other words."""
    return f"({name})" if " " in name and " " in text else name


def home_words(expansion, text):
    """A text that names signals of an expansion's kernel, with the user's names."""
    return WORD.sub(lambda it: bracketed(expansion.name(it[0]), text), text)


def add_include(words):
    """The word of a script for folders with modules."""
    words.add_argument("-I", dest="include", metavar="DIR", action="append", default=[], help="a folder with modules that the program uses")


def expansion_of(path, source, include):
    """What a program expands to, None where it is a kernel; Refused where it is neither."""
    from sigc import expand
    from sigc.expand import calling

    try:
        found = expand.expanded(path, include, source)
        refused = found.too_large()
    except expand.Refused as it:
        refused = it
    if refused:
        raise Refused(calling.refused(refused).rstrip("\n"))
    return None if found.is_kernel else found


def source_of(path):
    """The text of a file of the user's; nothing where it cannot be read."""
    try:
        return files_read.read_text(path, files_read.PROGRAM_BYTES)
    except OSError:
        return ""


class Opened:
    """A program: path is the user's, source its text, text the kernel's; of a kernel both are one text, and names and
    places stay as they are."""

    def __init__(self, path, source, include=()):
        self.path, self.source = path, source
        self.expansion = None if plain_kernels.is_plainly_kernel(source) else expansion_of(path, source, include)
        self.is_kernel, self.text = self.expansion is None, self.expansion.kernel if self.expansion else source

    # Names and values.

    def name(self, name):
        """What the user calls a signal of the kernel."""
        return name if self.is_kernel else self.expansion.name(name)

    def is_known(self, name):
        """Whether a signal of the kernel is one of the user's, and not one that the expansion made, as the value before the first element."""
        return self.is_kernel or not re.search(r"[ ]|^#|\[-1\]", self.name(name))

    def kernel_name(self, name):
        return name if self.is_kernel else self.expansion.kernel_name(name)

    def words(self, text):
        """A text that names signals of the kernel, with the user's names."""
        return text if self.is_kernel else home_words(self.expansion, text)

    def kernel_words(self, text):
        """An expression over the user's signals, as `L[0] = #red`, as one over those of the kernel."""
        if self.is_kernel:
            return text
        from sigc.call.user_expressions import UserExpressions

        return UserExpressions(self.expansion).kernel(text)

    def states(self):
        """The names of the values of enumerations, by the kernel's signals."""
        if self.is_kernel:
            return {}
        signals = self.expansion.unit.signals.items()
        return {name: [f"#{value}" for value in it.kind.values] for name, it in signals if hasattr(it.kind, "values")}

    def kind(self, name, kind):
        """The kind of a signal of the kernel as the user has declared it."""
        return kind if self.is_kernel else str(self.expansion.unit.signals[name].kind) if name in self.expansion.unit.signals else kind

    # Places.

    def place(self, line, col):
        """A place in the user's text: LINE:COLUMN of a kernel, else FILE:LINE:COLUMN with the indices and the calls around it."""
        return f"{line}:{col}" if self.is_kernel else self.expansion.place(line, col)

    def pointed(self, line, col):
        """The user's line at a place of the kernel, with a caret."""
        if self.is_kernel:
            return shown_places.pointed(self.text, line, col)
        at = self.expansion.at(line, col).place
        return shown_places.pointed(source_of(at.file), at.line, at.col)

    def end(self, line):
        """The line that tells the end of a run, at the user's place."""
        found = END_AT.fullmatch(line)
        if self.is_kernel or not found:
            return line if self.is_kernel else self.expansion.said(line)
        place = int(found[2]), int(found[3])
        what = "index out of range" if self.expansion.is_index(*place) else found[1]
        return f"end: {what} at {self.place(*place)} {found[4]}"

    def refusal(self, line):
        """A line by which sigc refuses the kernel, at the user's place."""
        found = ERROR_AT.fullmatch(line)
        if self.is_kernel or not found:
            return line if self.is_kernel else self.expansion.said(line)
        return f"{self.place(int(found[1]), int(found[2]))}: error: {self.expansion.said(found[3])}"

    # Flows and outputs.

    def flows(self, path, text):
        """The text of a file of flows as the kernel takes it."""
        if self.is_kernel:
            return text
        from sigc.expand.flows import FlowFault

        try:
            return self.expansion.flows_to_kernel(text)
        except FlowFault as fault:
            raise Refused(fault.shown(path), 4) from None

    def inputs(self):
        """The elements of the inputs that are arrays: the user's name of the array, and the kernel's names in order."""
        if self.is_kernel:
            return {}
        from sigc.expand.flows import listed

        return {it.name: listed(it.names) for it in self.expansion.inputs if it.sizes}

    def ranges(self, asked):
        """Words like A=0..9 with the names of the kernel, for an array one for each element."""
        arrays, found = self.inputs(), []
        for word in asked:
            name, mark, bounds = word.partition("=")
            found += [f"{it}{mark}{bounds}" for it in arrays.get(name, [self.kernel_name(name)])]
        return found

    def claims(self):
        """The booleans that the program asserts, and those that it assumes, by the kernel's names."""
        return ([], []) if self.is_kernel else (self.expansion.asserts, self.expansion.assumes)

    def outputs(self):
        """A reader of the lines of a run, of which each gives the user's line or None."""
        return self.expansion.output_lines().line if not self.is_kernel else lambda line: line
