"""A program written anew with its calls expanded, so that a run of it says what every signal is at each instant.

Every signal is an output, the first of them one that is present at every instant; so what a run writes falls into
instants. An input stays an input: it is present where a signal of the same clock is. Of signals that equations A := B
make the same, one is an output.
"""
import re

from sigc.clocks import pace_flag
from sigc.read import expansion, signal_kinds, syntax

END_AT = re.compile(r"(end: .* at )(\d+):(\d+)( after .*)")


def alike_in(flat):
    """The signals that equations A := B make the same as one that is declared before them, each with that one."""
    places, kinds, found = {it.name: at for at, it in enumerate(flat.signals)}, {it.name: it.kind for it in flat.signals}, {}
    for it in flat.equations:
        if len(it.words) == 3 and it.words[1].text == ":=" and it.words[2].is_signal:
            one, other = sorted((first_of(found, it.words[at].text) for at in (0, 2)), key=places.get)
            if one != other and kinds[one] == kinds[other]:
                found[other] = one
    return {name: first_of(found, name) for name in found}


def first_of(found, name):
    while name in found:
        name = found[name]
    return name


class Observed:
    """A program that says all: its text, and how what it writes is read.

    names maps each name that it writes to the signals that it speaks for: itself and its equals, or those of one clock
    that have the values of inputs; sources maps these to the inputs.
    marker is the name that begins an instant, and places maps a place of the text to one of the program.
    """

    def __init__(self, flat, classes, hidden=None, pace=""):
        self.flat, self.inputs, self.hidden, self.pace = flat, flat.inputs(), hidden, pace
        self.taken = {it.name for it in flat.signals}
        self.spelled = {it.name: self.fresh(it.name) if it.copy else it.name for it in flat.signals}
        alike, inputs = alike_in(flat), {it.name for it in self.inputs}
        self.names, self.sources = {}, {name: alike.get(name, name) for name in self.spelled if alike.get(name, name) in inputs}
        for it in (it for it in self.spelled if it not in self.sources):
            self.names.setdefault(self.spelled[alike.get(it, it)], []).append(it)
        self.added, self.marker = [], None
        for clock in classes:
            self.see(clock)
        self.mark(classes)
        if hidden:
            self.names[hidden.name] = []
        self.places, self.words_at = {}, {}
        self.text = self.written()

    def fresh(self, name):
        """A name that the language takes and that nothing else has."""
        name = re.sub(r"[#.]", "_", name)
        while name in self.taken:
            name += "_"
        self.taken.add(name)
        return name

    def see(self, clock):
        """Lets one name speak for the inputs of a clock: a signal of it, or else a copy of the first of them."""
        inputs = [it for it in self.inputs if it.name in clock]
        if not inputs:
            return
        speaker = next((self.spelled[it] for it in clock if self.spelled[it] in self.names), None) or self.written_equal(clock)
        if speaker is None:
            speaker = self.fresh(f"{inputs[0].name}_seen")
            self.added.append((speaker, inputs[0].kind, inputs[0].name))
        self.names[speaker] = self.names.get(speaker, []) + [it for it in clock if it in self.sources]

    def written_equal(self, clock):
        """Lets a signal that has the values of an input, and is none, be written after all."""
        name = next((it for it in clock if it in self.sources and self.sources[it] != it), None)
        if name is not None:
            del self.sources[name]
            self.names[self.spelled[name]] = [name]
            return self.spelled[name]
        return None

    def mark(self, classes):
        """Finds the name that begins an instant: one of the first class, or else the sum of the greatest clocks."""
        root = set(classes[0])
        self.marker = next((name for name, signals in self.names.items() if root & set(signals)), None)
        if self.marker:
            return
        self.marker = self.fresh("instant")
        tops = [self.spelled[it[0]] for it in classes.tops()]
        self.added.append((self.marker, "event", " ^+ ".join(tops) if len(tops) > 1 else f"^{tops[0]}"))
        self.names[self.marker] = []

    def declared(self):
        """The outputs, each with its kind and its init, the marker first; and the locals."""
        kinds = {name: (kind, "") for name, kind, _ in self.added}
        kinds |= {self.hidden.name: (self.hidden.kind, "")} if self.hidden else {}
        for it in self.flat.signals:
            init = f" init {''.join(word.text for word in it.init)}" if it.init else ""
            kinds.setdefault(self.spelled[it.name], (it.kind, init))
        order = [self.marker, *(it for it in self.names if it != self.marker)]
        inner = [it for it in kinds if it not in self.names and it not in {other.name for other in self.inputs}]
        return [[f"{kinds[it][0]} {it}{kinds[it][1]}" for it in names] for names in (order, inner)]

    def written(self):
        """The text. Each equation has a line; where a word stands is kept in places."""
        inputs = "; ".join(f"{it.kind} {it.name}" for it in self.inputs)
        declared, inner = self.declared()
        outputs = ";\n   ".join(declared)
        lines = f"process {self.flat.name} =\n  (? {inputs}\n ! {outputs})".split("\n")
        mark = "(|"
        for number, equation in enumerate(self.flat.equations):
            words = [*enumerate(equation.words)]
            if self.hidden and number == self.hidden.equation:
                first, last = self.hidden.first, self.hidden.last
                lines.append(self.line(f"{mark} {self.hidden.name} :=", number, words[first : last + 1], len(lines) + 1))
                lines.append(f" | {self.hidden.name} ^= when {self.pace}")
                words[first : last + 1] = [(first, expansion.Word(self.hidden.name, *equation.words[first][1:3]))]
                mark = " |"
            lines.append(self.line(mark, number, words, len(lines) + 1))
            mark = " |"
        for name, _, right in self.added:
            lines.append(f"{mark} {name} := {right}")
            mark = " |"
        return "\n".join([*lines, " |)", *(["where", *(f"   {it};" for it in inner), "end"] if inner else [])]) + ";\n"

    def line(self, line, number, words, row):
        """A line of the text with words of an equation behind what it begins with, the places of which are kept."""
        for at, word in words:
            line += " "
            self.places[row, len(line) + 1] = (word.line, word.col, self.flat.equations[number].copy)
            self.words_at[row, len(line) + 1] = (number, at)
            line += self.spelled[word.text] if word.is_signal else word.text
        return line

    def expressions(self):
        """The expressions inside the equations, each as one that could get a name."""
        (process,) = syntax.read(self.text).processes
        kinds, begins = signal_kinds.kinds_of(process), [0] + [it.end() for it in re.finditer("\n", self.text)]
        words = {begins[row - 1] + col - 1: it for (row, col), it in self.words_at.items()}
        name = self.fresh("named")
        for equation in process.equations:
            for node in (it for whole in equation.expressions() for it in syntax.walk(whole)):
                kind, inside = signal_kinds.kind_of(node, kinds), [it for at, it in words.items() if node.start <= at < node.end]
                if node.parts and node is not equation.right and kind and inside:
                    yield pace_flag.Hidden(inside[0][0], inside[0][1], inside[-1][1], name, kind)

    def end_of(self, line):
        """A line `end:` with the place of the program, and the copy whose operator it names."""
        found = END_AT.fullmatch(line)
        if not found:
            return line, ""
        row, col, copy = self.places[int(found[2]), int(found[3])]
        return f"{found[1]}{row}:{col}{found[4]}", copy
