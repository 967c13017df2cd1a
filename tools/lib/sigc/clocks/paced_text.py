"""A program whose paces are written out in its own text, so that `sigc build` takes it, and the places that it has there."""
from sigc.call import running
from sigc.clocks.laid_out import Laid
from sigc.read import syntax


class Paced:
    """A program's text with an input for each greatest clock, as --pace adds them; the text itself where it has a root."""

    def __init__(self, files, path):
        laid = Laid(files, path, True)
        self.text, self.inserted = laid.program.text, []
        if laid.paces:
            own = [self.named(laid, it) for it in laid.paced]
            self.insert(laid.paces, own)

    def named(self, laid, signal):
        """A signal of the first process that comes with the one that is paced."""
        clock = laid.clock(signal) if signal else []
        found = next((it for it in clock if "#" not in it), None)
        if found is None:
            raise running.Refused("a clock that gets a pace has no signal of the first process: give its expression a name there")
        return found

    def insert(self, paces, signals):
        """Writes the inputs behind the others, and their equations behind the others."""
        reader = syntax.read(self.text)
        process = reader.processes[0]
        at = next(n for n, it in enumerate(reader.pieces) if it.start > process.query.start and it.text == "!")
        mark = "; " if reader.pieces[at - 1].text not in (";", "?") else ""
        equations = [f"{' ^= '.join(paces)}"] if len(paces) > 1 else []
        equations += [f"{signal} ^= when {pace}" for pace, signal in zip(paces, signals)]
        self.put(process.body[-1].end, f" | {' | '.join(equations)} |)")
        self.put(process.body[0].start, "(| ")
        self.put(reader.pieces[at].start, f"{mark}boolean {', '.join(paces)} ")

    def put(self, at, text):
        """Inserts a text before those that stand behind."""
        line, column = self.text.count("\n", 0, at) + 1, at - self.text.rfind("\n", 0, at)
        self.text = self.text[:at] + text + self.text[at:]
        self.inserted.insert(0, (line, column, len(text)))

    def place(self, line, column):
        """The place in the program of one in this text; inside what was inserted that of the token behind."""
        for row, begin, length in self.inserted:
            if row == line and column >= begin:
                column = max(begin, column - length)
        return line, column
