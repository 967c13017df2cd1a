"""The files of a program in C whose step is the literal one."""
from sigc.c import c_files
from sigc.c.literal_names import Chosen
from sigc.c.literal_text import Literal, type_of


class LiteralStep:
    """What the files around a step ask of it: its names, its ends, and the types of its signals."""

    ranges = None

    def __init__(self, image, source, prefix):
        self.image, self.prefix, self.chosen, self.ends = image, prefix, Chosen(image, source, prefix), []

    def kind(self, signal):
        return type_of(self.image.signals[signal].kind)

    def has_ranges(self):
        return False

    def placed(self):
        """The image with the places that its operations have in the program of the user."""
        moved = [dict(zip(("line", "column"), self.chosen.source.place(it))) for it in self.image.operations]
        return self.image._replace(operations=[it._replace(**place) for it, place in zip(self.image.operations, moved)])

    def text(self, head):
        """The file of the step, below the lines of a first comment."""
        literal = Literal(self.placed(), self.chosen.given(head))
        found, self.ends = literal.text(), literal.ends
        return found


class LiteralUnit(c_files.Unit):
    """A program's literal step as files."""

    def __init__(self, image, source, prefix, path, title, home=None):
        step = LiteralStep(image, source, prefix)
        super().__init__(step, path, title, c_files.LITERAL, home)
        head = [f"{title}, in C. Written by sigc-c from {self.words['path']}.", self.words["made"]]
        self.source_text = step.text([*head, "Each operation has the line and the column of the program that it comes from."])
        self.words["count"] = len(step.ends) + 1

    def state(self):
        """The fields, each with the place and the words of a delay that reads it."""
        lines, chosen = [], self.step.chosen
        for memory, name in enumerate(chosen.fields):
            note = f" /* {chosen.comment(chosen.delays[memory])} */" if memory in chosen.delays else ""
            lines.append(f"    {type_of(self.image.memories[memory].kind)} {name};{note}")
        return "\n".join(lines) or c_files.NO_STATE

    def unit(self):
        """The text of NAME.c."""
        return self.source_text

    def has_user_ends(self):
        """The table of a literal step is the kernel's: main.c has the places of the user's text."""
        return False

    def kernel_ends(self):
        return self.step.ends
