"""What runs of a program over flow files reach, with the goals that are left."""
from sigc.call import running
from sigc.clocks import laid_out
from sigc.image import coverage, sources
from sigc.prove.questions import Built
from sigc.read import lexer
from sigc.trace import flow_values

MOST_INSTANTS = 1_000_000


class Covered:
    """A program, its goals, and the runs that were followed."""

    def __init__(self, files, path, is_paced=False):
        self.files, self.path, self.words = files, path, ["--pace"] if is_paced else []
        program = running.Program(files, path)
        self.home, self.kernel = program.home, path if program.home.is_kernel else program.path
        built = Built(files, self.kernel, is_paced, self.home, is_merged=False)
        laid = laid_out.Laid(files, self.kernel, is_paced)
        self.image, self.place = built.image, built.place
        source = sources.Source(built.text, built.image, built.place)
        declared = {it.name: (it.line, it.col) for it in laid.flat.signals}
        self.coverage = coverage.Coverage(built.image, coverage.goals_of(built.image, source, laid.classes.signals, declared))

    def follow(self, flows, limit=None):
        """Follows a run over a flow file; Refused where sigc refuses it or ends it elsewhere."""
        text = self.home.flows(flows, running.text_of(flows))
        limit = limit or MOST_INSTANTS
        with running.Call("run", self.kernel, self.files.copied(flows, text), *self.words, "--workers", "0", "--instants", str(limit)) as call:
            for _ in call.lines():
                pass
            line, status = call.ended()
        if status not in (0, 3):
            raise running.Refused(self.files.renamed(line), status)
        try:
            values = flow_values.read_flows(text, [it.name for it in self.image.signals[: self.image.inputs]])
        except lexer.Unreadable as error:
            raise running.Refused(f"{flows}: {error}", 4) from None
        end = self.coverage.follow(values, limit)
        if not self.words and end != line:
            raise running.Refused(f"{self.path}: the run of {flows} ends otherwise over the image ({end}) than by sigc ({line})")

    def share(self):
        """How many goals were reached, and how many there are."""
        goals = len(self.coverage.goals)
        return goals - len(self.coverage.left()), goals

    def lines(self):
        """What is told: the sum, and each goal that is left."""
        reached, goals = self.share()
        runs, instants = self.coverage.runs, self.coverage.instants
        yield f"{self.path}: {reached} of {goals} reached by {runs} {'run' if runs == 1 else 'runs'} of {instants} instants"
        yield from (f"{self.placed(it)}: {self.home.words(it.text)}" for it in self.coverage.left())

    def placed(self, goal):
        """The place of a goal in the user's text."""
        return f"{self.path}:{goal.line}:{goal.column}" if self.home.is_kernel else self.home.place(goal.line, goal.column)
