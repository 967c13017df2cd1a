"""What a line of the user does to a run that is made one instant at a time."""
import re
import shutil

from sigc.call import running
from sigc.hints.near_words import near
from sigc.prove import property_language
from sigc.step import sessions, shown_instants
from sigc.trace.flow_values import normal
from sigc.trace.traces import called, is_in

LEAST, LARGEST = -(2**63), 2**63 - 1
INTEGER = re.compile(r"-?[0-9]+")
GIVEN = re.compile(r"([A-Za-z]\w*(?:\[\d+\])*)\s*=\s*(\[[^=]*\](?=\s|\Z)|\S+)")
COUNT = re.compile(r"[0-9]{1,9}")
ROWS, FIRST = 10, 5
# Each command with its arguments and what it does. A shortened command is the first one that begins so.
COMMANDS = {
    "step": ("[N] [A=V ..]", "run one instant, or N; sigc-step asks for each due input that has no value"),
    "back": ("[N]", "take back one instant, or N; their input values are proposed again"),
    "until": ("E", "run to the first instant at which the expression E is true, as LATE or N >= 3"),
    "show": ("[X ..]", "show the last instant: every signal, or these; TIMER#2 stands for all signals of a call"),
    "watch": ("[X ..]", "after each instant show these signals only; without names show all again"),
    "table": ("[N]", f"show the last N instants, or {ROWS}, one on a line"),
    "inputs": ("", "list the inputs: when each is present, which is due now, and the queued values"),
    "set": ("A [V ..]", "queue these values for the input A instead of those in the queue; without values empty it"),
    "always": ("A [V]", "use V whenever A is due and its queue is empty, as events do with true; without V ask again"),
    "load": ("FILE", "queue the values of a flow file; after the last one sigc-step asks for events too"),
    "save": ("FILE", "write the input values so far to a flow file"),
    "help": ("[COMMAND]", "list the commands"),
    "quit": ("", "end, as the end of the input does"),
}


class Wrong(Exception):
    """A line that could not be done: why, and the status with which a script ends then."""

    def __init__(self, line, status=1):
        super().__init__(line)
        self.status = status


class Instead(Exception):
    """A line that was typed where a value was asked for, and is a command."""


class Quit(Exception):
    """The user has done."""


def commands_of(word):
    """The commands that begin with a word."""
    return [it for it in COMMANDS if it.startswith(word)]


def is_command(line):
    """Whether a line that may be a value is a command: one that may be shortened, but not to the beginning of a truth."""
    word = line.partition(" ")[0]
    return bool(GIVEN.match(line)) or bool(word) and bool(commands_of(word)) and not "true".startswith(word) and not "false".startswith(word)


def help_lines(name=""):
    """The commands, or one of them, each with its words."""
    return [f"  {f'{it} {words}'.rstrip():17} {does}" for it, (words, does) in COMMANDS.items() if name in ("", it)]


def words_of(text):
    """The words of a line; blanks inside brackets part none."""
    return re.findall(r"(?:\[[^\]]*\]|\S)+", text)


def waits_of(values):
    """How many values wait, and the first of them."""
    first = " ".join(list(values)[:FIRST])
    return [f"{len(values)} queued: {first}{' ..' if len(values) > FIRST else ''}"] if values else []


class Dialogue:
    """A session, and the lines that go to and fro. lines.read(prompt) gives the user's next line, None where there is
    none; lines.say(line) shows one, and lines.refuse(line, status) one that tells what could not be done; lines.failed(status) is
    called where the run has ended."""

    def __init__(self, session, lines):
        self.session, self.lines, self.say = session, lines, lines.say
        self.runs, self.kinds = session.runs, session.kinds
        self.home, self.states, self.watched, self.last_shown = self.runs.home, self.runs.states, [], 0
        self.inputs_named = {self.home.name(it): [it] for it in self.kinds} | self.home.inputs()
        self.clocks, self.arrays = self.runs.clocks(), shown_instants.arrays_of(self.runs.names.values())

    def line(self, line):
        """Does what a line says; Wrong where it says nothing that can be done."""
        if not line or "=" in line and GIVEN.match(line):
            return self.step(line)
        word, _, rest = line.partition(" ")
        names = commands_of(word)
        if not names:
            meant = near(word, list(COMMANDS))
            raise Wrong(f"there is no command {word}" + (f": did you mean `{meant}`?" if meant else "; `help` lists them"))
        return getattr(self, names[0])(rest.strip())

    # Instants.

    def step(self, rest):
        given = {name: [value] for array, word in GIVEN.findall(rest) for name, value in self.values(array, word)}
        count = GIVEN.sub("", rest).strip() or "1"
        if not COUNT.fullmatch(count) or given and count != "1":
            raise Wrong("`step`, `step 5` or `step A=3 B=true` is wanted")
        if given:
            self.done(lambda: self.session.step(given, self.asked))
            self.shown()
        else:
            self.done(lambda: [self.shown() for _ in self.session.going(int(count), self.asked)])

    def done(self, does):
        """Does instants, and tells why there are no more."""
        try:
            does()
        except sessions.Ended as it:
            self.ended(it.end)
        except sessions.NotDue as it:
            why = ", ".join(f"{self.home.name(name)} comes {self.clocks[name]}" for name in it.names)
            raise Wrong(f"not due at instant {self.session.count + 1}, which was not run: {why}") from None

    def ended(self, end):
        """Tells how the run ended, and where."""
        self.say(end.line)
        self.lines.failed(end.status)
        if end.place:
            for line in self.home.pointed(*end.place).splitlines():
                self.say(line)
        if end.copy:
            self.say(f"  in the copy {'/'.join(self.runs.flat.path(end.copy))}")
        self.say("  `back`, or other values, continue the run")

    def asked(self, name):
        """The value that the user gives to an input that is due."""
        if self.session.count != self.last_shown:
            self.shown()
        proposed = self.session.proposed(name)
        prompt = f"  {self.told(name)}{f' [{self.called(name, proposed)}]' if proposed else ''}: "
        while (line := self.lines.read(prompt)) is not None:
            if is_command(line):
                raise Instead(line)
            try:
                return self.value(name, line) if line or not proposed else proposed
            except Wrong as it:
                self.lines.refuse(f"{it}", it.status)
        raise Wrong(f"{self.home.name(name)} is due at instant {self.session.count + 1}, and there is no value for it")

    def told(self, name):
        """An input: its name, its kind, and when it comes."""
        return f"{self.home.name(name)}, {self.home.kind(name, self.kinds[name])}, {self.clocks[name]}"

    def called(self, name, value):
        """A value as the user has it."""
        return called(value, self.states.get(name))

    def values(self, name, word):
        """The values of an input, or of the elements of one that is an array, in brackets."""
        elements = self.input(name)
        words = re.split(r"[,\s]+", word.replace("[", " ").replace("]", " ").strip()) if word.startswith("[") else [word]
        if len(words) != len(elements):
            raise Wrong(f"{name} has {len(elements)} elements, and here are {len(words)} values")
        return [(it, self.value(it, value)) for it, value in zip(elements, words)]

    def value(self, name, word):
        """A value of an input as sigc writes it."""
        kind, shown, named = self.kinds[name], self.home.name(name), self.home.states().get(name)
        if named:
            if word not in named:
                raise Wrong(f"{shown} is one of {', '.join(named)}" + (f", and not {word}" if word else ""))
            return str(named.index(word))
        if kind == "integer" and INTEGER.fullmatch(word) and LEAST <= int(word) <= LARGEST:
            return normal(word)
        if word == "true" or kind == "boolean" and word == "false":
            return word
        wanted = {"integer": f"a number from {LEAST} to {LARGEST}", "boolean": "true or false", "event": "true alone"}[kind]
        raise Wrong(f"{shown} is {'an' if kind[0] in 'ie' else 'a'} {kind}: {wanted} is wanted" + (f", and not {word}" if word else ""))

    def input(self, name):
        """The inputs of the kernel that a name of the user's stands for: one, or the elements of an array."""
        if name not in self.inputs_named:
            raise Wrong(f"{name} is no input; the inputs are {', '.join(map(self.home.name, self.kinds)) or 'none'}")
        return self.inputs_named[name]

    def number(self, rest, usual):
        if rest and not COUNT.fullmatch(rest):
            raise Wrong(f"a number is wanted, and not {rest}")
        return int(rest or usual)

    def back(self, rest):
        count = self.number(rest, 1)
        if not self.session.count:
            raise Wrong("no instant so far")
        self.session.back(count)
        self.shown()

    def until(self, rest):
        watched = self.watched_property(rest)
        for instant in self.session.past() if watched.held else ():
            self.holds(watched, instant)
        begun, found = self.session.count, []
        self.done(lambda: found.append(next((it for it in self.session.going(sessions.MOST, self.asked) if self.holds(watched, it)), None)))
        self.shown()
        if found == [None] and self.session.count == begun + sessions.MOST:
            self.say(f"  {sessions.MOST} instants without it; `until` again continues")

    def watched_property(self, text):
        """The expression that `until` names."""
        if not text:
            raise Wrong("an expression is wanted, as `until N >= 3`")
        try:
            made = property_language.property_of(self.home.kernel_words(text), {it.name: it.kind for it in self.runs.flat.signals})
        except property_language.Wrong as it:
            raise Wrong(str(it)) from None
        if made.kind == "integer":
            raise Wrong(f"`{text}` is an integer, and a truth is wanted")
        return property_language.Watched(made)

    def holds(self, watched, instant):
        """Whether an expression is there at an instant, and true."""
        try:
            return watched.at(property_language.values_of(instant)) == 1
        except property_language.NoValue:
            return False
        except property_language.Tied as it:
            told = self.home.words(watched.property.told(it.node))
            raise Wrong(f"at instant {self.session.count} one operand of `{told}` comes without the other") from None

    # What is shown.

    def names(self, rest):
        """The signals that are named, each by itself or by its copy; all of them where none is."""
        wanted = re.split(r"[ ,]+", rest) if rest else []
        for it in wanted:
            if not any(is_in(name, it) for name in self.runs.names.values()):
                meant = near(it, list(self.runs.names.values()))
                raise Wrong(f"{it} is no signal of the program, and no copy" + (f": did you mean {meant}?" if meant else ""))
        return [it for it, name in self.runs.names.items() if not wanted or any(is_in(name, other) for other in wanted)]

    def shown(self, names=None):
        """Shows the last instant."""
        self.last_shown = self.session.count
        if not self.session.count:
            return self.say("no instant so far")
        self.say(f"instant {self.session.count}")
        instant, names = self.session.instant, names or self.watched or list(self.runs.names)
        values = {self.runs.names[it]: self.called(it, instant[it]) if it in instant else None for it in names}
        for line in shown_instants.shown(values, self.arrays, shutil.get_terminal_size().columns):
            self.say(line)

    def show(self, rest):
        self.shown(self.names(rest))

    def watch(self, rest):
        self.watched = self.names(rest) if rest else []
        if self.session.count:
            self.shown()

    def table(self, rest):
        most, names = self.number(rest, ROWS), self.watched or list(self.runs.names)
        first = max(0, self.session.count - most)
        rows = [["", *map(self.home.name, names)]]
        for number, instant in enumerate(self.session.past(), 1):
            if number > first:
                rows.append([str(number), *(self.called(it, instant.get(it, ".")) for it in names)])
        for line in shown_instants.table(rows):
            self.say(line)

    def inputs(self, rest):
        """Each input: its kind and when it comes, whether it is due, and the values that it takes next."""
        due = self.session.due()
        for name, kind in self.kinds.items():
            told = [*(["due now"] if name in due else []), *waits_of([self.called(name, it) for it in self.session.waiting[name]])]
            if name in self.session.always and kind != "event":
                told.append(f"always {self.called(name, self.session.always[name])}")
            self.say(f"  {self.told(name)}" + (f" ({'; '.join(told)})" if told else ""))

    # Values and files.

    def set(self, rest):
        name, *words = words_of(rest) or [""]
        elements = self.input(name)
        columns = [dict(self.values(name, it)) for it in words]
        for it in elements:
            self.session.put(it, [column[it] for column in columns])

    def always(self, rest):
        name, *words = words_of(rest) or [""]
        elements = self.input(name)
        if len(words) > 1:
            raise Wrong("`always A 3` is wanted")
        for it in elements:
            self.session.always.pop(it, None)
        self.session.always.update(self.values(name, words[0]) if words else ())

    def load(self, rest):
        if not rest:
            raise Wrong("a file is wanted")
        self.session.load(self.runs.flows_of(rest))

    def save(self, rest):
        if not rest:
            raise Wrong("a file is wanted")
        try:
            with open(rest, "w", encoding="latin-1") as it:
                it.write(self.session.flows())
        except OSError as error:
            raise Wrong(f"{rest}: {error.strerror}") from None
        self.say(f"  {self.session.count} instants in {rest}")

    def help(self, rest):
        if rest and rest not in COMMANDS:
            raise Wrong(f"there is no command {rest}")
        for line in help_lines(rest):
            self.say(line)
        if not rest:
            self.say("  An empty line is `step`, and `A=3` is `step A=3`. Commands may be shortened: `b 3` is `back 3`.")

    def quit(self, rest):
        raise Quit
