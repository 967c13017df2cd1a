"""The files of a program in clusters: NAME_clusters.h and NAME_clusters.c, and what a carrier has to know of them.

Their texts stand in sigc/c/carriers as files of C, with marks like @title@ where a program's own words come.
"""
import re

from sigc.c import c_files, c_names
from sigc.c.marked_files import filled, functions
from sigc.clusters.cluster_steps import Cluster
from sigc.clusters.collector_step import Collector

WIDTH = 118
INDENT = "    "
# what an output costs the collector, as operations of a cluster, and what any actor costs
OUTPUT, ACTOR = 8, 4


def text_of(file: str, **words: object) -> str:
    """The text of a file in sigc/c/carriers, with its marks filled in."""
    return filled(f"carriers/{file}", **words)


class Unit:
    """A program in clusters, as files."""

    def __init__(self, program, path, title):
        self.program, self.image, self.prefix = program, program.image, program.prefix
        self.clusters = [Cluster(program, it) for it in range(program.actors.count)]
        self.collector = Collector(program, self.clusters) if program.has_collector else None
        self.steps = self.clusters + ([self.collector] if self.collector else [])
        self.stem = c_names.stem(self.prefix)
        self.words = {"p": self.prefix, "path": c_files.commented(path), "title": title, "stem": self.stem}

    def signals(self, numbers):
        return [self.image.signals[it] for it in numbers]

    # NAME_clusters.h

    def header(self):
        """The text of NAME_clusters.h."""
        note = f"; {self.program.actors.count} is the collector" if self.collector else ""
        rows = [f"   {number} from {it.writer} to {it.reader}" for number, it in enumerate(self.program.actors.streams)]
        rows = [", ".join(row.strip() for row in rows[at : at + 5]) for at in range(0, len(rows), 5)]
        listed = "/* " + ",\n   ".join(rows) + " */" if rows else ""
        return text_of(
            "clusters.h", **self.words, ends=len(self.program.fates.ends) + 1, clusters=self.program.actors.count, streams=len(self.program.actors.streams),
            collector_note=note, stream_list=listed, states="".join(map(self.state, self.steps)), inputs=self.asked(), outputs=self.given(),
        )

    def state(self, step):
        what = "The collector" if step is self.collector else f"Cluster {step.number}"
        fields = "\n".join(f"{INDENT}{kind} {name};" for name, (kind, _) in step.state().items())
        return text_of("step.h", **self.words, own=step.name, what=what, fields=fields).replace("    int place;\n\n}", "    int place;\n}")

    def asked(self):
        """The functions that give inputs."""
        if not self.image.inputs:
            return ""
        lines = ["", "/* Yours: each gives the next value of an input, and returns 1; or 0 where there is none. A truth is 0 or 1. One cluster asks", "   for an input, where its clock says so, at most once an instant. */"]
        return "\n".join(lines + [f"{self.reader(it)};" for it in self.signals(self.program.inputs())]) + "\n"

    def given(self):
        """The functions that take outputs."""
        if not self.image.outputs:
            return ""
        who = "by the cluster that has it, once it has done the instant" if self.program.is_local else "by the collector, once all clusters have done the instant"
        lines = ["", f"/* Yours: each takes the value of an output, where it comes, {who}, in the", "   order of declaration. */"]
        return "\n".join(lines + [f"{self.writer(it)};" for it in self.signals(self.program.outputs())]) + "\n"

    def reader(self, it):
        value = "" if it.kind == "event" else f", {kind_of(it)} *value"
        return f"int r_{self.prefix}_{it.name}({self.prefix}_context *context{value})"

    def writer(self, it):
        value = "" if it.kind == "event" else f", {kind_of(it)} value"
        return f"void w_{self.prefix}_{it.name}({self.prefix}_context *context{value})"

    # NAME_clusters.c

    def unit(self):
        """The text of NAME_clusters.c."""
        rows = [f'{INDENT}{{{self.prefix}_DONE, 0, 0, ""}}']
        rows += [f"{INDENT}{{{self.prefix}_{it.what}, {it.line}, {it.column}, {c_files.quoted(it.name)}}}" for it in self.program.fates.ends]
        helpers = set().union(*(it.helpers for it in self.clusters))
        steps = "".join(map(self.step, self.steps)).rstrip("\n")
        return text_of("clusters.c", **self.words, helpers=functions("carriers/arithmetic.c", helpers), ends=len(rows), end_rows=",\n".join(rows), steps=steps)

    def step(self, it):
        init = "\n".join(f"{INDENT}state->{name} = {first};" for name, (_, first) in it.state().items())
        text = text_of("step.c", **self.words, own=it.name, init=init, body="\n".join(body(it)))
        return text.replace("= 0;\n\n}", "= 0;\n}")

    # What a carrier has to know.

    def known(self):
        """The text of program.h."""
        fields = "\n".join(f"{INDENT}{it.name}_state {own_name(it, self.collector)};" for it in self.steps)
        return text_of(
            "program.h", **self.words, clusters=len(self.clusters), actors=len(self.steps), collector=len(self.clusters) if self.collector else -1,
            streams=len(self.program.actors.streams), inputs=self.image.inputs, is_local=int(self.program.is_local), states=fields,
        )

    def glue(self):
        """The text of program.c."""
        own = lambda it: own_name(it, self.collector)
        begins = [f"{INDENT}case {at}:\n{INDENT * 2}{it.name}_init(&state->{own(it)});\n{INDENT * 2}break;" for at, it in enumerate(self.steps)]
        steps = [f"{INDENT}case {at}:\n{INDENT * 2}return {it.name}_step(&state->{own(it)}, context);" for at, it in enumerate(self.steps)]
        return text_of(
            "program.c", **self.words,
            stream_ends="".join(f"{{{it.writer}, {it.reader}}}, " for it in self.program.actors.streams),
            input_rows="".join(f"{{{c_files.quoted(it.name)}, {it.kind.upper()}}}, " for it in self.signals(self.program.inputs())),
            weights=", ".join(str(self.weight(it)) for it in self.steps),
            begins="\n".join(begins), steps="\n".join(steps), calls=self.calls().rstrip("\n"),
        )

    def weight(self, step):
        """About how much an actor does at an instant."""
        if step is self.collector:
            return ACTOR + len(self.clusters) + OUTPUT * (0 if self.program.is_local else self.image.outputs)
        return ACTOR + len(step.acts)

    def calls(self):
        """The functions of inputs and outputs."""
        found = []
        for number, it in enumerate(self.signals(self.program.inputs())):
            lines = [f"int64_t item = 0;", f"int is_there = take(context, {number}, &item);"]
            lines += [] if it.kind == "event" else [f"*value = {'(int)' if it.kind == 'boolean' else ''}item;"]
            found.append(function(self.reader(it), [*lines, "return is_there;"]))
        for it in self.signals(self.program.outputs()):
            word = "integer" if it.kind == "integer" else "truth"
            name = f"{c_files.quoted(it.name + ' ')}, {len(it.name) + 1}"
            found.append(function(self.writer(it), [f"give_{word}(context, {name}, {'1' if it.kind == 'event' else 'value'});"]))
        return "".join(found)


def kind_of(signal):
    return "int64_t" if signal.kind == "integer" else "int"


def own_name(step, collector):
    return "collector" if step is collector else f"cluster_{step.number}"


def function(head, lines):
    return f"\n{head}\n{{\n" + "".join(f"{INDENT}{it}\n" for it in lines) + "}\n"


def body(step):
    """The lines of a step: its variables, what it does not use, the way to the place of waiting, and what it does."""
    lines = list(variables(step.locals))
    code = [it for it in step.text.lines if not it.lstrip().startswith("/*")]
    text = "\n".join(code)
    used = {"state": "state->" in text, "context": "(context" in text} | {it: is_read(it, code) for it in step.locals}
    lines += [f"{INDENT}(void){name};" for name, is_used in used.items() if not is_used]
    return [*lines, *step.text.begin(), *step.text.lines]


def is_read(name, code):
    """Whether lines read a variable, and do not only give it a value."""
    word, given = re.compile(rf"(?<![\w>]){name}\b"), re.compile(rf"\s*{name} = ")
    return any(word.search(given.sub("", line, count=1) if given.match(line) else line) for line in code)


def variables(kinds):
    """The variables of a step, by their kinds."""
    by_kind = {}
    for name, kind in kinds.items():
        by_kind.setdefault(kind, []).append(f"{name} = 0")
    for kind, names in by_kind.items():
        line = f"{INDENT}{kind} {names[0]}"
        for it in names[1:]:
            if len(line) + len(it) > WIDTH:
                yield f"{line};"
                line = f"{INDENT}{kind} {it}"
            else:
                line += f", {it}"
        yield f"{line};"
