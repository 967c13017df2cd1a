"""Which truths make the diagrams of a program larger than sigc allows: what to cut so that the others fit.

sigc is asked of smaller programs. In these the definitions of booleans are cut: the boolean is an input that comes as before,
and so one condition. One definition after another is put back, as long as sigc builds the rest within a second of
processor time and few nodes; a definition that does not fit stays cut, and is told.
"""
import os
import subprocess
from typing import NamedTuple

from sigc.read.editing import applied, fresh, place_of, with_equation, with_locals, Edit
from sigc.read.signal_kinds import kinds_of
from sigc.read.syntax import RELATIONS, read, source_of, walk
from sigc.why.causes import Expanded

# Within these a program fits; the most definitions that are told, and the seconds of processor time of the whole search.
SECONDS, NODES, MOST_FOUND, ALL_SECONDS = 1, 50_000, 4, 15
# When a call of sigc is given up that does not get its second of processor time.
LONGEST = 100
TRUTHS = ("and", "or", "xor", "not", "default", "when")
COUNT_OF_NODES = slice(28, 32)


class Site(NamedTuple):
    """A truth in the text: its process, its expression, the boolean that it defines, empty where it is a condition, and its place."""

    process: object
    node: object
    name: str
    line: int
    col: int


class Large(NamedTuple):
    """A truth that does not fit: its site, the conditions that decide it, and the nodes of the guards without it."""

    site: Site
    conditions: int
    nodes: int


def is_told(text):
    """Whether a refusal is about too many nodes."""
    return text.endswith(" diagram nodes")


def named(reader):
    """The text with a name for each condition behind `when` that is a function of booleans, and the sites of those names."""
    edits, sites = [], {}
    for process in reader.processes:
        taken = set()
        for equation in process.equations:
            inside = [whole for whole in equation.expressions()]
            for node in (it.parts[-1] for whole in inside for it in walk(whole) if it.op in ("when", "at")):
                if node.op not in ("and", "or", "xor", "not") or any(it.start < node.end and node.start < it.end for it in edits):
                    continue
                name = fresh_beside(process, f"WHEN{len(sites) + 1}", taken)
                sites[process.name.text, name] = Site(process, node, "", *place_of(reader.text, node.start))
                edits += [Edit(node.start, node.end, name)]
        made = {name: sites[owner, name].node for owner, name in sites if owner == process.name.text and name in taken}
        if made:
            edits += with_equation(reader.text, process, *(f"{name} := {source_of(reader.text, node)}" for name, node in made.items()))
            edits += with_locals(process, dict.fromkeys(made, "boolean"))
    return applied(reader.text, edits), sites


def fresh_beside(process, name, taken):
    name = fresh(process, name)
    while name in taken:
        name = fresh(process, f"{name}_")
    taken.add(name)
    return name


def defined(reader):
    """The sites of the booleans that are defined as functions of others."""
    found = {}
    for process in reader.processes:
        kinds = kinds_of(process)
        for equation in (it for it in process.equations if it.form == "definition" and it.right):
            name = equation.lefts[0].text
            if kinds.get(name) == "boolean" and equation.right.op in TRUTHS:
                found[process.name.text, name] = Site(process, equation.right, name, equation.lefts[0].line, equation.lefts[0].col)
    return found


def seconds_of_children():
    """The processor time of the programs that this one has called so far."""
    times = os.times()
    return times.children_user + times.children_system


def built_within(sigc, path, seconds):
    """The nodes of the image that sigc builds of a file within so many seconds of processor time, None where it does not."""
    words = ["sh", "-c", f'ulimit -t {seconds}; exec "$0" build "$1"', sigc.path, path]
    try:
        ran = subprocess.run(words, stdin=subprocess.DEVNULL, capture_output=True, timeout=LONGEST)
    except subprocess.TimeoutExpired:
        return None
    return None if ran.returncode else int.from_bytes(ran.stdout[COUNT_OF_NODES], "big")


class Search:
    """A program with its calls expanded, and smaller ones of which sigc is asked."""

    def __init__(self, sigc, reader, seconds=SECONDS, nodes=NODES):
        self.sigc, self.seconds, self.most = sigc, seconds, nodes
        text, conditions = named(reader)
        self.sites = {**defined(reader), **conditions}
        self.expanded = Expanded(read(text).processes)
        self.made = {left: at for at, it in enumerate(self.expanded.equations) for left in it.lefts}
        self.numbers = self.inner_first()
        self.begun = seconds_of_children()
        self.nodes = 0

    def site(self, flat):
        """The site of an equation that may be cut; none of the arguments and results of calls, which have other words."""
        if not flat.lefts or flat.source.form != "definition":
            return None
        return self.sites.get((flat.process.name.text, flat.lefts[0].rpartition(".")[2]))

    def inner_first(self):
        """The equations that may be cut, those behind the ones whose signals they name."""
        found, seen = [], set()
        todo = [(at, False) for at in reversed(range(len(self.expanded.equations)))]
        while todo:
            at, is_done = todo.pop()
            flat = self.expanded.equations[at]
            if is_done:
                found.append(at)
            elif at not in seen and "$" not in (it.text for it in flat.words):
                seen.add(at)
                todo.append((at, True))
                todo += [(self.made[it], False) for it in sorted(flat.names - set(flat.lefts), reverse=True) if it in self.made]
        return [at for at in found if self.site(self.expanded.equations[at])]

    def text(self, cut):
        """The program in which these equations are cut."""
        whole = self.expanded.equations
        self.expanded.equations = [self.cut(it) if at in cut else it for at, it in enumerate(whole)]
        try:
            return self.expanded.text(range(len(whole)))[0]
        finally:
            self.expanded.equations = whole

    def cut(self, flat):
        """A clock equation in the place of a definition: with the operands of a function, so that its truth is not computed,
        or with what is defined as a whole."""
        tie, pieces, leaves = flat.words[1]._replace(text="^="), flat.source.pieces, leaves_of(flat.source.right)
        if len(pieces) != len(flat.words) or not leaves:
            return flat._replace(words=[flat.words[0], tie, *flat.words[2:]], lefts=[])
        words = [flat.words[0]]
        for leaf in leaves:
            inside = [word for piece, word in zip(pieces, flat.words) if leaf.start <= piece.start < leaf.end]
            words += [tie, *bracketed(inside)]
        return flat._replace(words=words, lefts=[])

    def fits(self, kept):
        """Whether the program fits in which all sites but these are cut."""
        path = self.sigc.written("smaller.sig", self.text(set(self.numbers) - set(kept)))
        nodes = built_within(self.sigc, path, self.seconds)
        if nodes is None or nodes > self.most:
            return False
        self.nodes = nodes
        return True

    def is_late(self):
        return seconds_of_children() - self.begun > ALL_SECONDS

    def found(self):
        """The truths that do not fit beside the others, few of them; none where all that is cut does not help."""
        kept, rest, found = [], self.numbers, []
        if not self.numbers or not self.fits([]):
            return []
        while rest and len(found) < MOST_FOUND and not self.is_late():
            count = self.longest(kept, rest)
            kept, rest = kept + rest[:count], rest[count:]
            if rest and not self.is_late():
                found.append(self.large(rest[0]))
                rest = rest[1:]
        return found

    def longest(self, kept, rest):
        """How many of the rest fit beside those that are kept."""
        least, most = 0, len(rest) + 1
        at = len(rest)
        while most - least > 1 and not self.is_late():
            least, most = (at, most) if self.fits(kept + rest[:at]) else (least, at)
            at = (least + most) // 2
        return least

    def large(self, number):
        flat = self.expanded.equations[number]
        return Large(self.site(flat), len(self.conditions(flat)), self.nodes)

    def conditions(self, flat):
        """The conditions on which the truth of an equation depends: inputs, delays, comparisons of integers, by name or by place."""
        made = {left: self.expanded.equations[at] for left, at in self.made.items()}
        kinds = {it.name: it.kind for it in self.expanded.signals}
        found, seen, todo = set(), set(), [flat]
        for it in todo:
            for name in sorted(it.names - seen - set(it.lefts)):
                seen.add(name)
                if kinds.get(name) == "boolean" and is_function(made.get(name)):
                    todo.append(made[name])
                elif kinds.get(name) == "boolean":
                    found.add(name)
            found |= {(word.line, word.col) for word in it.words if word.text in RELATIONS}
        return found


def leaves_of(node):
    """The operands of a function of booleans that are no such functions themselves, each name once; constants are none."""
    if node.op in ("and", "or", "xor", "not"):
        found = [leaf for it in node.parts for leaf in leaves_of(it)]
        named = {it.at.text: it for it in found if it.op == "name"}
        return [*named.values(), *(it for it in found if it.op != "name")]
    return [] if node.op == "truth" else [node]


def bracketed(words):
    """The words of an expression as an operand."""
    return words if len(words) == 1 else [words[0]._replace(text="("), *words, words[-1]._replace(text=")")]


def is_function(flat):
    """Whether an equation defines a boolean by others, and is neither a delay nor one comparison."""
    words = {it.text for it in flat.words} if flat else {"$"}
    return not words & {"$", "cell"} and (bool(words & set(TRUTHS)) or not words & set(RELATIONS))


def large_in(sigc, reader):
    """The truths of a program that are too large, each told once."""
    found = {}
    for it in Search(sigc, reader).found():
        found.setdefault((it.site.node.start, it.site.node.end), it)
    return list(found.values())


def told_of_large(it, text):
    """A truth that is too large, in words."""
    what = it.site.name or f"the condition {shortened(source_of(text, it.site.node))}"
    return f"{what} depends on {it.conditions} conditions; without it the guards have {it.nodes} diagram nodes, with it too many"


def shortened(words):
    return words if len(words) <= 40 else f"{words[:37].rstrip()} .."
