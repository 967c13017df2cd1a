"""Refused programs as newcomers write them: programs of the examples and the documents with one thing removed.

    tools/tests/broken_programs.py [COUNT [--whole]]

prints what comes of so many of them: whether the first mend runs as the program that they were made of does, over drawn
flows, and whether it says what it chose where it does not. A word is removed, `default` or `when`, or with --whole that and what stands
behind it, which no mend can know.
"""
import os
import random
import re
import sys
from typing import NamedTuple

from calling import EXAMPLES, HERE, SIGC, TOP, TUTORIAL

from sigc.call import compiler
from sigc.hints import all_advice
from sigc.read import editing, files_read, syntax
from sigc.why import weighed

SHARES = (0.5, 0.1)
INSTANTS = "200"
SORTS = ("default", "when", "init", "declaration")
WHOLE = ("default with what stands behind it", "when with what stands behind it")


class Broken(NamedTuple):
    """A program with one thing removed: which sort of thing, the text, and the program that it was made of."""

    sort: str
    text: str
    original: str


class Result(NamedTuple):
    """What came of a broken program: `equal`, `told`, `silent` or `none`, the words of its mend, and what it says of it."""

    outcome: str
    words: str
    notes: tuple
    text: str


def controllers():
    """The programs of the examples and the documents, each once."""
    found = []
    for folder in (EXAMPLES, TUTORIAL, f"{HERE}/newcomers"):
        found += [files_read.read_text(f"{folder}/{it}") for it in sorted(os.listdir(folder)) if it.endswith(".sig")]
    for name in sorted(os.listdir(f"{TOP}/docs")):
        if name.endswith(".md"):
            page = files_read.read_text(f"{TOP}/docs/{name}")
            found += re.findall(r"^```signal [^\n]*\n(.*?)^```$", page, flags=re.M | re.S)
    return list(dict.fromkeys(found))


def removals(text):
    """The texts with one thing less, by its sort."""
    reader = syntax.read(text)
    for process in reader.processes:
        for node in (node for equation in process.equations for whole in equation.expressions() for node in syntax.walk(whole)):
            if node.op in ("default", "when"):
                yield node.op, editing.applied(text, [editing.Edit(node.at.start, node.at.end + 1, "")])
                yield f"{node.op} with what stands behind it", editing.applied(text, [editing.Edit(len(text[: node.at.start].rstrip()), node.end, "")])
            if node.op == "$" and node.init:
                begin = text.rindex("init", 0, node.init[0].start)
                yield "init", editing.applied(text, [editing.Edit(len(text[:begin].rstrip()), node.end, "")])
        for it in process.locals:
            yield "declaration", editing.applied(text, [editing.without_declaration(text, process, it)])


def broken_programs(sigc, count, sorts=SORTS, seed=68):
    """So many refused programs, as many of each sort, no two of one sort alike."""
    draws, found = random.Random(seed), {sort: [] for sort in (*SORTS, *WHOLE)}
    for text in controllers():
        if sigc.check(text) is None:
            for sort, broken in removals(text):
                found[sort].append(Broken(sort, broken, text))
    for sort in sorts:
        made, wanted = found[sort], count // len(sorts)
        draws.shuffle(made)
        refused = (it for it in made if sigc.check(it.text) is not None)
        yield from (it for it, _ in zip(refused, range(wanted)))


def run_of(sigc, text, flows):
    """What a run writes, and how it ends without its place."""
    path = sigc.written("flows", "".join(f"{name} {' '.join(values)}\n" for name, values in flows.items()))
    said = sigc.ask("run", text, path, "--workers", "0", "--instants", INSTANTS)
    return said.out, re.sub(r"\d+:\d+", "", said.err), said.status


def runs_alike(sigc, text, original):
    """Whether two programs write the same over flows by chance for the inputs of the second one."""
    process = syntax.read(original).processes[0]
    return all(run_of(sigc, text, flows) == run_of(sigc, original, flows) for flows in (weighed.drawn_flows(process, share) for share in SHARES))


def result_of(sigc, broken):
    """What comes of a broken program and its first mend."""
    advice = all_advice.Advice(sigc, syntax.read(broken.text))
    refusals = advice.refusals(sigc.check(broken.text))
    first = next((it for refusal in refusals for it in advice.mends(refusal, 1)), None)
    if first is None:
        return Result("none", "", (), "")
    if runs_alike(sigc, first.text, broken.original):
        return Result("equal", first.words, first.notes, first.text)
    return Result("told" if first.notes else "silent", first.words, first.notes, first.text)


def main():
    sigc, counts = compiler.Sigc(SIGC), {}
    sorts = WHOLE if "--whole" in sys.argv else SORTS
    for it in broken_programs(sigc, int(sys.argv[1]) if sys.argv[1:] else 60, sorts):
        result = result_of(sigc, it)
        counts.setdefault(it.sort, []).append(result.outcome)
        if result.outcome != "equal":
            shown = "\n".join(f"  {sign} {line}" for sign, _, line in editing.changed_lines(it.original, it.text))
            mended = "\n".join(f"  {sign} {line}" for sign, _, line in editing.changed_lines(it.text, result.text)) if result.text else ""
            print(f"== {it.sort}: {result.outcome}: {sigc.check(it.text)}\n{shown}\nmend: {result.words}\n{mended}", *result.notes, sep="\n")
    for sort, outcomes in counts.items():
        print(sort, {it: outcomes.count(it) for it in sorted(set(outcomes))})


if __name__ == "__main__":
    main()
