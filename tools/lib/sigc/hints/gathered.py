"""What most likely is wrong where sigc refuses a program: what was found and what was wanted, the word that was meant, and a mend.

`hints_of` tells it for one refusal, the likeliest hint first. A hint has lines of text, the entry of docs/errors.md that
fits best, and where one is known the edits that mend the place; hints/tried.py tries them.
"""
from sigc.hints.clock_hints import clock_hints
from sigc.hints.init_hints import no_init_hints
from sigc.hints.name_hints import bare_hint, call_hint, clash_hints, pragma_hint, recursive_hint, undefined_hints, unknown_hints
from sigc.hints.near_words import Hint
from sigc.hints.other_marks import closed_comments
from sigc.hints.syntax_hints import byte_hints, syntax_hints
from sigc.hints.twice import twice_hints

PLAIN = {
    "number too large": "the largest number is 9223372036854775807",
    "nesting deeper than 64": "give the inner part a name",
    "more than 512 operators": "give a part of the equation a name",
    "more than 512 signals": "signals of called processes and of operators inside expressions count too",
}


def hint_of(text, reader, refusal):
    """The likeliest hint for a refusal of a program."""
    return next(iter(hints_of(text, reader, refusal)), Hint([]))


def hints_of(text, reader, refusal):
    """The hints for a refusal of a program."""
    line, col, said = refusal
    if said == "syntax":
        return syntax_hints(text, reader, line, col)
    if said == "unexpected byte":
        return byte_hints(text, line, col)
    if said == "comment not closed":
        words = "a comment runs from a `%` to the next `%`, over lines"
        return [Hint([words], "comment-not-closed", edits) for edits in (closed_comments(text), ())]
    if said in PLAIN:
        return [Hint([PLAIN[said]])]
    return clock_hints(reader, said) or of_names(reader, line, col, said)


def of_names(reader, line, col, said):
    """The hints for a refusal of names, kinds and calls."""
    first, last = (said.split() or [""])[0], (said.split() or [""])[-1]
    if said.startswith("unknown name "):
        return unknown_hints(reader, line, col, last)
    if said.endswith((" is declared twice", " is defined twice")) or said.startswith("input "):
        return twice_hints(reader, line, col, said)
    if said.endswith(" is not defined"):
        return undefined_hints(reader, line, col, first)
    if said == "types clash":
        return clash_hints(reader, line, col)
    if said == "delay without init":
        return no_init_hints(reader, line, col)
    rules = {"bad call of": lambda *it: call_hint(*it, last), "recursive call of": recursive_hint, "bare constant": bare_hint, "bad pragma": pragma_hint}
    return [rule(reader, line, col) for word, rule in rules.items() if said.startswith(word)]
