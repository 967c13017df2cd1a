"""Says why sigc refuses the clocks of a program: the least equations that keep the refusal, and a fix that was tried.

    tools/sigc-why p.sig

Where `sigc check` says `no reaction is possible`, `no root`, `clock of X is not determined`, `condition X is forced` or
`cycle through X`, the place is a declaration, and the fault may be anywhere, also in a called process. All calls are
expanded, and equations are left out as long as sigc refuses the rest in the same words. What stays is shown, each
equation with its line; none of them can be left out. Then it looks for a fix, and shows one that `check` accepts.

Where it says `8000000 diagram nodes` the booleans are shown that make the guards too large: smaller programs are tried, in
which one boolean or another is an input. A fix folds these into integers, the comparison of which is one condition.

A program with arrays, cases and the like is shown at its own places. A fix of it changes its own text; fixes of its kernel that
have no such form are left out.

An accepted program gets `accepted` and status 0. Any other refusal is said as sigc says it, with status 1.
"""
import argparse
import sys

from sigc.call import compiler, opened
from sigc.call.refusing import Refused
from sigc.hints import all_advice
from sigc.hints.forced_hints import forced_lines
from sigc.read import shown_places, syntax
from sigc.why import causes, folding, large_guards, mending


# How many fixes of a kernel are looked at: not each can be written in the user's text.
MOST_OF_KERNEL = 4
SEE_IDIOM = "      see docs/idioms.md#12-many-booleans-that-decide-one-thing"


def shown_equation(path, text, flat):
    return shown_places.placed(path, flat.place.line, flat.place.col, "note", causes.told_words(flat), text=text)


def shown_cause(path, text, cause):
    count, whole = len(cause.kept), len(cause.expanded.equations)
    names = " and ".join(cause.told.names)
    if not count:
        near = [it for it in cause.expanded.equations if it.names & set(cause.told.names)]
        head = f"nothing ties {names}: each may come without the other; they are named by\n" if near else f"no equation names {names}\n"
        return head + "".join(shown_equation(path, text, it) for it in near[:6])
    these = "this one keeps it refused" if count == 1 else f"these {count} keep it refused; none of them can be left out"
    head = f"of {whole} equations, calls expanded, {these}\n"
    return head + "".join(shown_equation(path, text, it) for it in cause.equations())


def shown_mends(sigc, path, text, told, most):
    mends = mending.mends_of(sigc, text, most)
    shown = "".join(f"mend, accepted by check: {it.words}\n{shown_places.changes(text, it.text)}{''.join(f'    {note}{chr(10)}' for note in it.notes)}" for it in mends)
    if told.sort == "root" and sigc.takes_pace(text):
        shown += f"mend, accepted by check: sigc check {path} --pace\n"
    return shown or "no mend was found among those that were tried\n"


def shown_large(sigc, path, text):
    """The truths whose guards are too large, and the fold of them that sigc accepts."""
    reader = syntax.read(text)
    found = large_guards.large_in(sigc, reader) if reader.processes and not reader.faults else []
    if not found:
        return "no boolean was found without which the guards are small enough\n"
    shown = "".join(shown_places.placed(path, it.site.line, it.site.col, "note", large_guards.told_of_large(it, text), text) for it in found)
    mends = folding.folds_of(sigc, reader, found)
    shown += "".join(f"mend, accepted by check: {it.words}\n{shown_places.changes(text, it.text)}" for it in mends)
    return f"{shown}{SEE_IDIOM}\n"


def shown_user_mends(sigc, home, told, most, include):
    """The fixes of a program that has a kernel, in its own text."""
    from sigc.why import user_mends

    found = user_mends.of_user(sigc, home, mending.mends_of(sigc, home.text, MOST_OF_KERNEL), include)[:most]
    shown = "".join(f"mend, accepted by check: {it.words}\n{shown_places.changes(home.source, it.text)}{''.join(f'    {note}{chr(10)}' for note in it.notes)}" for it in found)
    if told.sort == "root" and sigc.takes_pace(home.text):
        shown += f"mend, accepted by check: sigc check {home.path} --pace\n"
    return shown or "no mend was found among those that were tried\n"


def told_home(sigc, home, refusal, words):
    """Tells a refusal of the kernel of a program that is none, at the places of the user's text, and fixes of this text."""
    from sigc.expand import calling

    at = home.expansion.at(refusal.line or 1, refusal.col or 1)
    print(calling.placed(at, "error", home.expansion.said(refusal.text)), end="")
    advice = all_advice.Advice(sigc, syntax.read(home.text))
    told = {}
    for it in advice.notes(refusal):
        told.setdefault(home.expansion.at(it.line, it.col), home.words(it.words))
        told.update(home.expansion.exclusions(it.line, it.col))
    for place, said in told.items():
        print(calling.placed(place, "note", said), end="")
    if large_guards.is_told(refusal.text):
        print(SEE_IDIOM)
    clocks, most = causes.told_of(refusal.text), words.mends if words.mends is not None else 2
    if clocks and most > 0:
        print(shown_user_mends(sigc, home, clocks, most, words.include), end="")
    return 1


def main():
    words = argparse.ArgumentParser(prog="sigc-why", description=__doc__, formatter_class=argparse.RawDescriptionHelpFormatter)
    words.add_argument("program", metavar="PROGRAM", help="the file of a program")
    words.add_argument("--mends", metavar="N", type=int, help="at most N fixes (default: 2 where there is no root, else 1; 0: none are tried)")
    opened.add_include(words)
    words = words.parse_args()
    try:
        home = opened.Opened(words.program, compiler.read_program(words.program), words.include)
    except Refused as refusal:
        print(refusal.line)
        return refusal.status
    text, sigc = home.text, compiler.Sigc()
    refusal = sigc.check(text)
    if refusal is None:
        print("accepted")
        return 0
    if not home.is_kernel:
        return told_home(sigc, home, refusal, words)
    print(shown_places.placed(words.program, refusal.line or 1, refusal.col or 1, "error", refusal.text, text=text), end="")
    told = causes.told_of(refusal.text)
    if large_guards.is_told(refusal.text):
        print(shown_large(sigc, words.program, text), end="")
        return 1
    if told is None:
        print("this is no refusal of clocks: tools/sigc-caret check shows its mend")
        return 1
    reader = syntax.read(text)
    if reader.faults or not reader.processes:
        print("the scripts' reader does not read this program, which sigc does")
        return 1
    for line in forced_lines(reader, told.names[0]) if told.sort == "forced" else ():
        print(f"      {line}")
    cause = causes.cause_of(sigc, reader.processes, told)
    print(shown_cause(words.program, text, cause), end="")
    most = words.mends if words.mends is not None else 2 if told.sort == "root" else 1
    if most > 0:
        print(shown_mends(sigc, words.program, text, told, most), end="")
    return 1


def start():
    sys.exit(compiler.guarded(main))
