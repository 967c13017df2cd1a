"""Hints whose mends were tried: what sigc says of a program with an edit decides whether the edit is shown.

An edit is wrong where sigc still refuses its place, or what it accepted before. Where sigc goes on to another refusal, that
one is mended too, as far as hints lead, until the program is accepted: a mend is the whole way, or none.
"""
import re

from sigc.hints.gathered import hints_of
from sigc.hints.near_words import Hint
from sigc.read.editing import applied, offset_of, original
from sigc.read.syntax import read
from sigc.why.causes import told_of
from sigc.why.choices import choices
from sigc.why.mending import mends_of, Mend
from sigc.why.unreached import unreached_parts
from sigc.why.weighed import MOST_NOTES

DEEPEST = 8
# What an edit may bring along from elsewhere, and what has a mend.
MOVED = "bare constant"
ACCEPTED, GOES_ON, REFUSED = "accepted", "goes on", "refused"
TEXT_FIRST = ("syntax", "unexpected byte", "comment not closed", "number too large")


def stage(refusal):
    """How far sigc came: the tokens, the syntax, names and kinds, clocks."""
    if refusal.text in TEXT_FIRST:
        return 1 if refusal.text == "syntax" else 0
    return 3 if told_of(refusal.text) else 2


def outcome(sigc, text, refusal, edits, before=()):
    """What sigc says of a text with these edits, which are to mend this refusal, to which it comes with those before."""
    whole = [*edits, *(it for it in before if it not in edits)]
    new = applied(text, whole)
    after = sigc.check(new) if new != text else refusal
    if after is None:
        return ACCEPTED
    if new == text or stage(after) < stage(refusal) or stage(refusal) == 3:
        return REFUSED
    if stage(after) == 3 or not after.line:
        return GOES_ON
    place = original(offset_of(new, after.line, after.col), whole)
    begun = offset_of(text, refusal.line, refusal.col)
    is_back = place is not None and stage(after) < 2 and place <= begun
    if place is None:
        return GOES_ON if after.text == MOVED else REFUSED
    return REFUSED if is_back or after.text == refusal.text and place == begun else GOES_ON


def shown_hint(sigc, reader, refusal, before=()):
    """The first hint at a refusal whose edits are not refused, beside the edits with which sigc comes to it."""
    hints = hints_of(reader.text, reader, refusal)
    for hint in hints:
        if not hint.edits or outcome(sigc, reader.text, refusal, hint.edits, before) != REFUSED:
            return hint
    return Hint(hints[0].lines[:1] if refusal.text == "syntax" and hints else [])


def mends_for(sigc, reader, refusal, hint, most, limit):
    """The mends of a refusal, at most so many, each another text that sigc accepts: that of its hint, or of its clocks."""
    if told_of(refusal.text):
        return mends_of(sigc, reader.text, most, limit) if reader.processes and not reader.faults else []
    if not hint.edits:
        return []
    found = completed(sigc, applied(reader.text, hint.edits), (hint.lines[-1],), DEEPEST, limit)
    return [found._replace(notes=notes_beside(reader, found))] if found else []


def notes_beside(reader, mend):
    """What a mend of the text chooses, changes and leaves without effect."""
    known = {words for process in reader.processes for _, words in unreached_parts(reader.text, process)} if not reader.faults else set()
    dead = [words for process in read(mend.text).processes for _, words in unreached_parts(mend.text, process) if words not in known]
    return tuple(dict.fromkeys((*choices(reader.text, mend.text), *mend.notes, *(f"with this, {it}" for it in dead[:MOST_NOTES]))))


def completed(sigc, text, words, depth, limit):
    """The mend of a text that is mended in part: further edits, and a mend of its clocks, until sigc accepts it; None where
    none lead there."""
    refusal = sigc.check(text)
    if refusal is None:
        return Mend(joined(words), text)
    if not depth or limit.is_over(sigc):
        return None
    if told_of(refusal.text):
        first = next(iter(mends_of(sigc, text, 1, limit)), None)
        return first._replace(words=joined((*words, f"then sigc says `{refusal.text}`, and {first.words}"))) if first else None
    for hint in hints_of(text, read(text), refusal):
        if hint.edits and outcome(sigc, text, refusal, hint.edits) != REFUSED:
            found = completed(sigc, applied(text, hint.edits), (*words, hint.lines[-1]), depth - 1, limit)
            if found or limit.is_over(sigc):
                return found
    return None


def joined(words):
    """The words of several mends, each once; a word that was meant stands for itself."""
    several = list(dict.fromkeys(words))
    return several[0] if len(several) == 1 else "; ".join(re.sub(r"did you mean (`.*`)\?", r"\1", it) for it in several)
