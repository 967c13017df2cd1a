"""Words and marks of Lustre, of SIGNAL V4 and of other languages that are wrong here, each with what stands for it."""
from sigc.hints.init_hints import FIRST
from sigc.hints.near_words import Hint
from sigc.hints.other_marks import OTHER_WORDS
from sigc.read.editing import Edit
from sigc.read.lexer import RESERVED

REALS = ("real", "float", "double", "dreal", "number", "decimal")
INTEGERS = ("short", "long", "unsigned", "uint", "byte", "int32", "int64", "uint32", "natural")
OTHERS = ("char", "character", "string", "complex", "dcomplex", "type", "struct", "enum", "array")
MOST = 6


def other_kinds(it):
    if "integer" not in it.fault.wanted or it.found.kind != "name":
        return None
    word, edit = it.found.text, Edit(it.found.start, it.found.end, "integer")
    if word.lower() in REALS:
        return Hint([f"there is no `{word}`: an integer counts parts, as tenths of a degree"], "bool-and-int", [edit])
    if word.lower() in INTEGERS:
        return Hint([f"there is no `{word}`: an integer has 64 bits"], "bool-and-int", [edit])
    if word.lower() in OTHERS:
        return Hint([f"there is no `{word}`: the kinds are `integer`, `boolean` and `event`; a state is an integer"], "bool-and-int")
    return None


def no_init(it):
    """`cell` without its init."""
    if "init" not in it.fault.wanted or it.found.text in ("init", "}"):
        return None
    texts = [piece.text for piece in it.pieces[: it.at]]
    at = max((at for at, text in enumerate(texts) if text == "cell"), default=None)
    if at is None or at < it.at - 8:
        return None
    kind = it.kinds().get(it.pieces[at - 1].text) or it.kinds().get(defined_before(it, at), "integer")
    values = sorted(("0", "false"), key=lambda value: value != FIRST[kind].replace("true", "false"))
    words = "`cell` has an init, the value before the first one: `{} init {}`"
    source = " ".join(it.text[it.pieces[at - 1].start : it.before.end].split())
    return [Hint([words.format(source, value)], "syntax", [Edit(it.before.end, it.before.end, f" init {value}")]) for value in values]


def defined_before(it, at):
    """The left side of the equation that a piece stands in."""
    while at > 1 and it.pieces[at].text != ":=":
        at -= 1
    return it.pieces[at - 1].text


def current(it):
    """Lustre's `current`: the last value of a signal, at the instants of another one."""
    at = next((at for at in (it.at, it.at - 1) if it.pieces[at].text == "current"), None)
    if at is None:
        return None
    place = at + 1 + (it.pieces[at + 1].text == "(")
    name, last = it.pieces[place], it.pieces[place + (place > at + 1)]
    words = "the last value of {} at the instants of {} as well is `{}`"
    if name.kind != "name":
        return Hint([words.format("A", "B", "A cell ^B init 0")], OTHER_WORDS)
    kinds = it.kinds()
    value = FIRST[kinds.get(name.text, "integer")].replace("true", "false")
    made = [(other, f"{name.text} cell ^{other} init {value}") for other in kinds if other not in (name.text, defined_before(it, at))]
    found = [Hint([words.format(name.text, other, text)], OTHER_WORDS, [Edit(it.pieces[at].start, last.end, f"({text})")]) for other, text in made[:MOST]]
    return [*found, Hint([words.format(name.text, "B", f"{name.text} cell ^B init {value}")], OTHER_WORDS)]


def clock_comparison(it):
    """SIGNAL's `^<` and `^>`."""
    for one, other in ((it.found, it.piece(1)), (it.before, it.found)):
        if one.text == "^" and other.text in ("<", ">", "<=", ">=") and one.end == other.start:
            return Hint([f"there is no `^{other.text}`: A comes only at instants of B where a boolean with B tells when, `C ^= B` and `A ^= when C`"], OTHER_WORDS)
    return None


def synchro(it):
    """`synchro {A, B}` and its like."""
    at = next((at for at in (it.at, it.at - 1) if it.pieces[at].text == "synchro"), None)
    if at is None:
        return None
    names, end = [], at + 1
    while end < len(it.pieces) and (it.pieces[end].text in ("{", "(", ",", "}", ")", "^") or it.pieces[end].kind == "name" and it.pieces[end].text not in RESERVED):
        names += [it.pieces[end].text] if it.pieces[end].kind == "name" else []
        end += 1
        if it.pieces[end - 1].text in ("}", ")"):
            break
    words = " ^= ".join(names) if len(names) > 1 else "A ^= B"
    edits = [Edit(it.pieces[at].start, it.pieces[end - 1].end, words)] if len(names) > 1 else []
    return Hint([f"that signals come together is `{words}`"], OTHER_WORDS, edits)


def event_of(it):
    """`event A` for the clock of A."""
    if it.found.text == "event" and "an expression" in it.fault.wanted and it.piece(1).kind == "name":
        return Hint([f"the clock of {it.piece(1).text} is `^{it.piece(1).text}`"], OTHER_WORDS, [Edit(it.found.start, it.piece(1).start, "^")])
    return None


def exclamation(it):
    if it.found.text == "!" and "an expression" in it.fault.wanted and it.piece(1).text != "=":
        return Hint(["`not` is written in letters"], OTHER_WORDS, [Edit(it.found.start, it.found.end, "not ")])
    return None


def arrow(it):
    """`Y <- A` and `Y =: A` for a definition."""
    for place in range(max(1, it.at - 12), it.at + 1):
        one, other = it.pieces[place - 1 : place + 1]
        if one.text + other.text == "<-" and one.end == other.start and it.pieces[place - 3].text in ("|", "(|", ")"):
            return Hint(["a definition has `:=`"], "y--a--1", [Edit(one.start, other.end, ":=")])
    return None


WORDS = [other_kinds, no_init, current, clock_comparison, synchro, event_of, exclamation, arrow]
