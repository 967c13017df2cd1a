"""Beginners' mistakes of brackets: the marks of an interface, what stands around equations, and what stands behind `end`."""
from sigc.hints.near_words import Hint
from sigc.read.editing import Edit
from sigc.read.lexer import KINDS, RESERVED

NO_END = "`end` closes what `where` begins: without locals a process ends with `;`"


def no_exclamation(it):
    """Inputs and outputs without the `!` between them."""
    if "!" not in it.fault.wanted or it.found.text not in (")", "?"):
        return None
    words = "`!` stands between the inputs and the outputs"
    if it.found.text == "?":
        return Hint([words], "syntax", [Edit(it.found.start, it.found.end, "!")])
    begun = max((at for at in range(it.at) if it.pieces[at].text == "?"), default=0)
    defined = {one.text for one, other in zip(it.pieces, it.pieces[1:]) if other.text == ":="}
    first = next((at for at in range(begun, it.at) if it.pieces[at].text in defined), None)
    known = {piece.text for piece in it.pieces[begun : it.at]}
    missing = next((one.text for one, other in zip(it.pieces, it.pieces[1:]) if other.text == ":=" and one.text not in known), None)
    marks = [f" ! {kind} {missing}" for kind in KINDS if missing and not first] + [" !"]
    return [*([behind(it, first, words)] if first else []), *(Hint([words], "syntax", [Edit(it.found.start, it.found.start, mark)]) for mark in marks)]


def behind(it, first, words):
    """The `!` before the first name that an equation defines, with its kind."""
    before = it.pieces[first - 1]
    if before.text in KINDS:
        mark = it.pieces[first - 2]
        return Hint([words], "syntax", [Edit(mark.start if mark.text == ";" else mark.end, mark.end, " !")])
    kind = next((piece.text for piece in reversed(it.pieces[:first]) if piece.text in KINDS), "integer")
    return Hint([words], "syntax", [Edit(before.start, before.end, f" ! {kind}")])


def no_question(it):
    if it.fault.wanted == ("?",):
        edit = Edit(it.found.start, it.found.start, "? ")
        return Hint(["`?` stands before the inputs, also where there are none"], "syntax", [edit])
    return None


def round_brackets(it):
    """`( .. )` around equations."""
    if it.found.text == ":=" and it.piece(-2).text == "(" and it.piece(-3).text in (")", "|", "(|", "pragmas"):
        close = it.matching(it.at - 2)
        words = "equations stand between `(|` and `|)`"
        edits = [Edit(it.piece(-2).start, it.piece(-2).end, "(|")] + ([Edit(close.start, close.end, "|)")] if close else [])
        return Hint([words], "syntax", edits)
    return None


def braces(it):
    """`{ .. }` and `begin .. end` around equations."""
    close = it.matching(it.at) if it.found.text == "{" and "(|" in it.fault.wanted else None
    begin = it.found
    if it.before.text == "begin":
        begin, close = it.before, next((piece for piece in it.pieces[it.at :] if piece.text == "end"), None)
    if close is None:
        return None
    edits = [Edit(begin.start, begin.end, "(|"), Edit(close.start, close.end, "|)")]
    return Hint(["equations stand between `(|` and `|)`"], "syntax", edits)


def several_equations(it):
    """Several equations without a bracket around them."""
    if it.found.text != "|" or not {"where", ";"} <= set(it.fault.wanted):
        return None
    at = max((at for at in range(it.at) if it.pieces[at].text in (")", "pragmas") and it.pieces[at + 2].text in (":=", "^=")), default=None)
    close = next((piece for piece in it.pieces[it.at :] if piece.text in (";", "where")), None)
    edits = [Edit(it.pieces[at].end, it.pieces[at + 1].start, "\n(| "), Edit(close.start, close.start, " |)")] if at is not None and close else []
    return Hint(["several equations stand between `(|` and `|)`"], "syntax", edits)


def equations_behind(it):
    """An equation, `where` or `end` behind the `;` that ends the process."""
    if it.fault.wanted != ("process",) or it.before.text != ";":
        return None
    if it.found.text == "where":
        return Hint(["the `;` before `where` ends the process: it stands behind `end`"], "syntax", [Edit(it.before.start, it.before.end, "")])
    if it.found.text == "end":
        return Hint([NO_END], "syntax", [Edit(it.before.end, it.piece(1).end if it.piece(1).text == ";" else it.found.end, "")])
    if it.found.kind == "name" and it.piece(1).text in (":=", "^=", "="):
        return Hint(["a `;` ends the process: several equations stand between `(|` and `|)`, with `|` between them"], "syntax", bracketed(it))
    return None


def bracketed(it):
    """The edits that put a bracket around equations of which each ends with `;`."""
    begun = max((at for at in range(it.at) if it.pieces[at].text in (")", "pragmas") and it.pieces[at + 2].text in (":=", "^=")), default=None)
    if begun is None:
        return []
    last = next((at for at in range(it.at, len(it.pieces)) if it.pieces[at].text in ("where", "end", "process", "")), len(it.pieces) - 1)
    marks = [piece for piece in it.pieces[begun:last] if piece.text == ";"]
    close = "\n |)" if it.pieces[last].text == "where" else "\n |);"
    edits = [Edit(it.pieces[begun].end, it.pieces[begun + 1].start, "\n(| "), *(Edit(piece.start, piece.end, " |") for piece in marks[:-1])]
    return edits + [Edit(marks[-1].start, marks[-1].end, close)]


def end_without_where(it):
    if it.found.text == "end" and {"where", ";"} <= set(it.fault.wanted):
        return Hint([NO_END], "syntax", [Edit(it.before.end, it.found.end, "")])
    return None


def name_behind_end(it):
    if it.before.text == "end" and ";" in it.fault.wanted and it.found.kind == "name":
        last = it.piece(1) if it.found.text in RESERVED and it.piece(1).kind == "name" else it.found
        return Hint(["no name stands behind `end`"], "end-is-missing", [Edit(it.before.end, last.end, "")])
    return None


def where_first(it):
    if it.found.text == "where" and "(|" in it.fault.wanted:
        return Hint(["`where` and the locals stand behind the equations"], "syntax")
    return None


def no_where(it):
    """Locals behind the equations without `where`."""
    if it.found.text in KINDS and "where" in it.fault.wanted:
        edit = Edit(it.found.start, it.found.start, "where ")
        return Hint(["locals stand behind `where`, up to `end`"], "syntax", [edit])
    return None


INTERFACES = [no_exclamation, no_question, round_brackets, braces, several_equations, equations_behind, end_without_where, name_behind_end, where_first, no_where]
