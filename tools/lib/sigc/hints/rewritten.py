"""What other languages write inside an expression, and how it is written here: `if .. then .. else`, and a call."""
from sigc.hints.around import wanted_words
from sigc.hints.near_words import Hint
from sigc.read.editing import fresh, with_equation, with_local, Edit
from sigc.read.lexer import RESERVED
from sigc.read.syntax import OPERATORS

CALL = "a call is the whole right side of an equation: give its result a name"
IF = "there is no `if`: `(X when B) default Y` is X where B is true, and else Y"


# if then else.


def if_then_else(it):
    begun = max((at for at in range(it.at + 1) if it.pieces[at].text in (":=", "^=", "|", "(|")), default=0)
    words = [piece.text for piece in it.pieces[begun : it.at + 1]]
    if not set(words) & {"if", "then", "else"}:
        return None
    at = next((begun + place for place, text in enumerate(words) if text == "if"), None)
    made = rewritten(it.text, it.pieces, at) if at else None
    found = [Hint([IF], "if-then-else", [Edit(it.pieces[at].start, made[1], made[0])])] if made else []
    return [*found, Hint([IF], "if-then-else")]


def rewritten(text, pieces, at):
    """The text in the place of an `if`, and where that ends; None where it has not its three parts."""
    end, places, depth, deeper = at, {}, 0, 0
    while pieces[end].kind != "end" and depth >= 0 and (depth or pieces[end].text not in ("|", "|)", ";")):
        word = pieces[end].text
        depth += (word in ("(", "{")) - (word in (")", "}"))
        deeper += (word == "if") - (word == "else") if not depth else 0
        if not depth and word in ("then", "else") and deeper == (word == "then"):
            places.setdefault(word, end)
        end += 1
    end -= depth < 0
    if set(places) != {"then", "else"} or not at + 1 < places["then"] < places["else"] - 1 or places["else"] + 1 >= end:
        return None
    parts = [(at + 1, places["then"]), (places["then"] + 1, places["else"]), (places["else"] + 1, end)]
    asked, one, other = (part(text, pieces, *it) for it in parts)
    timed = f"({other} when ^{asked})" if is_constant(other) else other
    return f"({one} when {asked}) default {timed}", pieces[end - 1].end


def part(text, pieces, first, end):
    """A part of an `if` as an operand: another `if` in it is rewritten too."""
    inner = rewritten(text, pieces, first) if pieces[first].text == "if" else None
    source = inner[0] if inner else " ".join(text[pieces[first].start : pieces[end - 1].end].split())
    return source if end == first + 1 or is_constant(source) else f"({source})"


def is_constant(source):
    return source in ("true", "false") or source.removeprefix("-").strip().isdigit()


# Calls.


def call_inside(it):
    if it.found.text not in ("(", "{") or it.before.kind != "name" or it.before.text in RESERVED:
        return None
    return named_result(it, it.at - 1) if "an operator" in wanted_words(it.fault) else None


def behind_call(it):
    if it.before.text != ")" or it.found.text not in OPERATORS or set(OPERATORS) & set(it.fault.wanted):
        return None
    depth, at = 0, it.at - 1
    while at and (depth or it.pieces[at].text in (")", "}")):
        depth += (it.pieces[at].text in (")", "}")) - (it.pieces[at].text in ("(", "{"))
        at -= 1
    return named_result(it, at)


def named_result(it, at):
    """A name for the result of the call that begins at a piece: an equation and a local."""
    explained = Hint([CALL], "a-call-inside-an-expression")
    name = it.pieces[at]
    called = next((one for one in it.processes if one.name.text == name.text), None)
    owner = next((one for one in it.processes if one.body and one.body[0].start <= name.start < one.body[-1].end), None)
    close = closing(it.pieces, at + 1)
    if not called or not owner or not owner.end or not close or len(called.outputs) != 1:
        return explained
    result = fresh(owner, f"{name.text}_RESULT")
    call = it.text[name.start : close.end]
    edits = [Edit(name.start, close.end, result), *with_equation(it.text, owner, f"{result} := {call}"), *with_local(owner, called.outputs[0].kind, result)]
    return [explained._replace(edits=edits), explained]


def closing(pieces, at):
    """The bracket that ends a call whose first bracket stands at a place."""
    depth = 0
    for place in range(at, len(pieces)):
        depth += (pieces[place].text in ("(", "{")) - (pieces[place].text in (")", "}"))
        if depth == 0 and pieces[place].text == ")":
            return pieces[place]
    return None
