"""Two expressions beside one another: which operator is missing between them, `default` or `when`, by what they are."""
from sigc.hints.around import Around
from sigc.hints.near_words import Hint
from sigc.read.editing import Edit
from sigc.read.lexer import RESERVED
from sigc.read.syntax import RELATIONS, Piece

ENTRY = "if-then-else"
TRUTHS = ("not", "and", "or", "xor", *RELATIONS)
WORDS = {
    "default": "`default` is missing before `{}`: the value behind it is taken where the one before it does not come",
    "when": "`when` is missing before `{}`: the value before it is taken where what stands behind it is true",
}


def missing_operator(it: Around) -> list[Hint] | None:
    """The hints at a fault between two expressions; None where no operand begins there, or none ends before it."""
    if "default" not in it.fault.wanted or not begins_operand(it.found, it.kinds()) or not ends_operand(it.before, it.kinds()):
        return None
    if it.found.kind == "name" and it.piece(1).text in (":=", "^="):
        return None
    return operator_hints(it.pieces, it.at, it.kinds())


def operator_hints(pieces: list[Piece], at: int, kinds: dict[str, str]) -> list[Hint]:
    """The hints before a piece, the likeliest first; where both sides are truths nothing tells which one is meant."""
    left, right = before(pieces, at - 1), behind(pieces, at)
    shown = pieces[at].text
    if is_constant(left):
        likely = ["when"]
    elif is_partial(left):
        likely = ["default"]
    elif is_truth(right, kinds) and not is_truth(left, kinds):
        likely = ["when"]
    elif not is_truth(right, kinds):
        likely = ["default"]
    else:
        return [Hint([f"an operator is missing before `{shown}`: `when`, `default`, `and` or `or`"], ENTRY)]
    return [Hint([WORDS[it].format(shown)], ENTRY, [Edit(pieces[at].start, pieces[at].start, f"{it} ")]) for it in likely]


def begins_operand(piece, kinds):
    return piece.text in ("(", "^", "true", "false", "not") or piece.kind == "number" or piece.text in kinds


def ends_operand(piece, kinds):
    return piece.text in (")", "true", "false") or piece.kind == "number" or piece.text in kinds


def before(pieces, at):
    """The pieces of the operand that ends at a place."""
    depth, begin = 0, at
    while begin > 0:
        depth += (pieces[begin].text == ")") - (pieces[begin].text == "(")
        if depth <= 0:
            break
        begin -= 1
    return pieces[begin : at + 1]


def behind(pieces, at):
    """The pieces of the expression that begins at a place, up to the next `default`, bracket or bar that it is not inside of."""
    depth, end = 0, at
    while end < len(pieces):
        text = pieces[end].text
        depth += (text in ("(", "{")) - (text in (")", "}"))
        if depth < 0 or depth == 0 and end > at and text in ("default", "|", "|)", ";", "where", ","):
            break
        end += 1
    return pieces[at:end]


def is_constant(pieces):
    texts = [it.text for it in pieces if it.text not in ("(", ")", "-")]
    return len(texts) == 1 and (texts[0] in ("true", "false") or texts[0].isdigit())


def is_partial(pieces):
    return any(it.text == "when" for it in pieces)


def is_truth(pieces, kinds):
    """Whether an expression is a truth, as far as its words show: a comparison, or names that are booleans and events."""
    texts = [it.text for it in pieces]
    if "when" in texts:
        texts = texts[: texts.index("when")]
    if any(it in TRUTHS or it == "^" for it in texts):
        return True
    names = [it.text for it in pieces if it.kind == "name" and it.text not in RESERVED and it.text in texts]
    return bool(names) and all(kinds.get(it) in ("boolean", "event") for it in names) or any(it in ("true", "false") for it in texts)
