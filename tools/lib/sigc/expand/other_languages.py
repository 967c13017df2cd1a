"""What stands here for words and marks of Lustre and of other languages, where a text cannot go on at them."""
from sigc.expand.tokens import Token

EQUAL, NOT_EQUAL = "equal is `=`", "not equal is `/=`"
BEFORE = "the previous value of X is `X $ 1 init C`, C being the first one"
FIRST = "`C -> pre X` is `X $ 1 init C`; docs/from-lustre.md has `->` of other operands"
# Two marks beside each other.
PAIRS = {
    ("<", ">"): NOT_EQUAL, ("!", "="): NOT_EQUAL, ("=", "="): EQUAL, ("=", ">"): "`A => B` is `not A or B`", ("-", ">"): FIRST,
    ("<", "-"): "a definition has `:=`", ("|", "|"): "`or` is written in letters", ("+", "+"): "one more is `X + 1`", ("-", "-"): "a comment stands between two `%`",
    ("/", "/"): "a comment stands between two `%`", ("/", "*"): "a comment stands between two `%`", ("^", "<="): "`A ^< B`: A comes only where B comes",
}
WORDS = {
    "pre": BEFORE, "fby": BEFORE, "last": "the value of X at the instant before is `X $ 1 init C`, and the last value that came is `X cell B init C`",
    "mod": "did you mean `modulo`?", "rem": "did you mean `modulo`?", "div": "a quotient is `/`", "const": "did you mean `constant`?",
    "assert": "what is to hold stands in parentheses: `assert(X)`", "assume": "what is assumed stands in parentheses: `assume(X)`",
    "let": "equations stand between `(|` and `|)`", "tel": "equations stand between `(|` and `|)`", "var": "locals stand after `where`",
    "returns": "outputs stand after `!`: `(? inputs ! outputs)`", "elsif": "write `else if`", "elseif": "write `else if`", "endif": "`if` has no end",
    "match": "write `case S in {#a}: .. end`", "switch": "write `case S in {#a}: .. end`", "current": "the last value of X at the instants of B too is `X cell ^B init C`",
    "map": "write `array I to N - 1 of .. end`", "fold": "write `array I to N - 1 of Y := F(Y[?], X[I]) with Y := C end`", "for": "write `array I to N - 1 of .. end`",
    "merge": "`merge` is `default`: `A default B`", "whenot": "write `X when not B`", "restart": "a transition that begins anew is `go`",
    "continue": "a transition that keeps memories is `resume`", "then": "`if C then A else B` is one expression",
}
NEAR = 2


def advice(tokens: list[Token], at: int) -> list[str]:
    """Lines about the word or the marks at which a reader stopped, or that stand just before."""
    found = [it for number in (at - 1, at) if 0 < number + 1 < len(tokens) and (it := of_pair(tokens[max(number, 0)], tokens[number + 1]))]
    words = [WORDS[it.text] for it in (tokens[at], tokens[max(at - 1, 0)]) if it.kind == "name" and it.text in WORDS]
    return list(dict.fromkeys([*found, *words]))[:1] or sizes_after(tokens, at)


def of_pair(one: Token, other: Token) -> str | None:
    """What two marks mean together where no blank stands between them."""
    is_beside = one.line == other.line and one.col + len(one.text) == other.col
    return PAIRS.get((one.text, other.text)) if is_beside and one.kind == other.kind == "mark" else None


def sizes_after(tokens: list[Token], at: int) -> list[str]:
    """`integer X[3]` and `X : integer` in a declaration."""
    if at < NEAR or tokens[at - NEAR].text not in ("integer", "boolean", "event", ",", "?", "!", ";"):
        return []
    kind = tokens[at - NEAR].text if tokens[at - NEAR].kind == "name" else "integer"
    if tokens[at].text == "[":
        return [f"the size comes first: `[N] {kind} {tokens[at - 1].text}`"]
    return [f"the kind comes first: `integer {tokens[at - 1].text}`"] if tokens[at].text == ":" else []
