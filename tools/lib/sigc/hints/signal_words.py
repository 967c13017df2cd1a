"""Words and marks of full SIGNAL that the kernel does not have, and that tools/sigc-expand takes; and shifts of other languages."""
import re

from sigc.hints.around import Around
from sigc.hints.near_words import Hint
from sigc.read.editing import Edit

ENTRY = "marks-and-words-of-other-languages"
TAKES = "tools/sigc-expand takes {}, and writes the program without it"
WORDS = {
    "assert": ("`assert`", "here a property is proved or watched: tools/sigc-prove P.sig --never 'not (A > 0)', tools/sigc-run --watch 'A > 0'"),
    "use": ("`use`", "a program of sigc is one file"),
    "include": ("`use` for the processes of another file", "there is no `include`: a program is one file"),
    "import": ("`use` for the processes of another file", "there is no `import`: a program is one file"),
    "count": ("`count`", "a counter of A is `N := (ZN + 1) when ^A default ZN`, with `ZN := N $ init 0` and a clock for N"),
    "after": ("`after`", "a counter that begins anew at B is `N := (0 when B) default (ZN + 1)`, with `ZN := N $ init 0` and a clock for N"),
    "from": ("`from`", "a counter that begins anew at B is `N := (1 when B) default (ZN + 1)`, with `ZN := N $ init 0` and a clock for N"),
    "case": ("`case`", "several cases are `(X when A) default (Y when B) default Z`"),
    "type": ("enumerations", "there are no types of your own: a state is an integer"),
    "enum": ("enumerations", "there are no types of your own: a state is an integer"),
}
SHIFT = re.compile(r"(>>|<<)\s*([0-9]{1,2})\b")


def word_hint(word: str) -> Hint | None:
    """The hint at a word of full SIGNAL; None at any other."""
    if word not in WORDS:
        return None
    what, here = WORDS[word]
    return Hint([here, TAKES.format(what)], ENTRY)


def signal_word(it: Around) -> Hint | None:
    """Such a word at a fault or just before it, where the program has no signal of its name."""
    for piece in (it.found, it.before):
        is_own = piece.text in it.kinds() or any(process.name.text == piece.text for process in it.processes)
        hint = word_hint(piece.text) if piece.kind == "name" and not is_own else None
        if hint:
            return hint
    return None


def shift(it: Around) -> list[Hint] | Hint | None:
    """`A >> 2` and `A << 2`."""
    one, other = (it.before, it.found) if it.before.end == it.found.start else (it.found, it.piece(1))
    if one.text + other.text not in ("<<", ">>") or one.end != other.start:
        return None
    found = SHIFT.match(it.text, one.start)
    mark, words = ("*", "to the left is a product") if one.text == "<" else ("/", "to the right is a quotient, which goes toward 0, so -1 / 2 is 0")
    edits = [Edit(found.start(), found.end(), f"{mark} {2 ** int(found[2])}")] if found and int(found[2]) < 63 else []
    example = f"{mark} {2 ** int(found[2])}" if edits else f"{mark} 4"
    lines = [f"there are no shifts: one {words}, as `A {example}`"]
    return [Hint(lines, ENTRY, edits), Hint(lines, ENTRY)] if edits else Hint(lines, ENTRY)


def of_mark(text: str, start: int) -> Hint | None:
    """What `#` is before a name: `#RED`, a value of an enumeration, and `#A after B`, a counter; None of anything else."""
    found = re.compile(r"#([A-Za-z]\w*)(\s+(?:after|from)\b)?").match(text, start)
    if not found or found[1] in ("include", "define", "ifdef", "ifndef", "pragma") or not is_operand(text, start):
        return None
    if found[2]:
        return Hint([WORDS["after"][1], TAKES.format("`#A after B`")], ENTRY)
    lines = ["there are no enumerations: a state is an integer, whose values a comment names", TAKES.format(f"enumerations and values as `#{found[1]}`")]
    return Hint(lines, ENTRY)


def is_operand(text, start):
    """Whether a value may stand at a place: behind an operator, a bracket or a comma on its line."""
    line = text[text.rfind("\n", 0, start) + 1 : start].rstrip()
    return bool(re.search(r"(:=|[=<>(,+*/-]|\b(?:default|when|and|or|xor|not|init|cell|in))$", line))
