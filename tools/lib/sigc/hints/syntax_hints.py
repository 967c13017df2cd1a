"""What most likely is wrong where the words of a program cannot go on: beginners' mistakes, each with its mend."""
import itertools
import re

from sigc.hints.around import found_words, unclosed, wanted_words, Around
from sigc.hints.interfaces import INTERFACES
from sigc.hints.near_words import near, Hint
from sigc.hints.other_marks import OTHER_WORDS, closed_comments, comment_hint, strange_byte
from sigc.hints.other_words import WORDS
from sigc.hints.missing_operators import missing_operator
from sigc.hints.signal_words import TAKES, shift, signal_word
from sigc.hints.rewritten import behind_call, call_inside, if_then_else
from sigc.read.editing import Edit
from sigc.read.lexer import KINDS, RESERVED
from sigc.read.syntax import RELATIONS

MEANT = {
    "bool": "boolean", "int": "integer", "nat": "integer", "signal": "event", "mod": "modulo", "rem": "modulo",
    "div": "/", "node": "process", "var": "where", "let": "(|", "tel": "|)", "returns": "!",
}
STEPS = "what goes on step by step is a state: tools/sigc-automaton writes states from a table"
ESTEREL = {
    "present": "there is no `present`: ask a boolean that comes at each instant, by `when B`; an event that does not come cannot be asked",
    "emit": "there is no `emit`: an output has one definition that says when it comes, as `O := when C`",
    "sustain": "there is no `sustain`: an output has one definition that says when it comes, as `O := when C`",
    **dict.fromkeys(("await", "abort", "suspend", "pause", "loop", "every", "trap", "exit", "halt", "weak", "nothing"), STEPS),
}


def of_first_word(text):
    """What a text is whose first word begins no program."""
    word = next(iter(re.findall(r"\A\s*([A-Za-z]+)\b", text)), "")
    if word == "automaton":
        return Hint(["this is a table of states: tools/sigc-automaton writes a process from it"])
    if word in ("module", "node", "function", "fun", "package", "component", "program"):
        return Hint(["a program begins with `process NAME = (? inputs ! outputs)`", "docs/from-lustre.md has Lustre, Esterel, Heptagon and SCADE beside sigc"], OTHER_WORDS)
    return None


# Beginners' mistakes of the syntax. Each looks at a fault, and gives a hint or None.


def other_kind(it):
    if not set(KINDS[:2]) & set(it.fault.wanted) or it.found.kind != "name":
        return None
    word, following = it.found.text, it.piece(1)
    if word in ("constant", "const"):
        lines = ["there are no named constants: write the number, or a parameter of a called process", TAKES.format("named constants")]
        return Hint(lines, "constant-integer-k--5")
    if it.before.text == ";" and following.text in (";", ",", "!", ")"):
        return Hint(["names of one kind are separated by `,`"], "boolean-low-high", [Edit(it.before.start, it.before.end, ",")])
    meant = MEANT.get(word.lower()) if MEANT.get(word.lower()) in KINDS else near(word, KINDS)
    if meant:
        return Hint([f"did you mean `{meant}`?"], "bool-and-int", [Edit(it.found.start, it.found.end, meant)])
    return None


def comma_of_kinds(it):
    if it.before.text == "," and it.found.text in KINDS:
        return Hint(["groups of different kinds are separated by `;`"], "syntax", [Edit(it.before.start, it.before.end, ";")])
    return None


def other_language(it):
    return of_first_word(it.text) if it.at == 0 else None


def program_in_comment(it):
    if it.at == 0 and "process" in it.text[: it.found.start]:
        words = "a comment runs to the next `%`, not to the end of the line: the program stands inside one"
        return [Hint([words], "two-comments-with-a-program-between-them", edits) for edits in (closed_comments(it.text), ())]
    return None


def no_equals(it):
    if it.fault.wanted == ("=",) and it.found.text in ("(", "{", ":=", ":"):
        edit = Edit(it.before.end, it.before.end if it.found.text in "({" else it.found.end, " =")
        return Hint([f"`=` is wanted between the name and the interface: `process {it.before.text} = (? ..`"], "the--of-a-process-is-missing", [edit])
    return None


def no_end(it):
    if it.innermost() == "end" and (it.found.kind == "end" or it.found.text == ";"):
        end = len(it.text.rstrip()) if it.found.kind == "end" else it.found.start
        word = "\nend;" if it.found.kind == "end" else " end"
        return Hint(unclosed(it.fault)[:1], "end-is-missing", [Edit(end, end, word)])
    return None


def no_semicolon(it):
    if ";" in it.fault.wanted and (it.found.kind == "end" or it.found.text == "process") and it.innermost() == ";":
        return Hint(["a process ends with `;`"], "syntax", [Edit(it.before.end, it.before.end, ";")])
    return None


def no_semicolon_of_group(it):
    if ";" in it.fault.wanted and it.innermost() == "end" and it.found.text in ("end", "process", *KINDS):
        return Hint(["each group of locals ends with `;`"], "syntax", [Edit(it.before.end, it.before.end, ";")])
    return None


def lustre_delay(it):
    if it.before.text == "pre" or (it.before.text == "-" and it.found.text == ">") or it.found.text in ("pre", "fby"):
        return Hint(["the previous value of X is `X $ init C`, and C the first one"], "0---pre-n--1")
    return None


def esterel_word(it):
    for piece in (it.before, it.found):
        is_declared = piece.text in [other.text for other in itertools.takewhile(lambda other: other.text != "(|", it.pieces)]
        if piece.kind == "name" and piece.text in ESTEREL and not is_declared:
            return Hint([ESTEREL[piece.text], "docs/from-lustre.md#from-esterel tells what stands for Esterel's words"], OTHER_WORDS)
    if it.found.text == "?" and "an expression" in it.fault.wanted:
        return Hint(["a signal's name is its value: `?` stands before the inputs alone"], OTHER_WORDS)
    return None


def comment_mark(it):
    """A comment of another language before the fault: on its line, or on the line before, where nothing separates them."""
    for place in range(min(it.at + 1, len(it.pieces) - 2), max(-1, it.at - 40), -1):
        one, other = it.pieces[place : place + 2]
        if one.end == other.start and one.text + other.text in ("--", "//", "/*") and one.line >= it.found.line - 1:
            behind = [piece for piece in it.pieces[place:it.at] if piece.line > one.line]
            if not {piece.text for piece in behind} & {"|", "(|", ";"}:
                return comment_hint(it.text, one)
    return None


def other_mark(it):
    pairs = [(it.found, it.piece(1)), (it.before, it.found)]
    for one, other in pairs:
        meant = {"!=": "/=", "<>": "/=", "==": "=", "||": "or", "=<": "<=", "=>": ">=", "**": "*"}.get(one.text + other.text)
        if meant and one.end == other.start:
            words = "not A or B" if one.text + other.text == "=>" and it.found.text == ">" else f"`{meant}`"
            return Hint([f"`{one.text}{other.text}` is written {words} here"], OTHER_WORDS, [Edit(one.start, other.end, meant)])
    return None


def other_word(it):
    for piece in (it.found, it.before):
        meant = MEANT.get(piece.text)
        if piece.kind == "name" and meant and meant not in KINDS:
            return Hint([f"did you mean `{meant}`?"], OTHER_WORDS, [Edit(piece.start, piece.end, meant)])
    return None


def equals_for_definition(it):
    texts = [piece.text for piece in it.pieces[: it.at]]
    begun = max((at for at, text in enumerate(texts) if text in ("|", "(|", ")")), default=-1)
    if "^=" in it.fault.wanted and texts[begun + 2 : begun + 3] == ["="] and it.pieces[begun + 1].kind == "name":
        mark = it.pieces[begun + 2]
        edits = [Edit(mark.start, mark.end, ":=")]
        behind = semicolon_of_equations(it)
        return Hint(["a definition has `:=`, and `=` compares", *(behind.lines if behind else [])], "y--a--1", edits + (behind.edits if behind else []))
    return None


def semicolon_of_equations(it):
    if it.found.text != ";" or it.innermost() != "|)":
        return None
    if it.piece(1).kind == "name" and it.piece(1).text not in RESERVED:
        return Hint(["equations are separated by `|`"], OTHER_WORDS, [Edit(it.found.start, it.found.end, " |")])
    if it.piece(1).text in ("|", "|)"):
        return Hint(["no `;` stands behind an equation"], OTHER_WORDS, [Edit(it.found.start, it.found.end, "")])
    return Hint([*unclosed(it.fault)[:1]], "syntax", [Edit(it.found.start, it.found.start, " |)")])


def bar_twice(it):
    if it.before.text == "|" and it.found.text in ("|", "|)"):
        words = "between two equations stands one `|`" if it.found.text == "|" else "an equation is wanted between `|` and `|)`"
        return Hint([words], "syntax", [Edit(it.before.start, it.before.end, "")])
    return None


def no_bar(it):
    if "|" in it.fault.wanted and it.found.kind == "name" and it.piece(1).text in (":=", "^=") and it.found.text not in RESERVED:
        return Hint(["equations are separated by `|`"], "syntax", [Edit(it.found.start, it.found.start, "| ")])
    return None


def init_of_input(it):
    if it.found.text == "init" and it.innermost() == ")":
        return Hint(["an input has no init: its values come from outside; a constant is a number, or a parameter"], "offset-init-3-as-a-constant")
    return None


def delay_of_two(it):
    if it.before.text == "$" and it.found.kind == "number":
        return Hint(["`$` goes one step back: `(X $ init 0) $ init 0` goes two"], "syntax")
    return None


def chained_relation(it):
    """`A < B < C`, and `A > 0 and < 9`."""
    if it.found.text not in RELATIONS:
        return None
    if "an expression" in it.fault.wanted and it.before.text in ("and", "or") and it.piece(-3).text in RELATIONS:
        left = it.piece(-4)
        return Hint(["a relation has two sides, also behind `and`"], "syntax", [Edit(it.found.start, it.found.start, f"{left.text} ")])
    if "an expression" in it.fault.wanted:
        return None
    words, sides = "relations do not chain: `(A < B) and (B < C)`", [it.piece(step) for step in (-3, -1, 1)]
    is_plain = it.piece(-2).text in RELATIONS and all(piece.kind in ("name", "number") for piece in sides)
    made = f"({it.text[sides[0].start : it.before.end]}) and ({it.text[it.before.start : sides[2].end]})"
    return [Hint([words], "syntax", edits) for edits in ([[Edit(sides[0].start, sides[2].end, made)]] if is_plain else []) + [()]]


def reserved_name(it):
    if "a name" in it.fault.wanted and it.found.text in RESERVED and "an expression" not in it.fault.wanted:
        return Hint([f"`{it.found.text}` is a reserved word, and no name"], "syntax")
    return None


def late_pragmas(it):
    if it.found.text == "pragmas":
        return Hint(["pragmas stand between the interface and the equations"], "syntax")
    return None


def misspelt(it):
    keywords = [word for word in it.fault.wanted if word in RESERVED]
    meant = near(it.found.text, keywords) if it.found.kind == "name" else ""
    return Hint([f"did you mean `{meant}`?"], "syntax", [Edit(it.found.start, it.found.end, meant)]) if meant else None


def open_bracket(it):
    if it.innermost() == ")" and ")" in it.fault.wanted and it.found.text in ("|)", "|", ";", "where", "!", "end", "}"):
        return Hint(unclosed(it.fault)[:1], "syntax", [Edit(it.before.end, it.before.end, ")")])
    return None


def open_end(it):
    return Hint(unclosed(it.fault)[:2], "syntax") if it.found.kind == "end" and it.fault.open else None


MISTAKES = [
    other_language, signal_word, shift, *INTERFACES, *WORDS, other_kind, comma_of_kinds, program_in_comment, no_equals, no_end, no_semicolon, no_semicolon_of_group, lustre_delay, if_then_else, esterel_word,
    comment_mark, other_mark, semicolon_of_equations, bar_twice, equals_for_definition, missing_operator, call_inside, behind_call, no_bar, init_of_input, delay_of_two, other_word,
    chained_relation, late_pragmas, misspelt, reserved_name, open_bracket, open_end,
]


def syntax_hints(text, reader, line, col):
    """The hints at a syntax error, where the reader stops at the place that sigc names."""
    fault = next((it for it in reader.faults if (it.found.line, it.found.col) == (line, col)), None)
    if fault is None:
        return [Hint([], "syntax")]
    around = Around(text, reader.pieces, reader.pieces.index(fault.found), fault, reader.processes)
    wanted = wanted_words(fault)
    said = [f"found {found_words(fault.found)}" + (f"; wanted {wanted}" if wanted else "")]
    found = [hint for rule in MISTAKES for hint in listed_hints(rule(around))]
    return [it._replace(lines=said + it.lines) for it in [*found, Hint([], "syntax")]]


def listed_hints(found):
    """What a rule gives as a list: nothing, a hint, or several."""
    return [] if found is None else [found] if isinstance(found, Hint) else found


def byte_hints(text, line, col):
    if of_first_word(text):
        return [of_first_word(text)]
    lines = text.split("\n")
    return strange_byte(text, sum(len(it) + 1 for it in lines[: line - 1]) + col - 1)
