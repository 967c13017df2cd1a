"""Marks of other languages: comments, operators and bytes that sigc does not have, each with what stands for it."""
import re

from sigc.hints.near_words import Hint
from sigc.hints.signal_words import of_mark, TAKES
from sigc.read.editing import Edit

OTHER_WORDS = "marks-and-words-of-other-languages"
KIND_WORDS = {"integer": "integer", "int": "integer", "boolean": "boolean", "bool": "boolean", "event": "event"}
KIND_BEHIND = re.compile(r"([A-Za-z]\w*(?:\s*,\s*[A-Za-z]\w*)*)\s*:\s*(" + "|".join(KIND_WORDS) + r")\b")
COMMENT = "a comment is written `% .. %`"
ARRAYS = "there are no arrays: each element is a signal, or what is done for each is a process that is called"
STRANGE = {
    "~": "`not` is written in letters",
    "#": COMMENT,
    "_": "a name begins with a letter",
    '"': "a label ends on its line, and stands in a pragma alone",
    "'": 'a label is written in `"`',
    "\\": "not equal is `/=`",
    "@": "no token has this mark",
    "[": ARRAYS,
    "]": ARRAYS,
}


def comment_hint(text, mark):
    """A comment of another language that begins at a piece, and those of its kind that begin elsewhere."""
    sign = text[mark.start : mark.start + 2]
    end = line_end(text, mark.start)
    if sign == "/*" and "*/" in text[mark.start :]:
        end = text.index("*/", mark.start) + 2
    spans = {mark.start: end}
    if sign != "/*":
        for it in re.finditer(rf"{re.escape(sign)}[ \t]", text):
            spans.setdefault(it.start(), line_end(text, it.start()))
    edits, last = [], 0
    for start, end in sorted(spans.items()):
        if start >= last:
            words = text[start + 2 : end].replace("%", "").removesuffix("*/").strip()
            edits.append(Edit(start, end, f"% {words} %"))
            last = end
    line, col = mark.line, mark.col
    return Hint([f"{COMMENT}: `{sign}` stands at {line}:{col}"], OTHER_WORDS, edits, ((line, col, "the comment begins here"),))


def closed_comments(text):
    """The edits that close each comment at the end of its line, where a line has one `%` alone."""
    edits = []
    for it in re.finditer(r"(?m)^[^%\n]*%[^%\n]*$", text):
        end = it.start() + len(it[0].rstrip())
        edits.append(Edit(end, end, " %"))
    return edits


def line_end(text, start):
    end = text.find("\n", start)
    return len(text) if end < 0 else end


def strange_byte(text, start):
    """The hints at a byte that begins no token."""
    rest, line_begun = text[start:], text.rfind("\n", 0, start) + 1
    if rest.startswith("\xef\xbb\xbf"):
        return [Hint(["the file begins with a byte order mark: save it without one"], "unexpected-byte", [Edit(start, start + 3, "")])]
    if rest[0] == ":":
        return colon(text, start)
    if rest[0] == "&":
        edit = Edit(start, start + (2 if rest.startswith("&&") else 1), "and")
        return [Hint(["`and` is written in letters, and is for booleans"], OTHER_WORDS, [edit])]
    if rest[0] == ".":
        is_number = text[start - 1 : start].isdigit() or rest[1:2].isdigit()
        words = "there are no numbers but integers: count in parts, as tenths" if is_number else "there are no names with a dot: each signal is one name"
        return [Hint([words])]
    if rest[0] == "~":
        return [Hint([STRANGE["~"]], OTHER_WORDS, [Edit(start, start + 1, "not ")])]
    if rest[0] == "#" and of_mark(text, start):
        return [of_mark(text, start)]
    if rest[0] == "#" and (start == 0 or text[start - 1] in " \t\n"):
        edit = Edit(start, line_end(text, start), f"% {text[start + 1 : line_end(text, start)].replace('%', '').strip()} %")
        return [Hint([COMMENT], OTHER_WORDS, [edit])]
    if rest[0] in "[]" and text[line_begun:start].count('"') % 2 == 0 or rest[0] in STRANGE:
        more = [TAKES.format("arrays")] if rest[0] in "[]" else []
        return [Hint([STRANGE[rest[0]], *more])]
    return [Hint(["only ASCII stands outside comments"])] if rest[0] > "~" else []


def colon(text, start):
    """A `:` that no `=` follows at once."""
    behind = [it for it in KIND_BEHIND.finditer(text) if text.count("%", 0, it.start()) % 2 == 0]
    if any(it.start() < start < it.end() for it in behind):
        edits = [Edit(it.start(), it.end(), f"{KIND_WORDS[it[2]]} {it[1]}") for it in behind]
        names = next(it for it in behind if it.start() < start < it.end())
        return [Hint([f"the kind comes first: `{KIND_WORDS[names[2]]} {names[1]}`"], OTHER_WORDS, edits)]
    if "?" in text[text.rfind("\n", 0, start) + 1 : start].replace("(?", ""):
        return [Hint(["there is no `? :`: `(X when B) default Y` is X where B is true, and else Y"], "if-then-else")]
    found = re.compile(r"::=|:\s+=|:").match(text, start)
    return [Hint(["a definition has `:=`"], "y--a--1", [Edit(start, found.end(), ":=")])]
