"""What most likely is wrong with a line of a flow file, an event file or a trace file that sigc refuses."""
import re

from sigc.hints.near_words import near

PACE = re.compile(r"pace_[1-9][0-9]*")
COMMENTS = ("%", "#", "//", "--", ";")
FILES = {"run": ("flow",), "play": ("flow", "event"), "judge": ("trace",)}


def words_with_columns(line):
    return [(it.group(), it.start() + 1) for it in re.finditer(r"[^ \t\r]+", line)]


def hint_of_file(sort, said, text, line, col, signals, is_paced=False, others=()):
    """Lines of words for a refusal of a file; `signals` has the kinds of those that the file may name, `is_paced` says
    whether --pace adds inputs, and `others` has the other names of the program, each with what it is."""
    lines = text.split("\n")
    row = lines[line - 1] if 1 <= line <= len(lines) else ""
    if row.startswith("\xef\xbb\xbf"):
        return ["the file begins with a byte order mark: save it without one"]
    if row.lstrip().startswith(COMMENTS) or said == "bad width" and re.search(r"[%#]", row):
        return [f"a file of {sort}s has no comments"]
    if said == "bad value":
        return value_hint(sort, lines, row, line, col, signals)
    if said == "not an input":
        return input_hint(row, signals, is_paced, dict(others))
    if said == "bad line":
        return bad_line(sort, row, signals)
    if said == "bad header":
        return header_hint(row, signals)
    if said == "bad width":
        header = next((it for it in lines if it.split()), "")
        return [f"{len(row.split())} words, and the header has {len(header.split())} names; absent is `.`", *comma_hint(row)]
    if said == "out of range":
        return ["an integer is from -9223372036854775808 to 9223372036854775807"]
    if said == "bad event":
        return event_hint(row)
    return []


def comma_hint(row):
    return ["words are separated by blanks, not by `,`"] if re.search(r"[,;]", row) else []


def kind_at(sort, lines, row, line, col, signals):
    """The kind that the word in a column should have."""
    if sort == "flow":
        name = (row.split() or [""])[0]
        return signals.get(name) or ("boolean" if PACE.fullmatch(name) else None)
    header = next((it for it in lines if it.split()), "").split()
    at = [it for _, it in words_with_columns(row)].index(col) if col in [it for _, it in words_with_columns(row)] else 0
    return signals.get(header[at]) if at < len(header) else None


def value_hint(sort, lines, row, line, col, signals):
    word = next((it for it, at in words_with_columns(row) if at == col), "")
    kind = kind_at(sort, lines, row, line, col, signals)
    if comma_hint(word):
        return comma_hint(word)
    if word in ("=", ":", ":=") and sort == "flow":
        return [f"the name stands alone, without `{word}`"]
    if word in signals and sort == "flow":
        return ["each input has a line of its own: its name, and then its values"]
    if word == "." and sort == "flow":
        return ["a flow has the values alone, one after another: absences are left out"]
    if word in ("-", "_") and sort == "trace":
        return ["absent is written `.`"]
    if "*" in word and sort == "flow":
        return repeated_hint(lines)
    if kind == "boolean":
        return ["a boolean is written `true` or `false`"]
    if kind == "event":
        return ["an event is `true` where it comes" + ("" if sort == "flow" else ", and `.` where it does not")]
    if kind == "integer":
        return ["an integer is digits, with a `-` before them where it is negative"]
    return []


def repeated_hint(lines):
    """What is wrong with a word v*k."""
    is_second = next((it.split() for it in lines if it.split()), []) == ["flows", "2"]
    return [f"`v*k` stands for k values v{': v is a value of the input, and k from 1 to 4000000' if is_second else ' where the first line of the file is `flows 2`'}"]


def input_hint(row, signals, is_paced, others):
    name = (row.split() or [""])[0]
    if name in others:
        return [f"{name} is {'an' if others[name][0] in 'aeio' else 'a'} {others[name]}: a flow file has the inputs alone, {', '.join(signals)}"]
    if PACE.fullmatch(name):
        return ["--pace adds fewer inputs to this program, none where it has a root" if is_paced else f"{name} is an input of a program without a root that is run with --pace"]
    meant = near(name, list(signals))
    return [f"did you mean `{meant}`?"] if meant else ["the inputs are " + ", ".join(signals)] if signals else []


def bad_line(sort, row, signals):
    strange = re.search(r"[^\t -~\r]", row)
    if strange:
        is_blank = row[strange.start() :].startswith("\xc2\xa0")
        return [f"the byte in column {strange.start() + 1} is no ASCII" + (": a blank of another alphabet" if is_blank else "")]
    first = (row.split() or [""])[0]
    if first.rstrip(":=,") in signals:
        return [f"the name stands alone, without `{first[len(first.rstrip(':=,')):]}`"]
    return [*comma_hint(row), "a line is an input's name and then its values"] if sort == "flow" else comma_hint(row)


def header_hint(row, signals):
    words = row.split()
    missing = [it for it in signals if it not in words]
    strange = [it for it in words if it not in signals]
    found = [f"it names {', '.join(strange[:4])}, which the program does not have"] if strange else []
    found += [f"it does not name {', '.join(missing[:6])}{' and others' if len(missing) > 6 else ''}"] if missing else []
    found += ["it names a signal twice"] if len(words) != len(set(words)) else []
    return [*found, "tools/sigc-header PROGRAM prints the header", *comma_hint(row)]


def event_hint(row):
    words = row.split()
    meant = near(words[0], ["act", "look"]) if words else ""
    if meant:
        return [f"did you mean `{meant}`?"]
    return ["a line is `act K` or `look K`, K being the number of an actor"]
