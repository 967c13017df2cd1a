"""How the scripts show a place of a text: its line, or the part of a long line around it, with a caret."""
import re

from sigc.read.editing import changed_lines

WIDTH = 100


def printable(text):
    return re.sub(r"[^\t -~]", ".", text)


def window(text, col):
    """A line that is too long as the part around a column, and the column in it."""
    if len(text) <= WIDTH:
        return text, col
    first = max(0, min(col - 1 - WIDTH // 2, len(text) - WIDTH))
    part = text[first : first + WIDTH]
    head, tail = ("..." if first else ""), ("..." if first + WIDTH < len(text) else "")
    return head + part + tail, col - first + len(head)


def pointed(text, line, col):
    """A line of a text with a caret under the column; nothing where the text has no such line."""
    lines = text.split("\n")
    if not text or not 1 <= line <= len(lines):
        return ""
    shown, at = window(printable(lines[line - 1].rstrip("\r")), col)
    blanks = "".join("\t" if it == "\t" else " " for it in shown[: at - 1]).ljust(at - 1)
    return f"{line:5} | {shown}\n      | {blanks}^\n"


def placed(path, line, col, word, said, text=""):
    """A line as the problem matchers of editors read it, with its place in the text below it."""
    return f"{path}:{line}:{col}: {word}: {said}\n{pointed(text, line, col)}"


def changes(old, new):
    """The lines that differ, with `-` those of the old text and with `+` those of the new one."""
    return "".join(f"{number:5} {sign} {printable(line)}\n" for sign, number, line in changed_lines(old, new))

