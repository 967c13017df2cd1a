"""The entries of docs/errors.md, by the texts of sigc's lines."""
import pathlib
import re

from sigc.places import TOP

PAGE = pathlib.Path(TOP) / "docs" / "errors.md"
# Where the text of a line is one of these, the entry of docs/errors.md is this one; X is any name.
ENTRIES = [
    (r"program longer than .*", "program-longer-than-1048576-bytes"),
    (r"unknown name .*", "unknown-name-x"),
    (r".* is declared twice", "x-is-declared-twice"),
    (r"input .* is defined", "input-x-is-defined"),
    (r".* is defined twice", "x-is-defined-twice"),
    (r".* is not defined", "x-is-not-defined"),
    (r"bad call of .*", "bad-call-of-x"),
    (r"recursive call of .*", "recursive-call-of-x"),
    (r"no root: .*", "no-root-x-and-y-are-independent"),
    (r"clock of .* is not determined", "clock-of-x-is-not-determined"),
    (r"condition .* is forced", "condition-x-is-forced"),
    (r"cycle through .*", "cycle-through-x"),
    (r"longer than 67108864 bytes", "f-longer-than-67108864-bytes"),
    (r"not found", "f-not-found"),
    (r"read failed", "f-read-failed"),
    (r"bad image .*", "f-bad-image-at-byte-n"),
    (r"operation \d+ is not sound", "f-operation-n-is-not-sound"),
    (r"more than (\d+) (cells|values|events)", r"f-more-than-\1-\2"),
    (r"(bad line|bad header|bad width|not an input|bad event)", r"fl-\1"),
    (r"(bad value|out of range)", r"flc-\1"),
    (r"instant \d+ breaks equation \d+", "instant-i-breaks-equation-e"),
    (r"name .* is taken by a pace", "name-x-is-taken-by-a-pace"),
    (r"overflow after .*", "overflow-at-lc"),
    (r"division by zero after .*", "division-by-zero-at-lc"),
    (r"(.*)", r"\1"),
]


def entry_of(text):
    """The heading of docs/errors.md for a text."""
    for pattern, entry in ENTRIES:
        found = re.fullmatch(pattern, text)
        if found:
            return found.expand(entry).replace(" ", "-")
    return ""


def anchor(heading):
    """The name under which a heading of a page is found."""
    return re.sub(r"[^\w\- ]", "", heading.lower()).replace(" ", "-")
