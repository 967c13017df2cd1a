"""Flow files as lists of values, and values as sigc writes them. docs/formats.md has the format."""
import itertools

from sigc.read import lexer


def values_of(words):
    """The values of the words of a line of version 2: a word v*k stands for k values v."""
    for word in words:
        if "*" in word:
            value, _, times = word.partition("*")
            yield from itertools.repeat(value, int(times))
        else:
            yield word


def read_flows(text, inputs):
    """The values of each input in a flow file that sigc takes: a map from names to lists of words."""
    flows = {it: [] for it in inputs}
    lines = [words for words in (line.split() for line in text.split("\n")) if words]
    is_counted = bool(lines) and lines[0] == ["flows", "2"] and "flows" not in flows
    try:
        for name, *words in lines[is_counted:]:
            flows[name] += values_of(words) if is_counted else words
    except (KeyError, ValueError):
        raise lexer.Unreadable("this is no flow file of the program") from None
    return flows


def normal(value):
    """A value as sigc writes it, without leading zeros."""
    return value if value in ("true", "false") else str(int(value))
