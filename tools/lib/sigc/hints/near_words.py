"""A hint at what is wrong in a text, and the word that was most likely meant."""
import difflib
from typing import NamedTuple


class Hint(NamedTuple):
    """What is told of a refusal. Where there are edits, the last line tells their mend; places have a line, a column and
    words each, where the mistake stands elsewhere than sigc's place."""

    lines: list
    entry: str = ""
    edits: tuple = ()
    places: tuple = ()


LOOKS = str.maketrans("OIl", "011")


def near(word, words):
    """The one of these words that a misspelt one most likely means, empty where none is near."""
    alike = [it for it in words if it != word and (it.lower() == word.lower() or it.translate(LOOKS) == word.translate(LOOKS))]
    found = alike or difflib.get_close_matches(word, [it for it in words if it != word], 1, 0.6 if len(word) > 2 else 0.9)
    return found[0] if found else ""
