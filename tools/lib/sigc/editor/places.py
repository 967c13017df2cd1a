"""Places in a text as an editor counts them: lines from 0, ended by any sign of a line, and characters in units of UTF-16.

A text has a byte a character, as sigc sees it; it is UTF-8 to an editor.
"""
import bisect
import functools
import re


@functools.lru_cache(8)
def lines_of(text: str) -> tuple[list[int], list[int]]:
    """Where the lines of a text begin, and where each of them ends without the sign of its end."""
    ends = list(re.finditer("\r\n|\n|\r", text))
    return [0, *(it.end() for it in ends)], [*(it.start() for it in ends), len(text)]


def position_of(text: str, offset: int) -> dict[str, int]:
    """The place of an offset."""
    begun, _ = lines_of(text)
    line = bisect.bisect_right(begun, offset) - 1
    return {"line": line, "character": units(text[begun[line] : offset])}


def offset_of(text: str, position: dict[str, int]) -> int:
    """The offset of a place: the end of its line where it stands further, and of the text where it has no such line."""
    begun, ends = lines_of(text)
    line = position["line"]
    if line >= len(begun):
        return len(text)
    return begun[line] + bytes_of(text[begun[line] : ends[line]], position["character"])


def changed(text: str, changes: list[dict]) -> str:
    """A text after the changes of an editor, one after another: each of a range, or of the whole where it has none."""
    for it in changes:
        new = bytes_in(it["text"])
        if it.get("range") is None:
            text = new
            continue
        start, end = (offset_of(text, it["range"][side]) for side in ("start", "end"))
        if start > end:
            raise ValueError("a range ends before it begins")
        text = text[:start] + new + text[end:]
    return text


def bytes_in(text: str) -> str:
    """A text of an editor as sigc has it."""
    return text.encode("utf-8", "surrogatepass").decode("latin-1")


def shown(text: str) -> str:
    """A text of bytes as an editor has it."""
    return text.encode("latin-1").decode("utf-8", "replace")


def units(text: str) -> int:
    """How many units of UTF-16 bytes are."""
    return len(shown(text).encode("utf-16-le", "surrogatepass")) // 2


def bytes_of(line: str, count: int) -> int:
    """How many bytes of a line its first units of UTF-16 are."""
    text = shown(line).encode("utf-16-le", "surrogatepass")[: 2 * count].decode("utf-16-le", "replace")
    return min(len(text.encode("utf-8")), len(line))
