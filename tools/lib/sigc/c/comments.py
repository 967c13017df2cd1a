"""Texts as they may stand in a comment of C."""
import re


def commented(text: str) -> str:
    """A line of printable ASCII in which nothing ends or begins a comment, goes on in the next line, or is a trigraph."""
    text = "".join(it if " " <= it <= "~" and it != "\\" else "_" for it in text)
    text = re.sub(r"\*(?=/)|/(?=\*)", r"\g<0> ", text)
    return re.sub(r"\?(?=\?)", "? ", text)
