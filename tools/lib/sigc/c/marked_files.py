"""Files of C with marks: a mark like @title@ is replaced by a program's own text."""
import os
import re

FOLDER = os.path.dirname(os.path.realpath(__file__))
MARK = re.compile(r"@([a-z_]+)@")
FUNCTION = re.compile(r"static (?:inline )?int (\w+)")


def filled(file: str, **texts: object) -> str:
    """The text of a file of this folder with its marks filled in; without texts, the file as it is."""
    with open(f"{FOLDER}/{file}", encoding="ascii") as opened:
        text = opened.read()
    return MARK.sub(lambda mark: str(texts[mark[1]]), text) if texts else text


def functions(file: str, names: set[str]) -> str:
    """The functions of a file that have one of these names, below the comment that the file begins with."""
    head, *found = re.split(r"\n(?=static )", f"\n{filled(file)}")
    used = [text for text in found if (start := FUNCTION.match(text)) and start[1] in names]
    return head + "".join(f"\n{text}" for text in used) if used else ""
