#!/usr/bin/env python3
"""The table of crates of docs/architecture.md: of each crate the first sentence of the head of its src, of a long one what
stands before a colon or a semicolon, under the headings of crates.txt.

    tests/crates.py            prints the table
    tests/crates.py --write    puts it into the page
"""
import os
import re
import sys

TOP = os.path.dirname(os.path.dirname(os.path.realpath(__file__)))
PAGE = f"{TOP}/docs/architecture.md"
BEGIN, END = "<!-- made by tests/crates.py -->\n", "<!-- end -->\n"
LONGEST = 96


def read(path):
    with open(path, encoding="utf-8") as it:
        return it.read()


def groups():
    """The headings of crates.txt, each with the crates below it, in order."""
    found = [("", [])]
    for line in read(f"{TOP}/crates.txt").splitlines()[1:]:
        if line.startswith("#"):
            found.append((line.removeprefix("#").strip(), []))
        elif line:
            found[-1][1].append(re.split(r"[\s:]", line, maxsplit=1)[0])
    return [it for it in found if it[1]]


def head(crate):
    """What the head of a crate says of it."""
    found = [f"{TOP}/crates/{crate}/src/{it}.rt" for it in ("lib", "main")]
    text = read(next(it for it in found if os.path.isfile(it)))
    lines = re.match(r"(?://! ?.*\n)*", text)[0].replace("//!", "").split()
    sentence = re.split(r"\.(?: |$)", " ".join(lines), maxsplit=1)[0].replace(" (`specs/`)", "")
    return sentence if len(sentence) <= LONGEST else re.split("[:;] ", sentence, maxsplit=1)[0]


def table():
    """The table as Markdown."""
    lines = ["| Crate | Is |", "|---|---|"]
    for heading, names in groups():
        lines += [f"| **{heading}** | |"] if heading else []
        lines += [f"| `{it}` | {head(it).replace('|', chr(92) + '|')} |" for it in names]
    return "".join(f"{it}\n" for it in lines)


def parts(text):
    """The page before the table, the table, and the page behind it."""
    before, _, rest = text.partition(BEGIN)
    made, _, behind = rest.partition(END)
    return before, made, behind


def is_right():
    """Whether the page has the table that the heads make."""
    return parts(read(PAGE))[1] == table()


def main():
    if sys.argv[1:] != ["--write"]:
        print(table(), end="")
        return
    before, _, behind = parts(read(PAGE))
    with open(PAGE, "w", encoding="utf-8") as it:
        it.write(f"{before}{BEGIN}{table()}{END}{behind}")


if __name__ == "__main__":
    main()
