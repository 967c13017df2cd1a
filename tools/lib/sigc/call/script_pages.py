"""The man page of a script, made of what the script prints with --help."""
import re

from sigc.call.manual import escaped

SECTIONS = {"positional arguments": "ARGUMENTS", "options": "OPTIONS"}


def page_of(script: str, help_text: str, version: str) -> str:
    """The page of a script: its name, synopsis, description, and options."""
    usage, _, rest = help_text.partition("\n\n")
    description, *sections = re.split(r"^(positional arguments|options):\n", rest, flags=re.M)
    summary = re.split(r"(?<=[.:])\s", description.strip())[0].rstrip(".:").replace("\n", " ")
    head = f'.TH {script.upper()} 1 "" "sigc {version}"\n.SH NAME\n{escaped(script)} \\- {escaped(lowered(summary))}\n'
    synopsis = ".SH SYNOPSIS\n.nf\n" + escaped(usage.removeprefix("usage: ")) + "\n.fi\n"
    found = [head, synopsis, ".SH DESCRIPTION\n", paragraphs(description.strip("\n"))]
    for title, body in zip(sections[::2], sections[1::2]):
        found += [f".SH {SECTIONS[title]}\n", options(body)]
    return "".join(found) + ".SH SEE ALSO\n\\fBsigc\\fR(1)\n"


def lowered(sentence: str) -> str:
    """A sentence as the summary of a page: without a capital at its beginning, unless the first word has more of them."""
    return sentence[:1].lower() + sentence[1:] if not sentence[1:2].isupper() else sentence


def paragraphs(text: str) -> str:
    """Paragraphs; those that are indented keep their lines."""
    found = []
    for part in re.split(r"\n{2,}", text):
        if part.startswith("    "):
            found.append(".PP\n.nf\n" + escaped(part) + "\n.fi\n")
        else:
            found.append(".PP\n" + escaped(part) + "\n")
    return "".join(found)


def options(body: str) -> str:
    """The arguments of a section: each line that is little indented begins one."""
    found = []
    for line in body.split("\n"):
        start = re.match(r"  {0,2}(\S.*?)(?:  +(\S.*))?$", line) if re.match(r" {2,4}\S", line) else None
        if start:
            found.append(f".TP\n\\fB{escaped(start[1])}\\fR\n" + (f"{escaped(start[2])}\n" if start[2] else ""))
        elif line.strip():
            found.append(f"{escaped(line.strip())}\n")
    return "".join(found)
