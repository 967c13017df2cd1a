"""The words that pages do not use, each with what to write instead: those of a translated English, and private names for common things.

Code, programs, commands and what they print are exempt: fences, indented blocks and words in backquotes are not read. So are the
definitions and contracts that a page quotes. PAGES_LEFT lists the pages that still have such words.
"""
import re

INSTEAD = {
    r"behind": "after",
    r"(?:is|are) wanting|want of": "is missing, out of",
    r"mend(?:s|ed|ing)?": "fix",
    r"tells|told": "reports, says, prints",
    r"asks|asked": "reads, checks, queries, needs",
    r"guilty": "the equations responsible",
    r"hand(?:s|ed)? (?:on|over|in)": "pass, send, publish",
    r"reckon(?:s|ed|ing)?": "computed, estimated",
    r"dear(?:er|est)?": "expensive",
    r"crowds?": "many threads",
    r"(?:is|are|what is) so(?= *[.,;:)])": "is true, holds",
    r"from nothing": "from scratch",
    r"on call": "on request, not in the gate",
    r"sets? apart": "separately",
    r"(?:stands?|lies?) in(?! for)": "is in",
    r"(?:give|gives|given|gave) back": "return",
    r"in a line more": "on an extra line",
    r"nothing beside": "nothing else running",
    r"what of": "the part of",
}
ODD = re.compile(r"\b(?:" + "|".join(f"(?:{words})" for words in INSTEAD) + r")\b", re.I)
# Pages that nobody has gone through yet.
PAGES_LEFT = {
    "docs/DECISIONS.md", "docs/architecture.md", "docs/proofs.md", "docs/threads.md", "docs/top-call.md",
}


def prose(text: str) -> list[str]:
    """The lines of a page with its code, and the targets of its links, blanked."""
    text = re.sub(r"^( *)```.*?^ *```$", lambda fence: re.sub(r"[^\n]", "", fence[0]), text, flags=re.M | re.S)
    text = re.sub(r"^    .*$", "", text, flags=re.M)
    text = re.sub(r"^>.*$", "", text, flags=re.M)
    return re.sub(r"`[^`\n]*`|\]\([^)\n]*\)", " ", text).split("\n")


def says_for_whom(text: str) -> bool:
    """Whether the first paragraph of a page, below its heading, says for whom the page is."""
    first = next((line for line in text.split("\n") if line.strip() and not line.startswith("#")), "")
    return re.match(r"(?:This page is for|For) ", first) is not None


def odd_words(text: str) -> list[tuple[int, str, str]]:
    """The lines of a page with such words: line, word, what to write instead."""
    found = []
    for number, line in enumerate(prose(text), 1):
        for word in ODD.findall(line):
            instead = next(better for words, better in INSTEAD.items() if re.fullmatch(words, word, re.I) or re.match(words, word, re.I))
            found.append((number, word, instead))
    return found
