"""The links of a program in an editor: from what sigc refuses to its entry of docs/errors.md."""
from sigc.hints import gathered
from sigc.hints.entries import PAGE, entry_of


def links_of(document):
    return [link_of(document, it) for it in document.refusals()]


def link_of(document, refusal):
    hint = gathered.hint_of(document.text, document.reader, refusal)
    entry = hint.entry or entry_of(refusal.text)
    return {
        "range": document.range_of(refusal.line or 1, refusal.col or 1),
        "target": PAGE.as_uri() + (f"#{entry}" if entry else ""),
        "tooltip": f"docs/errors.md: {refusal.text}",
    }
