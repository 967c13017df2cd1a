"""What an editor shows between the words of a program: the kind of each signal where it is defined, and when it comes."""
from sigc.editor import soon

TYPE = 1


def hints_of(document, wanted):
    """The hints in a range, as the language server protocol has them."""
    found = []
    for process in document.reader.processes:
        for name in (left for equation in process.equations for left in equation.lefts):
            if is_inside(document.position(name.end), wanted):
                found += hints_at(document, process, name)
    return found


def hints_at(document, process, name):
    declaration = process.declaration(name.text)
    if declaration is None:
        return []
    place = document.position(name.end)
    found = [{"position": place, "label": f": {declaration.kind}", "kind": TYPE}]
    words = clock_of(document, process, name.text)
    return found + ([{"position": place, "label": words, "kind": TYPE, "paddingLeft": True}] if words else [])


def clock_of(document, process, name):
    """When a signal comes; of a called process only where each of its calls says the same."""
    when = soon.of(document.sigc, document.wider.kernel(document.text))
    found = {when.words(it) for it in document.images_of(process, name)}
    return found.pop() if len(found) == 1 else ""


def is_inside(place, wanted):
    start, end = ((it["line"], it["character"]) for it in (wanted["start"], wanted["end"]))
    return start <= (place["line"], place["character"]) <= end
