"""What a mend chooses that nothing in the text says: first values, values where something does not come, and when a constant comes."""
import re

from sigc.read.editing import differences

INIT = re.compile(r"(\w+) \$ init (-?\w+)|\binit (-?\w+)")
FILLED = re.compile(r"default \((-?\w+) when \^")
CONSTANT = re.compile(r"\((-?\d+|true|false) when \^(\w+)\)")


def choices(old: str, new: str) -> list[str]:
    """The choices of a mend, in words, each once."""
    found, text = [], " ".join(it.text for it in differences(old, new))
    filled = {it[1] for it in FILLED.finditer(text) if is_new(it, old, new)}
    found += [f"with this, {value} stands where nothing came: write another value if you mean it" for value in sorted(filled)]
    chosen = [it for it in CONSTANT.finditer(text) if is_new(it, old, new) and it[1] not in filled]
    found += [f"with this, {it[1]} comes wherever {it[2]} does: write the condition if you mean one" for it in chosen]
    firsts = [it[2] or it[3] for it in INIT.finditer(text) if is_new(it, old, new) and not (it[1] and it[0] in old)]
    found += [f"with this, the first value is {value}: write another one if you mean it" for value in firsts]
    return list(dict.fromkeys(found))


def is_new(found: re.Match, old: str, new: str) -> bool:
    """Whether the new text has what was found more often than the old one."""
    return new.count(found[0]) > old.count(found[0])
