"""How many signals a kernel has as sigc counts them, and what needs the most of them."""
from sigc.expand.messages import Refused
from sigc.expand.terms import Term
from sigc.read import files_read

MOST_SIGNALS = 512
# Signals of the kernel's own that an operator makes beside that of its result.
BESIDE = {"^+": 2, "^*": 2, "^-": 4, "cell": 4}
SHOWN = 6
WIDTH = 70


def signals_of(term: Term, is_top: bool) -> int:
    """The signals that an expression makes; the top operator of a definition defines the signal itself."""
    found, work = 0, [(term, is_top)]
    while work:
        it, is_first = work.pop()
        if it.op not in ("name", "const"):
            found += BESIDE.get(it.op, 0) + (not is_first)
            work += [(part, False) for part in it.parts]
    return found


def counted(signals: dict, equations: list) -> tuple[int, dict]:
    """The signals of a kernel, and how many each place of the text makes."""
    places: dict = {}
    for it in signals.values():
        places[it.at.place] = places.get(it.at.place, 0) + 1
    for name, right, at in equations:
        made = signals_of(right, True) if name is not None else sum(signals_of(it, False) for it in right)
        places[at.place] = places.get(at.place, 0) + made
    return sum(places.values()), places


def too_many(total: int, places: dict, file: str) -> Refused:
    """What is said of a kernel that has too many signals."""
    lines: dict = {}
    for place, made in places.items():
        lines[place.file, place.line] = lines.get((place.file, place.line), 0) + made
    most = sorted(lines.items(), key=lambda it: -it[1])[:SHOWN]
    told = [f"{name}:{line} needs {made}: {source_line(name, line)}" for (name, line), made in most]
    return Refused(None, f"more than {MOST_SIGNALS} signals", f"{file} needs {total}, by the lines that need most:", *told)


def source_line(file: str, line: int) -> str:
    """A line of the user's text, cut where it is long."""
    try:
        found = files_read.read_text(file, files_read.PROGRAM_BYTES).split("\n")[line - 1].strip()
    except (OSError, IndexError):
        return ""
    return found if len(found) <= WIDTH else found[: WIDTH - 2] + ".."
