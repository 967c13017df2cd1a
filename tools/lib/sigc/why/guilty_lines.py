"""Where the equations may stand that keep a refusal of clocks: few of them, to be tried before all others.

A condition that is forced is one of whose truths something cannot be, and why/reaction_clauses.py says what; a cycle is one of
definitions; else the equations that name the signals of the refusal are taken, and then those around them.
"""
import itertools

from sigc.read.syntax import read, walk
from sigc.why.reaction_clauses import Reactions

MOST_PAIRS, MOST_SETS, MOST_NEAR, FEW = 400, 4, 80, 5


def candidates(expanded, told):
    """Lists of numbers of equations, the likeliest first."""
    found = list(near(expanded, told.names, 2))
    if told.sort == "root":
        found = [[], *found]
    if told.sort in ("forced", "dead"):
        process, places = flat_process(expanded)
        sets = forced(expanded, told, process, places) if told.sort == "forced" else dead(expanded, process)
        found = [it for tags in sets for it in (sorted(tags), around(expanded, tags))]
    elif told.sort == "cycle":
        found = [*circles(expanded, told.names[0]), *found]
    yield from (it for at, it in enumerate(found) if it not in found[:at] and len(it) < len(expanded.equations))


def flat_process(expanded):
    """The expanded program as one that was read, and the places of its words in the source."""
    text, places = expanded.text(range(len(expanded.equations)))
    return read(text).processes[0], places


def singles(expanded, names):
    return [at for at, it in enumerate(expanded.equations) if it.names & set(names)]


def near(expanded, names, steps):
    """Each equation that names one of these signals and each two, where these are few, then all, then those around them."""
    found = singles(expanded, names)
    if len(found) <= FEW:
        yield from ([it] for it in found)
        yield from (list(it) for it in itertools.combinations(found, 2))
    yield found
    for _ in range(steps):
        found = around(expanded, found)
        yield found


def around(expanded, kept):
    """Equations, and those that name one of their signals, where these are not too many."""
    names = set().union(*(expanded.equations[it].names for it in kept)) if kept else set()
    found = singles(expanded, names)
    return found if len(found) <= MOST_NEAR else sorted(kept)


def forced(expanded, told, process, places):
    """Sets of equations with which a condition has one truth alone, by itself or beside another condition."""
    reactions = Reactions(process)
    for key in keys_of(expanded, told.names[0], process, places, reactions):
        comes, truth = reactions.comes[key], reactions.truth[key]
        sets = [reactions.refuted(comes, it) for it in (truth, -truth)]
        sets = [it for it in sets if it] or list(beside(reactions, process, key))
        yield from sorted(sets, key=len)[:MOST_SETS]


def keys_of(expanded, name, process, places, reactions):
    """The keys of a signal, or of the expressions at the place of an intermediate."""
    if name in expanded.short:
        return [expanded.short[name]] if expanded.short[name] in reactions.truth else []
    place = name.rpartition("#")[2].split(":")
    if len(place) != 2 or not all(it.isdigit() for it in place):
        return []
    nodes = (it for equation in process.equations for whole in equation.expressions() for it in walk(whole))
    return [it.at for it in nodes if it.at in reactions.truth and place_of(it, places) == tuple(map(int, place))]


def place_of(node, places):
    word = places.get((node.at.line, node.at.col))
    return (word.line, word.col) if word else None


def beside(reactions, process, key):
    """The same beside each other condition, whatever that one is."""
    quick = Reactions(process).merge()
    for other in [it for it in reactions.truth if it != key][:MOST_PAIRS]:
        for one, two in itertools.product((1, -1), (1, -1)):
            if cannot(quick, key, one, other, two) and not cannot(quick, other, two):
                found = reactions.refuted(*literals(reactions, key, one, other, two))
                if found:
                    yield found


def literals(reactions, *keys_and_signs):
    """That signals come and have these truths."""
    for key, sign in zip(keys_and_signs[::2], keys_and_signs[1::2]):
        yield from (reactions.comes[key], sign * reactions.truth[key])


def cannot(reactions, *keys_and_signs):
    return reactions.refuted(*literals(reactions, *keys_and_signs), branches=0) is not None


def dead(expanded, process):
    """Sets of equations with which no signal of theirs ever comes."""
    reactions = Reactions(process)
    found = {key: reactions.refuted(it) for key, it in reactions.comes.items() if isinstance(key, str)}
    for tags in sorted((it for it in found.values() if it), key=len)[:MOST_SETS]:
        whole, size = set(tags), 0
        while len(whole) > size:
            size = len(whole)
            names = set().union(*(expanded.equations[it].names for it in whole))
            whole = whole.union(*(found.get(expanded.short[it]) or () for it in names))
        yield whole


def circles(expanded, name):
    """The shortest circle of definitions through a signal."""
    made = {left: at for at, it in enumerate(expanded.equations) for left in it.lefts}
    known, rest = {name: None}, [name]
    for it in rest:
        equation = expanded.equations[made[it]] if it in made else None
        for other in sorted(equation.names) if equation else ():
            if other == name and not is_delay(equation):
                path = [made[it]]
                while known[it] is not None:
                    it = known[it]
                    path.append(made[it])
                yield sorted(path)
                return
            if other not in known and not is_delay(equation):
                known[other] = it
                rest.append(other)


def is_delay(equation):
    """Whether an equation is one delay."""
    words = [it.text for it in equation.words]
    return words[1:2] == [":="] and words[3:4] == ["$"]
