"""Which signals of outside a body defines."""
from sigc.expand.tree import Automaton, Block, Case, Definition, Iteration


def defined_in(body) -> dict[str, bool]:
    """The names on left sides of a body, without those that it declares itself, in their order; and whether one stands without an index."""
    found: dict[str, bool] = {}
    if isinstance(body, Definition):
        for it in body.lefts:
            found[it.name] = found.get(it.name, False) or not it.indices
    elif isinstance(body, Automaton):
        found[body.name] = True
    for part in parts_of(body):
        for name, is_bare in defined_in(part).items():
            found[name] = found.get(name, False) or is_bare
    if isinstance(body, Block):
        for it in body.locals.signals:
            found.pop(it.name, None)
    return found


def parts_of(body) -> list:
    if isinstance(body, Block):
        return body.bodies
    if isinstance(body, Case):
        return [it.body for it in body.branches]
    if isinstance(body, Automaton):
        return [it.body for it in body.states]
    return [body.body] if isinstance(body, Iteration) else []
