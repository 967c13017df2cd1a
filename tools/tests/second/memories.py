"""Delays, windows, cells and counters: what they give at an instant, and what they keep after it, for the second evaluator."""
from second.functions import TRUTHS
from second.partial_values import beats, blank, joined, sizes_of
from second.scopes import Scope
from second.values import READERS, Found

WORDS = ("$", "window", "cell", "count", "after", "from")


class Memories:
    """The part of a run that remembers; each memory is kept by its expression, in the scope in which it stands."""

    def remembered(self, tree: tuple, scope: Scope) -> list | None:
        """What a memory has kept; None where it is not known whether it begins anew."""
        anew = self.begun_anew(scope)
        return None if anew is None else [] if anew else scope.memory.get(id(tree), [])

    def begin(self, tree: tuple, scope: Scope):
        """The value before all others: given, or the first of its kind."""
        return self.constant(tree[3], scope) if tree[3] is not None else self.first_value(tree[1], scope)

    def first_value(self, tree: tuple, scope: Scope):
        """0, false or the first value of a type, by the first name of an expression."""
        kind = tree[0]
        if kind == "name" and self.constant_of(tree[1], scope) is None:
            declared = self.signal(tree[1], scope)[0].kind
            known = {"boolean": False, "event": False, "integer": 0}
            return known[declared] if declared in known else "#" + self.type_named(declared, scope)[0]
        if kind in ("present", "clock") or kind == "function" and tree[1] in TRUTHS:
            return False
        if kind == "value":
            return False if isinstance(tree[1], bool) else 0
        found = [self.first_value(it, scope) for it in (tree[2] if kind == "function" else tree[1:]) if isinstance(it, tuple) and it]
        return next((it for it in found if it is not None), 0)

    def of_delay(self, tree: tuple, scope: Scope, at: bool | None) -> Found:
        present, value = self.value(tree[1], scope, at)
        past, size = self.remembered(tree, scope), self.constant(tree[2], scope)
        if size == 0:
            return present, value
        if past is None or len(past) >= size:
            return present, None if past is None else past[-size]
        init, shape = self.begin(tree, scope), self.shape(tree[1], scope)
        if isinstance(init, list) and len(sizes_of(init)) > len(shape):
            init = init[len(past)]
        return present, joined(blank(shape), init)

    def of_window(self, tree: tuple, scope: Scope, at: bool | None) -> Found:
        present, value = self.value(tree[1], scope, at)
        past, size = self.remembered(tree, scope), self.constant(tree[2], scope)
        if past is None:
            return present, None
        init, shape = self.begin(tree, scope), self.shape(tree[1], scope)
        first = init if isinstance(init, list) and len(sizes_of(init)) > len(shape) else [init] * (size - 1)
        return present, (first + past + [value])[-size:]

    def of_cell(self, tree: tuple, scope: Scope, at: bool | None) -> Found:
        (present, value), sure = self.value(tree[1], scope), beats(*self.value(tree[2], scope))
        if present:
            return present, value
        if present is None:
            return (True if sure else None), None
        past = self.remembered(tree, scope)
        if past is None:
            return sure, None
        return sure, past[-1] if past else joined(blank(self.shape(tree[1], scope)), self.begin(tree, scope))

    def of_count(self, tree: tuple, scope: Scope, at: bool | None) -> Found:
        past = self.remembered(tree, scope)
        return beats(*self.value(tree[1], scope)), None if past is None else len(past) % self.constant(tree[2], scope)

    def of_since(self, tree: tuple, scope: Scope, at: bool | None) -> Found:
        """`after` and `from`."""
        one, other = (beats(*self.value(it, scope)) for it in tree[1:])
        past = self.remembered(tree, scope)
        if past is None or other is None:
            return one, None
        return one, int(tree[0] == "from") if other else (past[-1] if past else 0) + 1

    def keep(self, tree: tuple, scope: Scope) -> list:
        """What a memory keeps after this instant."""
        past = list(self.remembered(tree, scope))
        if tree[0] in ("after", "from"):
            one, other = (beats(*self.value(it, scope)) for it in tree[1:])
            return [self.value(tree, scope)[1]] if one else [0] if other else past
        if tree[0] == "count":
            return past + [1] if self.value(tree, scope)[0] else past
        present, value = self.value(tree[1], scope, self.contexts.get((id(tree), id(scope))))
        return past + [value] if present else past


def memories_in(tree, scope: Scope) -> list[tuple[tuple, Scope]]:
    """All memories in an expression, each with its scope."""
    if not isinstance(tree, (tuple, list)):
        return []
    own = [(tree, scope)] if isinstance(tree, tuple) and tree and tree[0] in WORDS else []
    return own + [found for it in tree for found in memories_in(it, scope)]


READERS |= {
    "$": Memories.of_delay, "window": Memories.of_window, "cell": Memories.of_cell, "count": Memories.of_count,
    "after": Memories.of_since, "from": Memories.of_since,
}
