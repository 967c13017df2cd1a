"""Sizes of expressions, for the second evaluator."""
from second.partial_values import sizes_of
from second.scopes import Scope


class Shapes:
    """The part of a run that knows sizes before values are there."""

    def shape(self, tree: tuple, scope: Scope) -> tuple:
        kind = tree[0]
        if kind in SINGLE:
            return ()
        if kind in OF_WORD:
            return OF_WORD[kind](self, tree, scope)
        if kind == "function" and tree[1] in OF_FUNCTION:
            return OF_FUNCTION[tree[1]](self, tree[2], scope)
        parts = tree[2] if kind == "function" else tree[1:2] if kind in ("$", "cell", "when") else tree[1:]
        return max((self.shape(it, scope) for it in parts if it), key=len, default=())

    def shape_of_name(self, tree: tuple, scope: Scope) -> tuple:
        found = self.constant_of(tree[1], scope)
        if found:
            return sizes_of(self.constant(*found))
        shape = self.signal(tree[1], scope)[0].shape
        return shape[1:] if self.turn(tree[1], scope) is not None and len(tree) == 2 else shape

    def shape_of_window(self, tree: tuple, scope: Scope) -> tuple:
        return (self.constant(tree[2], scope), *self.shape(tree[1], scope))

    def shape_of_join(self, parts: list, scope: Scope) -> tuple:
        first, second = (self.shape(it, scope) for it in parts)
        return (first[0] + second[0], *first[1:])

    def shape_of_repetition(self, parts: list, scope: Scope) -> tuple:
        times, shape = self.constant(parts[1], scope), self.shape(parts[0], scope)
        return (shape[0] * times, *shape[1:]) if shape else (times,)

    def shape_of_extreme(self, parts: list, scope: Scope) -> tuple:
        return () if len(parts) == 1 else max((self.shape(it, scope) for it in parts), key=len)


SINGLE = ("clock", "present", "count", "after", "from")
OF_WORD = {
    "signal": lambda run, tree, scope: tree[1].shape,
    "value": lambda run, tree, scope: sizes_of(tree[1]),
    "before": lambda run, tree, scope: run.signal(tree[1][1], scope)[0].shape[1:],
    "call": lambda run, tree, scope: scope.calls[id(tree)][1][0].shape,
    "name": Shapes.shape_of_name, "window": Shapes.shape_of_window,
}
OF_FUNCTION = {
    "[]": lambda run, parts, scope: (len(parts), *run.shape(parts[0], scope)),
    "index": lambda run, parts, scope: run.shape(parts[0], scope)[1:],
    "next": lambda run, parts, scope: run.shape(parts[2], scope),
    "|+": Shapes.shape_of_join, "|*": Shapes.shape_of_repetition, "max": Shapes.shape_of_extreme, "min": Shapes.shape_of_extreme,
}
