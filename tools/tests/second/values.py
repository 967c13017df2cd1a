"""Presences and values of expressions at an instant, as far as they are known, for the second evaluator."""
from second.functions import applied
from second.partial_values import Clash, beats, blank, both, either, joined, opposite, picked
from second.scopes import Scope

Found = tuple  # Whether it is present, and its value; None where that is not known.


class Values:
    """The part of a run that evaluates expressions; `at` is the presence of the context, by which bare constants come."""

    def value(self, tree: tuple, scope: Scope, at: bool | None = None) -> Found:
        return READERS[tree[0]](self, tree, scope, at)

    def of_literal(self, tree: tuple, scope: Scope, at: bool | None) -> Found:
        return at, tree[1]

    def of_signal(self, tree: tuple, scope: Scope, at: bool | None) -> Found:
        return tree[1].present, tree[1].value

    def of_call(self, tree: tuple, scope: Scope, at: bool | None) -> Found:
        output = scope.calls[id(tree)][1][0]
        return output.present, output.value

    def of_name(self, tree: tuple, scope: Scope, at: bool | None) -> Found:
        """A constant, or a signal as the branches between it and here sample it."""
        found = self.constant_of(tree[1], scope)
        if found:
            return at, self.value(*found, True)[1]
        signal, crossed = self.signal(tree[1], scope)
        turn = self.turn(tree[1], scope)
        value = signal.value[turn] if turn is not None and len(tree) == 2 else signal.value
        return self.sampled_by(signal.present, crossed), value

    def sampled_by(self, present: bool | None, branches: list[Scope]) -> bool | None:
        for it in branches:
            present = both(present, self.taken(it))
        return present

    def of_before(self, tree: tuple, scope: Scope, at: bool | None) -> Found:
        """`X[?]`."""
        name, chain = tree[1][1], scope.chain()
        turn = next(it for it in chain if it.index is not None)
        signal = self.signal(name, turn)[0]
        present, value = signal.present, signal.value[turn.index - 1]
        if turn.index == 0:
            present, value = self.value(turn.before[name], turn.parent, signal.present)
        return self.sampled_by(present, [it for it in chain[: chain.index(turn)] if it.taken]), value

    def operands(self, trees: list[tuple], scope: Scope, at: bool | None) -> tuple[bool | None, list]:
        """The common presence of operands, and their values."""
        found = {number: self.value(it, scope) for number, it in enumerate(trees) if self.clocked(it, scope)}
        present = at
        if found:
            sure = {it for it, _ in found.values()} - {None}
            if len(sure) > 1:
                raise Clash(f"not together: {trees}")
            present = sure.pop() if sure else None
        return present, [found[number][1] if number in found else self.value(it, scope, present)[1] for number, it in enumerate(trees)]

    def of_function(self, tree: tuple, scope: Scope, at: bool | None) -> Found:
        present, values = self.operands(tree[2], scope, at)
        return present, applied(tree[1], values) if present else None

    def of_if(self, tree: tuple, scope: Scope, at: bool | None) -> Found:
        trees = self.chosen(tree, scope)
        present, values = self.operands(trees, scope, at)
        if not present:
            return present, None
        if len(trees) == 1:
            return present, values[0]
        found = picked(*values)
        return present, found if isinstance(found, list) else joined(blank(self.shape(tree, scope)), found)

    def of_when(self, tree: tuple, scope: Scope, at: bool | None) -> Found:
        _, left, condition = tree
        if self.is_constant(condition, scope):
            return self.value(left, scope, at) if self.constant(condition, scope) else (False, None)
        is_own = left and self.clocked(left, scope)
        context = self.value(left, scope)[0] if is_own else at
        sure = beats(*self.value(condition, scope, context))
        if left is None:
            return sure, True
        present, value = self.value(left, scope, sure)
        if is_own:
            return both(present, sure), value
        return sure if present is not False else False, value

    def of_default(self, tree: tuple, scope: Scope, at: bool | None) -> Found:
        left, right = (self.value(it, scope, at) for it in tree[1:])
        if left[0] is None:
            return (True if right[0] else None), None
        return left if left[0] else right

    def of_clock(self, tree: tuple, scope: Scope, at: bool | None) -> Found:
        left, right = (self.value(it, scope)[0] for it in tree[2:])
        if tree[1] == "^+":
            return either(left, right), True
        return both(left, right if tree[1] == "^*" else opposite(right)), True

    def of_present(self, tree: tuple, scope: Scope, at: bool | None) -> Found:
        return self.value(tree[1], scope)[0], True


READERS = {
    "value": Values.of_literal, "signal": Values.of_signal, "call": Values.of_call, "name": Values.of_name, "before": Values.of_before,
    "function": Values.of_function, "if": Values.of_if, "when": Values.of_when, "default": Values.of_default, "clock": Values.of_clock,
    "present": Values.of_present,
}
