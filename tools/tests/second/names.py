"""What names mean where they stand, and which expressions have a clock of their own, for the second evaluator."""
from second.partial_values import Clash, known
from second.scopes import Scope, Signal


class Names:
    """The part of a run that finds signals, constants, processes and types."""

    def signal(self, name: str, scope: Scope) -> tuple[Signal, list[Scope]] | None:
        """The signal of a name, and the branches between it and this place."""
        crossed: list[Scope] = []
        for it in scope.chain():
            if name in it.signals:
                return it.signals[name], crossed
            if name in it.constants:
                return None
            if it.taken:
                crossed.append(it)
        return None

    def constant_of(self, name: str, scope: Scope) -> tuple[tuple, Scope] | None:
        """The expression of a constant, and the scope in which it stands."""
        inside = scope.chain()
        for it in scope.texts():
            if it in inside and name in it.signals:
                return None
            if name in it.constants:
                return it.constants[name], it
        return None

    def constant(self, tree: tuple, scope: Scope):
        """The value of a constant expression."""
        value = self.value(tree, scope, True)[1]
        if not known(value):
            raise Clash(f"no constant: {tree}")
        return value

    def process_named(self, name: str, scope: Scope) -> tuple[dict, Scope]:
        return next((it.processes[name], it) for it in scope.texts() if name in it.processes)

    def type_named(self, name: str, scope: Scope) -> list[str]:
        return next(it.types[name] for it in scope.texts() if name in it.types)

    def turn(self, name: str, scope: Scope) -> int | None:
        """The index that a plain name gets in an iteration, if it gets one."""
        for it in scope.chain():
            if name in it.signals and it.signals[name].whole:
                return None
            if name in it.plain:
                return it.index
        return None

    def is_constant(self, tree: tuple, scope: Scope) -> bool:
        kind = tree[0]
        if kind == "name":
            return self.constant_of(tree[1], scope) is not None
        parts = tree[2] if kind == "function" else tree[1:] if kind == "if" else None
        return kind == "value" or parts is not None and all(self.is_constant(it, scope) for it in parts)

    def clocked(self, tree: tuple, scope: Scope) -> bool:
        """Whether an expression has a clock of its own."""
        kind = tree[0]
        if kind == "value":
            return False
        if kind == "name":
            return self.constant_of(tree[1], scope) is None
        if kind in ("function", "if"):
            return any(self.clocked(it, scope) for it in (tree[2] if kind == "function" else self.chosen(tree, scope)))
        if kind == "default":
            return all(self.clocked(it, scope) for it in tree[1:])
        return self.clocked(tree[1], scope) if kind in ("$", "window") else True

    def chosen(self, tree: tuple, scope: Scope) -> list[tuple]:
        """The parts of an `if` that count: of a constant condition one."""
        if self.is_constant(tree[1], scope):
            condition = self.constant(tree[1], scope)
            if not isinstance(condition, list):
                return [tree[2] if condition else tree[3]]
        return list(tree[1:])
