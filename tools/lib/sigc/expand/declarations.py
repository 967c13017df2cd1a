"""Declarations: types, constants, parameters and signals with their sizes and the kernel's names of their elements."""
from sigc.expand import operators
from sigc.expand.messages import At, Refused
from sigc.expand.near import meant
from sigc.expand.scopes import Scope, Signal, Value
from sigc.expand.terms import BOOLEAN, EVENT, INTEGER, Enumeration, alone, fitted, is_constant, leaves, mapped, sizes_of
from sigc.expand.tree import ConstantOf, Declared, Kind, Locals, Process, TypeOf

BASE = (INTEGER, BOOLEAN, EVENT)


class Model:
    """A process as it is declared, with the scope that it sees."""

    def __init__(self, process: Process, scope: Scope):
        self.process, self.scope = process, scope


class Later:
    """A type that is worked out when it is wanted."""

    def __init__(self, declared: TypeOf, scope: Scope):
        self.declared, self.scope, self.is_open = declared, scope, False


class LateValue(Value):
    """A constant whose value is worked out when it is wanted."""

    def __init__(self, declared: ConstantOf, scope: Scope):
        self.declared, self.scope, self.found, self.is_open = declared, scope, None, False

    @property
    def value(self):
        at = self.scope.at(self.declared.at)
        if self.found is None:
            if self.is_open:
                raise Refused(at, f"constant {self.declared.name} needs itself")
            self.is_open = True
            self.found = constant_value(self.declared, self.scope, at)
            self.is_open = False
        return self.found


def constant_value(declared: ConstantOf, scope: Scope, at: At):
    value = operators.value_of(declared.value, scope)
    if not all(map(is_constant, leaves(value))):
        raise Refused(scope.at(declared.value.at), f"{declared.name} is a constant, and its value is none")
    if declared.value.op == "int":
        value = scope.unit.tried_value(declared.name, value)
    return of_kind(value, declared.kind, scope, at, declared.name)


def of_kind(value, kind: Kind, scope: Scope, at: At, name: str):
    """A constant as a value of a declared kind."""
    base, sizes = kind_of(kind, scope)
    if sizes_of(value) == () and sizes:
        raise Refused(at, "sizes differ", f"{name} is an array of {list(sizes)}, and its value a single one: write [..] or V |* N")
    if sizes_of(value) != sizes:
        raise Refused(at, "sizes differ", f"{name} has the sizes {list(sizes)}, and its value {list(sizes_of(value))}")
    return mapped(lambda it: fitted(it, base, at, name), value)


def kind_of(kind: Kind, scope: Scope) -> tuple[object, tuple[int, ...]]:
    """The base and the sizes of a kind that is written."""
    sizes = tuple(size_of(it, scope) for it in kind.sizes)
    if kind.name in BASE:
        return kind.name, sizes
    found = scope.found("types", kind.name)
    if found is None:
        near = meant(kind.name, {*BASE, *(it.name for it in operators.types_of(scope) if isinstance(it, Enumeration))})
        raise Refused(scope.at(kind.at), f"unknown type {kind.name}", *near)
    if isinstance(found, Later):
        if found.is_open:
            raise Refused(found.scope.at(found.declared.at), f"type {kind.name} needs itself")
        found.is_open = True
        base, inner = kind_of(found.declared.kind, found.scope)
        found.is_open = False
        return base, sizes + inner
    return found, sizes


def size_of(node, scope: Scope) -> int:
    size = operators.integer_of(node, scope, "a size")
    if not 1 <= size <= operators.MOST_ELEMENTS:
        raise Refused(scope.at(node.at), f"an array of {size} elements", "a size is at least 1")
    return size


def declare(found: Locals, scope: Scope) -> None:
    """Declares all but the signals."""
    for it in found.types:
        once(scope.types, it.name, it.at, scope)
        scope.types[it.name] = Later(it, scope) if it.values is None else enumeration(it, scope)
    for it in found.constants:
        once(scope.values, it.name, it.at, scope)
        scope.values[it.name] = LateValue(it, scope)
    for it in found.processes:
        once(scope.models, it.name, it.at, scope)
        scope.models[it.name] = Model(it, scope)
        keep_all(scope.models[it.name])


def keep_all(model: Model) -> None:
    """Notes a process among all of the program, of which the first of a name may be called from everywhere."""
    model.scope.unit.models.setdefault(model.process.name, model)


def once(table: dict, name: str, place, scope: Scope) -> None:
    if name in table:
        raise Refused(scope.at(place), f"{name} is declared twice")


def enumeration(declared: TypeOf, scope: Scope) -> Enumeration:
    names = [name for name, _ in declared.values]
    for number, (name, place) in enumerate(declared.values):
        if name in names[:number]:
            raise Refused(scope.at(place), f"#{name} is declared twice")
    return Enumeration(declared.name, names)


def signal(declared: Declared, scope: Scope, role: str, names=None) -> Signal:
    """Declares a signal; the kernel's signals of its elements are made, unless names for them are given."""
    at = scope.at(declared.at)
    for table in (scope.signals, scope.values):
        once(table, declared.name, declared.at, scope)
    base, sizes = kind_of(declared.kind, scope)
    found = Signal(declared.name, base, sizes, at, role, names)
    if names is None:
        found.names = element_names(declared.name, base, sizes, at, role if scope.prefix == ("", "") else "local", scope)
        tie_elements(found, scope)
    scope.signals[declared.name] = found
    return found


def element_names(name: str, kind: object, sizes: tuple, at: At, role: str, scope: Scope):
    """New signals of the kernel for the elements of a signal."""
    unit, (prefix, shown) = scope.unit, scope.prefix
    turns = "".join(scope.turns.split())

    def made(indices: tuple):
        if len(indices) < len(sizes):
            return [made((*indices, number)) for number in range(sizes[len(indices)])]
        is_own = not prefix and not indices and not (scope.parent and scope.parent.prefix != ("", ""))
        wanted = prefix + name + "".join(f"_{it}" for it in indices)
        told = shown + name + turns + "".join(f"[{it}]" for it in indices)
        is_first = is_own and name in unit.names.reserved and name not in unit.signals
        return unit.declared(unit.names.own(name) if is_first else unit.names.made(wanted, told), kind, role, at)

    return made(())


def tie_elements(found: Signal, scope: Scope) -> None:
    """The elements of an array come together."""
    names = found.kernel_names()
    if len(names) > 1:
        value = found.value(found.at)
        scope.unit.tie(leaves(value), found.at)


def parameters(process: Process, given: list, scope: Scope, caller: Scope, at: At) -> None:
    """Gives the parameters of a call their values."""
    if len(given) != len(process.parameters):
        told = f"{process.name} has {len(process.parameters)} parameters, and the call {len(given)}"
        raise Refused(at, f"bad call of {process.name}", told)
    for declared, node in zip(process.parameters, given):
        value = operators.value_of(node, caller)
        if not all(map(is_constant, leaves(value))):
            raise Refused(caller.at(node.at), f"parameter {declared.name} of {process.name} has to be a constant")
        once(scope.values, declared.name, declared.at, scope)
        scope.values[declared.name] = Value(of_kind(mapped(alone_if_open, value), declared.kind, scope, caller.at(node.at), declared.name))


def alone_if_open(term):
    """A constant as it is; its kind is settled by the parameter."""
    return term if not isinstance(term.kind, str) else alone(term)
