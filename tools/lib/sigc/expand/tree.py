"""The syntax tree of a program in SIGNAL V4."""
from dataclasses import dataclass, field

from sigc.expand.messages import Place


@dataclass(slots=True)
class Node:
    """An expression: its operator, the place of that, its operands, and what else it holds.

    Operators are those of the kernel and: int, bool, name, enum, index, previous, array, call, if, neg, beat (`when`
    before its operand), clock (`^`), delay, window, cell, count, after, from, put (`(S : V) next A`).
    """

    op: str
    at: Place
    parts: list = field(default_factory=list)
    data: object = None


@dataclass(slots=True)
class Left:
    """A left side: a name with the indices of an element."""

    name: str
    at: Place
    indices: list


@dataclass(slots=True)
class Definition:
    lefts: list[Left]
    right: Node
    is_partial: bool
    at: Place


@dataclass(slots=True)
class Clocks:
    """A chain of expressions whose clocks are related."""

    op: str
    terms: list[Node]
    places: list[Place]


@dataclass(slots=True)
class CallOnly:
    call: Node
    at: Place


@dataclass(slots=True)
class Claim:
    """`assert` or `assume`."""

    word: str
    claimed: Node
    at: Place


@dataclass(slots=True)
class Dropped:
    """An equation that says nothing of values or clocks."""

    what: str
    at: Place


@dataclass(slots=True)
class Block:
    """A composition with its own declarations."""

    bodies: list
    locals: "Locals"
    at: Place


@dataclass(slots=True)
class Branch:
    """A branch of a case: its values, none for `else`, and its body."""

    values: list[Node] | None
    body: object
    at: Place


@dataclass(slots=True)
class Case:
    chosen: Node
    branches: list[Branch]
    at: Place


@dataclass(slots=True)
class Iteration:
    index: str
    last: Node
    body: object
    begins: object
    at: Place


@dataclass(slots=True)
class Transition:
    is_strong: bool
    condition: Node
    is_anew: bool
    target: str
    at: Place
    target_at: Place


@dataclass(slots=True)
class State:
    name: str
    body: object
    transitions: list[Transition]
    at: Place


@dataclass(slots=True)
class Automaton:
    name: str
    name_at: Place
    states: list[State]
    at: Place


@dataclass(slots=True)
class Kind:
    """A kind as it is written: sizes and a name."""

    sizes: list[Node]
    name: str
    at: Place


@dataclass(slots=True)
class Declared:
    """A signal or a parameter."""

    kind: Kind
    name: str
    at: Place
    init: Node | None


@dataclass(slots=True)
class TypeOf:
    name: str
    at: Place
    values: list[tuple[str, Place]] | None
    kind: Kind | None


@dataclass(slots=True)
class ConstantOf:
    kind: Kind
    name: str
    at: Place
    value: Node


@dataclass(slots=True)
class Use:
    name: str
    at: Place


@dataclass(slots=True)
class Pragma:
    name: str
    names: list[tuple[str, Place]]
    label: str
    at: Place


@dataclass(slots=True)
class Locals:
    """Declarations: of a `where`, of a module, or of a program's text."""

    signals: list[Declared] = field(default_factory=list)
    types: list[TypeOf] = field(default_factory=list)
    constants: list[ConstantOf] = field(default_factory=list)
    uses: list[Use] = field(default_factory=list)
    processes: list["Process"] = field(default_factory=list)


@dataclass(slots=True)
class Process:
    name: str
    at: Place
    parameters: list[Declared]
    inputs: list[Declared]
    outputs: list[Declared]
    pragmas: list[Pragma]
    body: object
    locals: Locals


@dataclass(slots=True)
class Module:
    name: str
    at: Place
    locals: Locals
