"""The equations of a program with its calls, branches and iterations laid out once, for the second evaluator."""
from second.left_sides import lefts_of
from second.read_programs import Reader
from second.scopes import Scope, Signal


class Instances:
    """The part of a run that makes scopes, signals and equations before the first instant."""

    def __init__(self, text: str):
        self.read = Reader(text).program()
        self.equations, self.signals = [], []
        self.top = Scope()
        self.top.constants, self.top.processes, self.top.types = self.read["constants"], self.read["processes"], self.read["types"]
        self.process = self.top.processes[self.read["first"]]
        self.root = self.instance(self.process, self.top, [], None)
        for name in self.process["comes"]:
            signal = self.add(self.root, f"HAS_{name}", "boolean", ())
            signal.input = True
            self.equations.append(("comes", signal, self.root.signals[name]))
        for name, *_ in self.process["ins"]:
            self.root.signals[name].input = True
        self.inside(self.process["body"], self.root)

    def add(self, scope: Scope, name: str, kind: str, shape: tuple, init: tuple | None = None) -> Signal:
        signal = scope.signals[name] = Signal(name, kind, tuple(shape), init)
        self.signals.append(signal)
        return signal

    def instance(self, process: dict, lexical: Scope, parameters: list, caller: Scope | None) -> Scope:
        """The scope of one copy of a process."""
        scope = Scope(None, lexical)
        scope.outer = caller
        scope.constants.update({name: ("value", value) for (name, *_), value in zip(process["params"], parameters)})
        self.declare(process["where"], scope)
        for name, kind, sizes, init in process["ins"] + process["outs"]:
            self.add(scope, name, kind, [self.constant(it, scope) for it in sizes], init)
        return scope

    def declare(self, where: dict, scope: Scope) -> None:
        scope.constants.update(where["constants"])
        scope.processes.update(where["processes"])
        scope.types.update(where["types"])
        for name, kind, sizes, init in where["signals"]:
            self.add(scope, name, kind, [self.constant(it, scope) for it in sizes], init)

    def inside(self, body: tuple, scope: Scope) -> None:
        """The equations of a body."""
        if body[0] != "body":
            MAKERS[body[0]](self, body, scope)
            return
        if body[2]:
            scope = Scope(scope)
            self.declare(body[2], scope)
        for it in body[1]:
            self.inside(it, scope)

    def calls(self, tree, scope: Scope) -> None:
        """Makes a copy of its process for each call in an expression."""
        if isinstance(tree, tuple) and tree and tree[0] == "call":
            self.call(tree, scope)
        for it in tree if isinstance(tree, (tuple, list)) else ():
            self.calls(it, scope)

    def call(self, tree: tuple, scope: Scope) -> None:
        process, lexical = self.process_named(tree[1], scope)
        made = self.instance(process, lexical, [self.constant(it, scope) for it in tree[2]], scope)
        scope.calls[id(tree)] = (made, [made.signals[it[0]] for it in process["outs"]])
        for (name, *_), argument in zip(process["ins"], tree[3]):
            self.equations.append(("define", made.signals[name], [], argument, scope, None))
        self.inside(process["body"], made)

    def make_definition(self, tree: tuple, scope: Scope) -> None:
        _, lefts, mark, right = tree
        self.calls(right, scope)
        rights = [("signal", it) for it in scope.calls[id(right)][1]] if right[0] == "call" else [right]
        for left, it in zip(lefts, rights):
            self.target(left, mark, it, scope)

    def target(self, left: tuple, mark: str, right: tuple, scope: Scope) -> None:
        """One left side with what defines it."""
        path = []
        while left[0] == "function":
            path.insert(0, self.constant(left[2][1], scope))
            left = left[2][0]
        signal, turn = self.signal(left[1], scope)[0], self.turn(left[1], scope)
        if turn is not None and not path:
            path = [turn]
        taken = next((it for it in scope.chain() if it.taken), None)
        if right[0] in ("$", "window", "cell") and right[3] is None and signal.init is not None:
            right = (*right[:3], signal.init)
        if mark == "::=":
            part = Signal(left[1], signal.kind, signal.shape)
            self.signals.append(part)
            self.part(signal, part)
            signal = part
        self.equations.append(("define", signal, path, right, scope, taken))

    def part(self, signal: Signal, part: Signal, turn: int | None = None) -> None:
        """Notes a partial definition of a signal."""
        for it in self.equations:
            if it[0] == "parts" and it[1] is signal and it[3] == turn:
                it[2].append(part)
                return
        self.equations.append(("parts", signal, [part], turn))

    def make_clocks(self, tree: tuple, scope: Scope) -> None:
        self.calls(tree[2], scope)
        self.equations.append(("clocks", tree[1], tree[2], scope))

    def make_call(self, tree: tuple, scope: Scope) -> None:
        """A call alone; what is claimed or assumed says nothing of values."""
        if tree[1][0] != "call" or tree[1][1] not in ("assert", "assume"):
            self.calls(tree[1], scope)

    def make_iteration(self, tree: tuple, scope: Scope) -> None:
        _, index, last, body, first = tree
        begin = self.beginnings(first, scope) if first else {}
        plain = {it for it in lefts_of(body) if self.is_array(it, scope)}
        for i in range(self.constant(last, scope) + 1):
            turn = Scope(scope)
            turn.index, turn.constants[index] = i, ("value", i)
            turn.before, turn.plain = begin, plain
            self.inside(body, turn)

    def beginnings(self, body: tuple, scope: Scope) -> dict[str, tuple]:
        """What the `with` part gives, by names; its memories go on as those of any right side."""
        found = {}
        for it in body[1] if body[0] == "body" else [body]:
            while it[0] == "body":
                it = it[1][0]
            name, right = it[1][0][1], it[3]
            found[name] = right
            self.calls(right, scope)
            self.equations.append(("aside", self.signal(name, scope)[0], right, scope))
        return found

    def is_array(self, name: str, scope: Scope) -> bool:
        found = self.signal(name, scope)
        return bool(found and found[0].shape)

    def make_case(self, tree: tuple, scope: Scope) -> None:
        _, subject, branches, other = tree
        self.calls(subject, scope)
        self.equations.append(("aside", None, subject, scope))
        every = []
        for values, body in branches:
            values = [self.constant(it, scope) for it in values]
            every += values
            self.branch(body, scope, ("among", subject, scope, values, True), subject)
        if other:
            self.branch(other, scope, ("among", subject, scope, every, False), subject)

    def branch(self, body: tuple, scope: Scope, taken: tuple, subject: tuple | None = None) -> Scope:
        """The scope of a branch, with a signal of its own for each one of outside that it defines."""
        made = Scope(scope, taken=taken)
        if body[0] == "body" and body[2]:
            self.declare(body[2], made)
            body = ("body", body[1], None)
        for name in sorted(lefts_of(body, True) - set(made.signals)):
            outside = self.signal(name, scope)[0]
            part = self.add(made, name, outside.kind, outside.shape, outside.init)
            turn = next((it.index for it in made.parent.chain() if it.index is not None or name in it.signals), None)
            part.subject = subject and (subject, scope)
            part.whole = not outside.shape or turn is None
            self.part(outside, part, None if part.whole else turn)
        self.inside(body, made)
        return made

    def make_automaton(self, tree: tuple, scope: Scope) -> None:
        _, name, states = tree
        machine = {"name": name, "signal": self.signal(name, scope)[0], "scope": scope, "first": "#" + states[0][0], "turn": self.turn(name, scope)}
        machine |= {"states": {}, "now": {}}
        for state, body, ways in states:
            made = self.branch(body, scope, ("state", machine, "#" + state))
            made.anew = machine
            entry = Scope(scope, taken=("entry", machine, "#" + state))
            for word, condition, _, _ in ways:
                self.calls(condition, entry if word == "unless" else made)
            machine["states"]["#" + state] = (made, entry, ways)
        scope.memory[id(machine)] = (machine["first"], False)
        self.equations.append(("automaton", machine))


MAKERS = {
    "define": Instances.make_definition, "clocks": Instances.make_clocks, "drop": Instances.make_call, "iterate": Instances.make_iteration,
    "case": Instances.make_case, "automaton": Instances.make_automaton,
}
