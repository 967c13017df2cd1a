"""Automata: states with bodies, strong transitions before a body and weak ones after it, entered anew or where they were left."""
from sigc.expand import cases, operators
from sigc.expand.branches import Branching
from sigc.expand.definitions import Definition
from sigc.expand.memories import chained, delayed
from sigc.expand.messages import At, Refused
from sigc.expand.near import meant
from sigc.expand.scopes import Current, Sampled, Scope, Signal, part_of
from sigc.expand.terms import BOOLEAN, EVENT, Enumeration, Term, constant, truth
from sigc.expand.tree import Automaton, State, Transition


class Machine:
    """An automaton on the way: its signals, which all come together."""

    def __init__(self, found: Automaton, scope: Scope):
        self.found, self.scope, self.unit = found, scope, scope.unit
        self.at = scope.at(found.at)
        self.active = state_signal(found, scope)
        self.kind = self.active.kind
        checked(found, self.kind, scope)
        name = self.active.names
        shown = self.unit.names.user(name)
        self.entry = self.unit.fresh(f"{name}_entry", self.kind, self.at, f"{shown} as the instant begins")
        self.next = self.unit.fresh(f"{name}_next", self.kind, self.at, f"{shown} for the next instant")

    def term(self, name: str, kind: object = None) -> Term:
        return Term("name", kind or self.kind, self.at, [], name)

    def value(self, name: str, at: At) -> Term:
        return constant(self.kind.values.index(name), self.kind, at)

    def beats(self, name: str) -> list[str]:
        """For each state whether a signal has its value, in the order of the states."""
        return [self.unit.comparisons.of(name, self.kind, self.kind.values.index(it.name), self.scope.at(it.at)).data for it in self.found.states]


def automaton(found: Automaton, scope: Scope) -> None:
    """The entry state, strong transitions, the bodies by the active state, weak transitions, and what is entered anew."""
    it = Machine(found, scope)
    start = it.value(found.states[0].name, it.at)
    before = it.unit.named(delayed(it.term(it.next), start, it.at, scope), f"{it.entry}_before", None)
    it.unit.defined(it.entry, Definition(before, it.at))
    anew = is_any_anew(found)
    reset, weak_reset = (it.unit.fresh(f"{it.active.names}_{word}", BOOLEAN, it.at) if anew else None for word in ("anew", "anew_next"))
    strong = strong_conditions(it)
    take(it, it.active.names, strong, it.term(it.entry))
    if anew:
        earlier = it.unit.named(delayed(it.term(weak_reset, BOOLEAN), constant(False, BOOLEAN, it.at), it.at, scope), f"{reset}_before", None)
        take_anew(it, reset, strong, earlier)
    beats = it.beats(it.active.names)
    resets = [state_reset(it, number, beat, reset) for number, beat in enumerate(beats)]
    bodies = [(state.body, beat, state.name) for state, beat in zip(found.states, beats)]
    scopes = cases.branches(bodies, scope, it.at, resets)
    weak = [(one, condition(it, one, inner, beat)) for state, beat, inner in zip(found.states, beats, scopes) for one in state.transitions if not one.is_strong]
    take(it, it.next, weak, it.term(it.active.names))
    if anew:
        take_anew(it, weak_reset, weak, Term("when", BOOLEAN, it.at, [constant(False, BOOLEAN, it.at), Term("clock", EVENT, it.at, [it.term(it.active.names)])]))
    together = [it.active.names, it.entry, it.next]
    it.unit.tie([it.term(name) for name in together] + ([it.term(reset, BOOLEAN), it.term(weak_reset, BOOLEAN)] if anew else []), it.at)


def is_any_anew(found: Automaton) -> bool:
    return any(one.is_anew for state in found.states for one in state.transitions)


def state_signal(found: Automaton, scope: Scope) -> Signal:
    """The signal that an automaton defines."""
    at, signal = scope.at(found.name_at), scope.find(found.name)
    if isinstance(signal, Current):
        signal = part_of(signal)
    if signal is None:
        raise Refused(at, f"unknown name {found.name}", *meant(found.name, scope.visible()), "declare it as a signal of an enumeration whose values are the states")
    if not isinstance(signal, Signal) or isinstance(signal, Sampled) or signal.role == "input":
        raise Refused(at, f"{found.name} is no signal that can be defined here")
    if not isinstance(signal.kind, Enumeration) or signal.sizes:
        raise Refused(at, "types clash", f"{found.name} has to be of an enumeration whose values are the states")
    return signal


def checked(found: Automaton, kind: Enumeration, scope: Scope) -> None:
    """Refused where the states are not the values of the type, or a transition leads to none."""
    seen: list[str] = []
    for state in found.states:
        if state.name not in kind.values:
            raise Refused(scope.at(state.at), f"{kind.name} has no value {state.name}", *meant(state.name, kind.values))
        if state.name in seen:
            raise Refused(scope.at(state.at), f"state {state.name} stands twice")
        seen.append(state.name)
        for one in state.transitions:
            if one.target not in kind.values:
                raise Refused(scope.at(one.target_at), f"unknown state {one.target}", *meant(one.target, kind.values))
    missing = [it for it in kind.values if it not in seen]
    if missing:
        raise Refused(scope.at(found.at), f"state {missing[0]} is missing", f"the states are the values of {kind.name}, each once")


def condition(it: Machine, one: Transition, inner: Scope, beat: str) -> Term:
    """The condition of a transition, as a signal that comes wherever it is looked at."""
    at = inner.at(one.at)
    term = truth(operators.single(one.condition, inner, "a condition"))
    if operators.is_constant(term):
        term = Term("when", BOOLEAN, at, [constant(bool(term.data), BOOLEAN, at), it.term(beat, BOOLEAN)])
    name = it.unit.named(term, f"{it.active.names}_goes", inner.pace(), "the condition of this transition")
    it.unit.tie([name, Term("beat", EVENT, at, [it.term(beat, BOOLEAN)])], at)
    return name


def strong_conditions(it: Machine) -> list[tuple[Transition, Term]]:
    """The conditions of the strong transitions, seen where their state is the entry state."""
    if not any(one.is_strong for state in it.found.states for one in state.transitions):
        return []
    found = []
    for state, beat in zip(it.found.states, it.beats(it.entry)):
        inner = Scope(it.unit, it.scope)
        inner.branch = Branching(it.unit, beat, f"at_{state.name}", it.at)
        found += [(one, condition(it, one, inner, beat)) for one in state.transitions if one.is_strong]
    return found


def take(it: Machine, name: str, transitions: list, otherwise: Term) -> None:
    """A state signal: the target of the transition that is taken, else what it is otherwise."""
    parts = [Term("when", it.kind, it.scope.at(one.at), [it.value(one.target, it.at), when]) for one, when in transitions]
    it.unit.defined(name, Definition(chained([*parts, otherwise], it.kind, it.at), it.at))


def take_anew(it: Machine, name: str, transitions: list, otherwise: Term) -> None:
    """Whether the transition that is taken enters its target anew."""
    parts = [Term("when", BOOLEAN, it.scope.at(one.at), [constant(one.is_anew, BOOLEAN, it.at), when]) for one, when in transitions]
    it.unit.defined(name, Definition(chained([*parts, otherwise], BOOLEAN, it.at), it.at))


def state_reset(it: Machine, number: int, beat: str, reset: str | None) -> str | None:
    """The boolean by which the memories of a state begin anew: it comes where the state is active, in an outer state that
    may be entered anew too wherever that one is."""
    state: State = it.found.states[number]
    is_target = any(one.is_anew and one.target == state.name for each in it.found.states for one in each.transitions)
    outer = it.scope.reset
    if reset is None or not is_target:
        return outer
    sampled = Term("when", BOOLEAN, it.at, [it.term(reset, BOOLEAN), it.term(beat, BOOLEAN)])
    if outer is None:
        return it.unit.named(sampled, f"{reset}_{state.name}", None).data
    here = it.unit.named(sampled, f"{reset}_{state.name}", None)
    both = Term("default", BOOLEAN, it.at, [Term("when", BOOLEAN, it.at, [constant(True, BOOLEAN, it.at), here]), it.term(outer, BOOLEAN)])
    return it.unit.named(both, f"{reset}_{state.name}", None).data
