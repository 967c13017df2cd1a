"""When branches and states are taken, and when memories begin anew, for the second evaluator."""
from second.partial_values import both
from second.scopes import Scope


class Branches:
    """The part of a run that knows of cases and automata."""

    def taken(self, branch: Scope) -> bool | None:
        """Whether a branch is taken, within the branches around it."""
        if branch.taken[0] == "among":
            _, subject, scope, values, is_inside = branch.taken
            present, value = self.value(subject, scope)
            if not present:
                return present
            return None if value is None else (value in values) == is_inside
        kind, machine, state = branch.taken
        present = self.machine_present(machine)
        if not present:
            return present
        if kind == "entry":
            entry = self.entry(machine)
            return None if entry is None else entry[0] == state
        active = machine["now"].get("active")
        return None if active is None else active == state

    def machine_present(self, machine: dict) -> bool | None:
        """Whether an automaton comes, as it is seen where it stands."""
        signal, crossed = machine["signal"], self.signal(machine["name"], machine["scope"])[1]
        present = signal.present
        for outer in crossed:
            present = both(present, self.taken(outer))
        return present

    def entry(self, machine: dict) -> tuple[str, bool] | None:
        """The entry state of an automaton, and whether it is entered anew."""
        anew = self.begun_anew(machine["scope"])
        if anew is None:
            return None
        return (machine["first"], False) if anew else machine["scope"].memory[id(machine)]

    def begun_anew(self, scope: Scope | None) -> bool | None:
        """Whether memories begin anew at this instant; None where that is not known."""
        found = False
        while scope:
            if scope.anew:
                taken, anew = self.taken(scope), scope.anew["now"].get("anew")
                if taken is None or taken and anew is None:
                    return None
                found = found or bool(taken and anew)
            scope = scope.outer
        return found
