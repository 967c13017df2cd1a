"""sigc-automaton: tables that run as they say, and tables that say nothing."""
import random
import tempfile
import unittest
from concurrent.futures import ThreadPoolExecutor

from calling import module_of, needs_sigc, sigc, written

from sigc.call import running
from sigc.read import lexer
from sigc.trace import traces

automaton = module_of("sigc-automaton")
DRAWN = 100
INSTANTS = 40
VALVE = """automaton VALVE
input boolean COLD, STOP
output boolean OPEN; event ALARM; integer COST else 0
state  | OPEN
SHUT   | false
HEATS  | true
from   | when              | to    | ALARM | COST
SHUT   | COLD and not STOP | HEATS |       | 5
HEATS  | STOP or not COLD  | SHUT  | true  |
"""


class Drawn:
    """A table that is drawn, with flows for it, and what it says of each instant."""

    def __init__(self, seed):
        self.draws = draws = random.Random(seed)
        self.inputs = ["A", "B", "N"][: draws.randrange(4)]
        self.states = [f"S{at}" for at in range(draws.randrange(1, 6))]
        self.is_late = draws.random() < 0.5
        kinds = draws.choices(("integer", "boolean", "event"), k=draws.randrange(1, 5))
        self.outputs = {f"Y{at}": (kind, draws.random() < 0.5, self.otherwise(kind)) for at, kind in enumerate(kinds)}
        self.moore = {name: {it: self.value(kind, kind == "integer" and otherwise is None) for it in self.states} for name, (kind, is_moore, otherwise) in self.outputs.items() if is_moore}
        self.transitions = [self.transition() for _ in range(draws.randrange(1, 9))]
        for name, values in self.moore.items():
            values[self.states[0]] = values[self.states[0]] or self.value(self.outputs[name][0], True)
        for name in self.mealy():
            self.transitions[0][4][name] = self.transitions[0][4].get(name) or self.value(self.outputs[name][0], True)
        self.instants = [{it: draws.randrange(-2, 6) if it == "N" else draws.random() < 0.5 for it in self.inputs} for _ in range(INSTANTS)]

    def otherwise(self, kind):
        return self.draws.choice({"integer": (None, -4), "boolean": (None, True, False), "event": (None,)}[kind])

    def value(self, kind, is_wanted):
        """A value of a kind, None for an empty cell."""
        if not is_wanted and self.draws.random() < 0.4:
            return None
        return {"integer": self.draws.randrange(-9, 10), "boolean": self.draws.random() < 0.5, "event": True}[kind]

    def mealy(self):
        return [name for name, (_, is_moore, _) in self.outputs.items() if not is_moore]

    def transition(self):
        """A transition: its state, the text of its condition, what that asks, the next state, and values."""
        text, asks = self.condition(2)
        values = {name: self.value(self.outputs[name][0], False) for name in self.mealy()}
        return self.draws.choice(self.states), text, asks, self.draws.choice(self.states), values

    def condition(self, depth):
        """A condition as text and as a function of an instant; now and then none."""
        if not self.inputs or depth == 2 and self.draws.random() < 0.2:
            return "", lambda _: True
        if depth and self.draws.random() < 0.6:
            word = self.draws.choice(("and", "or", "xor"))
            (one, asks), (other, also) = self.condition(depth - 1), self.condition(depth - 1)
            whole = {"and": lambda it: asks(it) and also(it), "or": lambda it: asks(it) or also(it), "xor": lambda it: asks(it) != also(it)}[word]
            return f"({one}) {word} ({other})", whole
        name = self.draws.choice(self.inputs)
        if name == "N":
            least = self.draws.randrange(-1, 5)
            return f"N > {least}", lambda it: it["N"] > least
        return (name, lambda it: it[name]) if self.draws.random() < 0.5 else (f"not {name}", lambda it: not it[name])

    def table(self):
        """The text of the table."""
        lines = ["automaton DRAWN", f"transitions {'until' if self.is_late else 'unless'}"]
        lines += [f"input {'integer' if it == 'N' else 'boolean'} {it}" for it in self.inputs]
        lines += [f"output {kind} {name}" + (f" else {word(otherwise)}" if otherwise is not None else "") for name, (kind, _, otherwise) in self.outputs.items()]
        lines.append(" | ".join(["state", *self.moore]))
        lines += [" | ".join([it, *(word(values[it]) for values in self.moore.values())]) for it in self.states]
        lines.append(" | ".join(["from", "when", "to", *self.mealy()]))
        lines += [" | ".join([source, text, target, *(word(values.get(it)) for it in self.mealy())]) for source, text, _, target, values in self.transitions]
        return "\n".join(lines) + "\n"

    def flows(self):
        inputs = self.inputs or ["TICK"]
        return "".join(" ".join([it, *(word(instant.get(it, True)) for instant in self.instants)]) + "\n" for it in inputs)

    def said(self):
        """What the table says of each instant: the state and the outputs."""
        state = self.states[0]
        for instant in self.instants:
            taken = next((it for it in self.transitions if it[0] == state and it[2](instant)), None)
            after = taken[3] if taken else state
            shown = state if self.is_late else after
            values = {name: own[shown] for name, own in self.moore.items()}
            values |= {name: taken[4].get(name) if taken else None for name in self.mealy()}
            yield {"STATE": self.states.index(shown), **{name: self.whole(name, it) for name, it in values.items()}}
            state = after

    def whole(self, name, value):
        """The value of an output where a cell has this one."""
        kind, _, otherwise = self.outputs[name]
        return value if value is not None else otherwise if otherwise is not None else False if kind == "boolean" else None


def word(value):
    return "" if value is None else str(value).lower()


def fault_of(seed):
    """What is wrong with the run of the table of a seed, or nothing."""
    drawn = Drawn(seed)
    with tempfile.TemporaryDirectory() as room, running.Files() as files:
        program = "\n".join(automaton.process_of(automaton.Automaton(drawn.table()))) + "\n"
        run = traces.Run(files, written(room, "p.sig", program), written(room, "p.flows", drawn.flows()))
        for number, (got, wanted) in enumerate(zip(run, drawn.said(), strict=True), 1):
            shown = {name: got.get(name, "") for name in wanted}
            if shown != {name: word(it) for name, it in wanted.items()}:
                return f"{seed}: instant {number} is {shown}, and the table says {wanted}\n{drawn.table()}{program}"
    return ""


class Tables(unittest.TestCase):
    @needs_sigc
    def test_tables_that_are_drawn(self):
        with ThreadPoolExecutor(4) as pool:
            self.assertEqual(list(filter(None, pool.map(fault_of, range(DRAWN)))), [])

    @needs_sigc
    def test_a_table_is_a_program(self):
        with tempfile.TemporaryDirectory() as room:
            path = written(room, "v.sig", "\n".join(automaton.process_of(automaton.Automaton(VALVE))) + "\n")
            self.assertEqual(sigc("check", path).stdout, "accepted\n")

    def test_its_text(self):
        lines = list(automaton.process_of(automaton.Automaton(VALVE)))
        self.assertIn(" | FROM_SHUT_1 := IN_SHUT and COLD and not STOP", lines)
        self.assertIn(" | FROM_HEATS_1 := IN_HEATS and (STOP or not COLD)", lines)
        self.assertIn(" | COST := (5 when FROM_SHUT_1) default (0 when ^STATE)", lines)

    def test_what_is_no_table(self):
        for change, told in [
            (("SHUT   | false", "SHUT   | 3"), "line 5: 3 is no value of kind boolean"),
            (("HEATS  | true", "SHUT   | true"), "line 6: the state SHUT is named twice"),
            (("| HEATS |       | 5", "| WARM |       | 5"), "line 8: WARM is no state"),
            (("COLD and", "COLD or ("), "line 8: a parenthesis is not closed"),
            (("COLD and", "HOT and"), "line 8: HOT is no input that a condition can ask"),
            (("COLD and", "COLD $ and"), "line 8: $ has no place in a condition"),
            (("| ALARM | COST", "| ALARM | PRICE"), "line 7: PRICE is no output"),
            (("input boolean COLD, STOP", "input boolean COLD, STATE"), "line 8: STOP is no input that a condition can ask"),
            (("automaton VALVE", "automaton process"), "line 1: process is no name"),
            (("event ALARM;", "event ALARM else true;"), "line 3: an event has no else: it is absent"),
            (("| true  |", "|       |"), "no state and no transition gives ALARM a value"),
            (("output boolean OPEN;", "output boolean OPEN, IN_SHUT;"), "the process would have two signals IN_SHUT"),
            ((VALVE, "nonsense\n"), "line 1: nonsense is no word of a table"),
            ((VALVE, "automaton V\n"), "a line `automaton NAME` and a table of states are wanted"),
        ]:
            with self.subTest(told):
                self.assertIn(change[0], VALVE)
                with self.assertRaises(lexer.Unreadable) as found:
                    automaton.Automaton(VALVE.replace(*change))
                self.assertEqual(str(found.exception), told)


if __name__ == "__main__":
    unittest.main()
