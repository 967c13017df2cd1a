"""Whole programs drawn by chance over all constructs of docs/signal.md, with flows."""
from second.drawn_equations import DrawnEquations
from second.drawn_expressions import INPUTS

TEXT = """constant integer N = {size}, K = N + {more};
constant [N] integer TAB = [{table}];
type T = enum ({values});
process P = (? integer A; boolean B; T E; integer X; boolean C, D; T F; [N] integer V; [N] T W ! {outputs})
 pragmas Comes {{A, B, E}} end pragmas
(| X ^= C ^= D ^= F ^= V ^= W ^= HAS_A
 | {equations}
 |)
where
  process ACC = (? boolean R; integer I ! integer O)
    (| Z := O $ 1 init 0 | O := if R then I modulo 100 else (Z + I) modulo 1000 |) where integer Z; end;
  process STEP = {{ integer S }} (? integer I ! integer O)
    (| O := I modulo 100 + S * Q | Q := I count S |) where integer Q; end;
  process MIX = {{ integer S; boolean G }} (? integer I ! integer O)
    O := if G then I modulo 100 + S else STEP{{S}}(I) - (I $ S init 1) modulo 100;
end;
"""


class DrawnProgram(DrawnEquations):
    """A program with a few equations."""

    def text(self) -> str:
        while not self.equations:
            for _ in range(self.random.choice([1, 1, 2])):
                self.define()
        outputs = "; ".join(f"{self.kind(kind, sizes)} {name}" for name, kind, sizes in self.declared)
        table = ", ".join(str(self.random.randint(-5, 9)) for _ in range(self.size))
        more = self.random.randint(1, 4)
        return TEXT.format(size=self.size, more=more, table=table, values=", ".join(self.values), outputs=outputs, equations="\n | ".join(self.equations))

    def value_for(self, kind: str, sizes: int):
        """A value of an input."""
        if sizes:
            return [self.value_for(kind, 0) for _ in range(self.size)]
        return self.random.randint(-9, 12) if kind == "int" else self.often(0.5) if kind == "bool" else self.value()

    def flows(self) -> dict[str, list]:
        count = self.random.randint(6, 12)
        found = {f"HAS_{name}": [self.often(0.6) for _ in range(count)] for name in "ABE"}
        return found | {name: [self.value_for(kind, sizes) for _ in range(count)] for name, kind, sizes, _ in INPUTS}


def drawn(seed: int) -> tuple[str, dict[str, list]]:
    """A program and flows for it."""
    program = DrawnProgram(seed)
    return program.text(), program.flows()
