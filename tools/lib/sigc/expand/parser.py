"""Reads a program or a module: its declarations, and by the readers of the other parts its equations and expressions."""
from sigc.expand.messages import Place, Refused
from sigc.expand.read_equations import ReadEquations
from sigc.expand.tree import Block, ConstantOf, Declared, Kind, Locals, Module, Pragma, Process, TypeOf, Use

KINDS = ("integer", "boolean", "event")
MODELS = ("process", "function", "node")
# Kinds and words of SIGNAL V4 that have no counterpart, each with what to write instead.
NO_KINDS = {
    "real": "count in parts of a thousand: docs/signal.md has fixed point", "dreal": "count in parts of a thousand: docs/signal.md has fixed point",
    "complex": "write two integers", "dcomplex": "write two integers", "char": "write an enumeration or an integer",
    "string": "write an enumeration or an integer", "short": "write `integer`, which has 64 bits", "long": "write `integer`, which has 64 bits",
    "struct": "write one signal for each part", "bundle": "write one signal for each part",
    "shared": "write one definition of the signal", "statevar": "write a delay, `Z := X $ 1 init 0`",
    "external": "write the process, or make what it computes an input", "action": "write a process",
}


class Parser(ReadEquations):
    """A reader of a whole text."""

    def program(self) -> tuple[Locals, list[Module]]:
        """The declarations of a text, its processes among them, and its modules."""
        found, modules = Locals(), []
        while self.here().kind != "end":
            if self.sees("module"):
                modules.append(self.module())
            elif not self.declaration(found):
                self.stop("`process`, `use`, `module`, `type` or `constant`")
        return found, modules

    def module(self) -> Module:
        self.wider()
        self.step()
        name, place = self.named("the name of a module")
        self.take("=")
        found = Locals()
        while not self.sees("end"):
            if not self.declaration(found):
                self.stop("`process`, `use`, `type`, `constant` or `end`")
        self.step()
        self.take(";")
        return Module(name, place, found)

    def declaration(self, found: Locals) -> bool:
        """Reads a declaration other than of signals; whether there is one."""
        if self.sees(*MODELS) and (self.sees("process") or self.ahead(2).text == "="):
            self.is_wider |= not self.sees("process")
            found.processes.append(self.process())
        elif self.sees("use"):
            self.wider()
            self.step()
            found.uses += [Use(*it) for it in self.listed(lambda: self.named("the name of a module"))]
            self.take(";")
        elif self.sees("type"):
            self.wider()
            found.types.append(self.type())
        elif self.sees("constant"):
            self.wider()
            self.step()
            found.constants += self.constants()
        else:
            return False
        return True

    def type(self) -> TypeOf:
        self.step()
        name, place = self.named("the name of a type")
        self.take("=")
        if self.sees("enum"):
            self.step()
            self.take("(")
            values = self.listed(lambda: self.named("a value"))
            self.take(")")
            found = TypeOf(name, place, values, None)
        else:
            found = TypeOf(name, place, None, self.kind())
        self.take(";")
        return found

    def constants(self) -> list[ConstantOf]:
        kind = self.kind()

        def one() -> ConstantOf:
            name, place = self.named("the name of a constant")
            self.take("=")
            return ConstantOf(kind, name, place, self.expression())

        found = self.listed(one)
        self.take(";")
        return found

    def kind(self) -> Kind:
        """Sizes and the name of a kind."""
        sizes, place = [], self.place()
        if self.sees("["):
            self.step()
            sizes = self.listed(self.expression)
            self.take("]")
        token = self.here()
        if token.text in NO_KINDS and (self.ahead().kind == "name" or self.ahead().text == "("):
            self.wider()
            self.stop("`integer`, `boolean`, `event` or the name of a type", f"`{token.text}` has no counterpart: {NO_KINDS[token.text]}")
        if token.text in KINDS:
            return Kind(sizes, self.step().text, place)
        return Kind(sizes, self.name("`integer`, `boolean`, `event` or the name of a type").text, place)

    def group(self, may_begin: bool) -> list[Declared]:
        kind = self.kind()

        def one() -> Declared:
            name, place = self.named()
            if self.sees("init") and not may_begin:
                self.stop("`,` or `;`", "an input has no init")
            return Declared(kind, name, place, self.init())

        return self.listed(one)

    def groups(self, end: str, may_begin: bool = False) -> list[Declared]:
        found = []
        while not self.sees(end):
            found += self.group(may_begin)
            if not self.sees(end):
                self.take(";")
        return found

    def where(self) -> Locals:
        self.step()
        found = Locals()
        while not self.sees("end"):
            if not self.declaration(found):
                found.signals += self.group(True)
                self.take(";")
        self.step()
        return found

    def process(self) -> Process:
        self.step()
        name, place = self.named("the name of a process")
        self.take("=")
        parameters = []
        if self.sees("{"):
            self.step()
            parameters = self.groups("}")
            self.take("}")
        self.take("(")
        self.take("?")
        inputs = self.groups("!")
        self.take("!")
        outputs = self.groups(")", True)
        self.take(")")
        pragmas = self.pragmas() if self.sees("pragmas") else []
        body = self.process_body(place)
        found = Process(name, place, parameters, inputs, outputs, pragmas, body, Locals())
        if self.sees("where"):
            found.locals = self.where()
        self.take(";")
        return found

    def process_body(self, place: Place):
        """The body of a process; Refused for what SIGNAL V4 has in its place."""
        if self.sees(";") or self.sees("external"):
            self.wider()
            raise Refused(place, "a process without a body", "write its equations, or make what it computes an input")
        if self.sees("spec"):
            self.wider()
            self.stop("a body", "`spec` is not taken: write clock equations in the body, and what is to hold as assert(..)")
        found = self.body()
        return found if isinstance(found, Block) else Block([found], Locals(), place)

    def pragmas(self) -> list[Pragma]:
        self.step()
        found = []
        while not self.sees("end"):
            place = self.place()
            name = self.name("the name of a pragma").text
            if name not in ("RunOn", "Comes"):
                self.is_wider = True
                raise Refused(place, f"pragma {name} is not taken", "there are `Comes {A, B}` and `RunOn {X} \"1\"`: leave it out")
            self.take("{")
            names = self.listed(self.named)
            self.take("}")
            label = ""
            if name == "RunOn":
                if self.here().kind != "label":
                    self.stop("a number in quotes")
                label = self.step().text
            else:
                self.wider()
            found.append(Pragma(name, names, label, place))
        self.step()
        self.take("pragmas")
        return found


def parsed(text: str, file: str) -> tuple[Locals, list[Module], bool]:
    """A text's declarations and modules, and whether it has anything that no kernel has. A Refused of a text that has
    nothing of that yet is marked by `is_wider` False."""
    walk = None
    try:
        walk = Parser(text, file)
        return *walk.program(), walk.is_wider
    except Refused as refused:
        refused.is_wider = walk is not None and walk.is_wider
        raise
