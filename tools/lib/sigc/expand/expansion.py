"""A program on its way to the kernel, and what leads home from there: places, names, flows and outputs."""
import gc
import json
import re
import sys
from functools import cached_property

from sigc.expand import declarations, equations, kernel_forms, sizes
from sigc.expand.flows import Flows, Outputs, Port
from sigc.expand.kernel_text import KernelText, written
from sigc.expand.lowering import Lowering
from sigc.expand.messages import At, Note, Place, Refused
from sigc.expand.modules import Modules
from sigc.expand.parser import Parser
from sigc.expand.scopes import Scope, Signal
from sigc.expand.terms import BOOLEAN, EVENT, Enumeration, Term
from sigc.expand.tree import Process
from sigc.expand.unit import Unit
from sigc.read import files_read

# A longer text without marks and words beside each other that no kernel has is passed to sigc unread: reading takes longer than sigc.
LONG = 200_000
# How many calls of Python an expression of the most operators takes inside one another.
CALLS = 20_000
SAID = re.compile(r"(no root: )(\S+)( and )(\S+)( are independent)|(clock of )(\S+)( is not determined)|(condition )(\S+)( is forced)|(cycle through )(\S+)()"
                  r"|(input )(\S+)( is defined)|()(\S+)( is defined twice)|()(\S+)( is not defined)|(input )(\S+)( exhausted)")


class Expansion:
    """A program's kernel. A program that is one stays as it is, and so do its places and names."""

    def __init__(self, path: str, text: str, kernel: KernelText | None = None, unit: Unit | None = None):
        self.path, self.is_kernel = path, kernel is None
        self.kernel = text if kernel is None else kernel.text()
        self.written, self.unit = kernel, unit
        self.notes: list[Note] = unit.notes if unit else []
        self.asserts: list[str] = unit.claims["assert"] if unit else []
        self.assumes: list[str] = unit.claims["assume"] if unit else []
        self.inputs: list[Port] = []
        self.outputs: list[Port] = []
        self.count, self.needs = 0, {}

    @cached_property
    def fault(self) -> Place | None:
        """Where a text that is not expanded stops to be a kernel; none where it is one."""
        found = kernel_forms.fault_of(self.kernel) if self.is_kernel else None
        return Place(self.path, *found) if found else None

    def at(self, line: int, col: int) -> At:
        """The user's place of a place of the kernel: that of the last token that begins there or before it on the line."""
        if self.written is None:
            return At(Place(self.path, line, col))
        found = [it for it in self.columns.get(line, []) if it <= col]
        return self.written.places[line, max(found)] if found else At(Place(self.path, 1, 1))

    @cached_property
    def columns(self) -> dict[int, list[int]]:
        """The columns of the kernel's lines at which a token begins that has a place."""
        lines: dict[int, list[int]] = {}
        for line, col in self.written.places:
            lines.setdefault(line, []).append(col)
        return lines

    def place(self, line: int, col: int) -> str:
        """The user's place of a place of the kernel, FILE:LINE:COLUMN, with the turns of iterations and the call."""
        return str(self.at(line, col))

    def exclusions(self, line: int, col: int) -> dict[At, str]:
        """The definitions that exclude each other which an equation of the kernel is about, with words: it lets them do so,
        or merges them."""
        if self.unit is None:
            return {}
        at, left = self.at(line, col), re.match(r"[( ]\|+ (\w+) := ", self.kernel.split("\n")[line - 1])
        found = {it: words for one in self.unit.exclusions.values() for it, words in one.items() if it == at}
        return found | self.unit.exclusions.get(left[1] if left else "", {})

    def is_index(self, line: int, col: int) -> bool:
        """Whether a division of the kernel stands for an index, and a divisor 0 for one out of range."""
        return self.written is not None and (line, col) in self.written.faults

    def name(self, name: str) -> str:
        """What the user calls a signal of the kernel."""
        if self.unit is None:
            return name
        found = re.fullmatch(r"#(\d+):(\d+)", name)
        if found:
            at = self.at(int(found[1]), int(found[2]))
            return f"#{at.place.line}:{at.place.col}"
        return self.unit.names.user(name)

    def kernel_name(self, name: str) -> str:
        """The kernel's name of a signal that the user names."""
        return self.kernel_names.get(name, name)

    @cached_property
    def kernel_names(self) -> dict[str, str]:
        if self.unit is None:
            return {}
        return {shown: name for name, shown in reversed(self.unit.names.shown.items()) if name in self.unit.signals}

    def said(self, text: str) -> str:
        """What sigc says, with the user's names."""
        if self.unit is None:
            return text
        return SAID.sub(lambda it: "".join(self.name(part) if number % 2 else part for number, part in enumerate(p for p in it.groups() if p is not None)), text)

    def flows_to_kernel(self, text: str) -> str:
        """A flow file of the user's as the kernel takes it; FlowFault where it has no reading."""
        return text if self.is_kernel else Flows(self.inputs).kernel(text)

    def outputs_to_user(self, text: str) -> str:
        """What a run of the kernel writes as the user reads it."""
        return text if self.is_kernel else Outputs(self.outputs).text(text)

    def output_lines(self) -> Outputs:
        """A reader that takes a run line by line."""
        return Outputs(self.outputs)

    def too_large(self) -> Refused | None:
        """What is wrong where the kernel has more signals than sigc takes."""
        if self.count <= sizes.MOST_SIGNALS:
            return None
        from sigc.expand import largest

        refused = sizes.too_many(self.count, self.needs, self.path)
        refused.advice += largest.advice(self)
        return refused

    def map(self) -> str:
        """Places, names and kinds as JSON."""
        places = self.written.places.items() if self.written else []
        kinds = {name: str(it.kind) for name, it in (self.unit.signals.items() if self.unit else ())}
        types = {it.kind.name: it.kind.values for it in (self.unit.signals.values() if self.unit else ()) if isinstance(it.kind, Enumeration)}
        ports = {role: [{"name": it.name, "kind": str(it.kind), "sizes": list(it.sizes), "kernel": it.names} for it in found]
                 for role, found in (("inputs", self.inputs), ("outputs", self.outputs))}
        found = {"program": self.path, "is_kernel": self.is_kernel, "places": [[*it, str(at)] for it, at in places],
                 "names": {name: self.name(name) for name in kinds}, "kinds": kinds, "types": types, **ports,
                 "asserts": self.asserts, "assumes": self.assumes, "notes": [str(it) for it in self.notes]}
        return json.dumps(found, indent=1) + "\n"


def expanded(path: str, include=(), text: str | None = None, values: dict | None = None) -> Expansion:
    """The kernel of a program's file. Refused where it has none, with the user's place; a text that has neither the
    kernel's syntax nor any other construct stays as it is, and sigc says what is wrong with it."""
    text = files_read.read_text(path, files_read.PROGRAM_BYTES) if text is None else text
    was_collecting = gc.isenabled()
    gc.disable()
    try:
        return expansion_of(path, text, include, values or {})
    except RecursionError:
        raise Refused(None, "more than 512 operators", f"{path} has an equation of too many operators, or too many constructs inside one another") from None
    finally:
        if was_collecting:
            gc.enable()


def expansion_of(path: str, text: str, include, values: dict) -> Expansion:
    """The expansion of a text. While it is made nothing is collected: there are many small objects, and no rubbish."""
    if len(text) > files_read.PROGRAM_BYTES:
        return Expansion(path, text)
    sys.setrecursionlimit(max(sys.getrecursionlimit(), CALLS))
    parser = None
    try:
        parser = Parser(text, path)
        if len(text) > LONG and not kernel_forms.is_foreign(parser.tokens):
            return Expansion(path, text)
        found, modules = parser.program()
    except (Refused, RecursionError) as fault:
        is_wider = parser is not None and parser.is_wider or kernel_forms.is_meant_wider(text)
        if not is_wider or parser is not None and kernel_forms.is_kernel(text, parser.tokens):
            return Expansion(path, text)
        raise fault if isinstance(fault, Refused) else Refused(None, "nesting deeper than 64") from None
    if kernel_forms.is_kernel(text, parser.tokens) or not parser.is_wider and not kernel_forms.is_expanded(text):
        return Expansion(path, text)
    if not found.processes:
        told = "this is a module: another program uses it" if modules else "there is no process"
        raise Refused(Place(path, 1, 1), "no process to run", told)
    whole = Whole(path, text, tuple(include), values)
    whole.unit.modules.here = {it.name: it for it in modules}
    return whole.expansion(found)


class Whole:
    """The first process of a text, as a kernel."""

    def __init__(self, path: str, text: str, include: tuple[str, ...], values: dict):
        self.path, self.text, self.include = path, text, include
        self.unit = Unit()
        self.unit.modules = Modules(self.unit, include)
        self.unit.values = values

    def expansion(self, found) -> Expansion:
        unit, process = self.unit, found.processes[0]
        top = Scope(unit)
        equations.open_scope(found, top)
        inner = Scope(unit, top, True)
        inner.active, unit.scope = (process,), inner
        if process.parameters:
            raise Refused(process.parameters[0].at, f"bad call of {process.name}", "the first process has no parameters: give it constants")
        paces = self.keep_names(process)
        equations.open_scope(process.locals, inner)
        self.comes(process, paces, inner)
        ports = self.ports(process, inner, paces)
        equations.declare_signals(process.locals, inner)
        self.tie_paces(process, paces, inner)
        equations.body(process.body, inner)
        equations.close_scope(inner)
        self.clusters(process, inner)
        return self.made(process, ports)

    def keep_names(self, process: Process) -> list[tuple[str, Place]]:
        """Keeps the user's names of the first process; the inputs that the pragma Comes names."""
        signals = [*process.inputs, *process.outputs, *process.locals.signals]
        single = {it.name for it in signals if not it.kind.sizes}
        paces = [it for pragma in process.pragmas if pragma.name == "Comes" for it in pragma.names]
        for name, place in paces:
            if any(it.name == f"HAS_{name}" for it in signals):
                raise Refused(place, f"HAS_{name} is declared", "the pragma Comes makes an input of that name: call the other one otherwise")
        self.unit.names.kept(single)
        return paces

    def comes(self, process: Process, paces: list, inner: Scope) -> None:
        """The inputs by which others come."""
        for number, (name, place) in enumerate(paces):
            if not any(it.name == name for it in process.inputs) or name in [it for it, _ in paces[:number]]:
                raise Refused(place, "bad pragma", f"Comes names inputs of the process, each once, and {name} is none")
            made = self.unit.names.made(f"HAS_{name}", f"HAS_{name}")
            self.unit.declared(made, BOOLEAN, "input", At(place))
            inner.signals[made] = Signal(made, BOOLEAN, (), At(place), "input", made)

    def ports(self, process: Process, inner: Scope, paces: list) -> tuple[list[Port], list[Port]]:
        """Declares the inputs and the outputs."""
        inputs = [declarations.signal(it, inner, "input") for it in process.inputs]
        outputs = [declarations.signal(it, inner, "output") for it in process.outputs]
        inner.inits = {it.name: it.init for it in process.outputs if it.init is not None}
        has = [Port(f"HAS_{name}", BOOLEAN, (), f"HAS_{name}") for name, _ in paces]
        return has + list(map(port_of, inputs)), list(map(port_of, outputs))

    def tie_paces(self, process: Process, paces: list, inner: Scope) -> None:
        terms = [Term("name", BOOLEAN, At(place), [], f"HAS_{name}") for name, place in paces]
        if len(terms) > 1:
            self.unit.tie(terms, terms[0].at)
        for (name, place), has in zip(paces, terms):
            at = At(place)
            first = inner.signals[name].kernel_names()[0]
            comes = Term("name", inner.signals[name].kind, at, [], first)
            self.unit.tie([comes, Term("beat", EVENT, at, [has])], at)

    def clusters(self, process: Process, inner: Scope) -> None:
        for pragma in process.pragmas:
            if pragma.name == "RunOn":
                names = []
                for name, place in pragma.names:
                    found = inner.signals.get(name)
                    if not isinstance(found, Signal):
                        raise Refused(place, "bad pragma", f"{name} is no signal of {process.name}")
                    names += found.kernel_names()
                self.unit.clusters.append((names, pragma.label, At(pragma.at)))

    def made(self, process: Process, ports: tuple[list[Port], list[Port]]) -> Expansion:
        lowering = Lowering(self.unit)
        signals = list(self.unit.signals.values())
        found = Expansion(self.path, self.text, written(process.name, signals, lowering.equations, self.unit.clusters), self.unit)
        found.inputs, found.outputs = ports
        found.count, found.needs = sizes.counted(self.unit.signals, lowering.equations)
        found.text, found.include = self.text, self.include
        return found


def port_of(signal: Signal) -> Port:
    return Port(signal.name, signal.kind, signal.sizes, signal.names)
