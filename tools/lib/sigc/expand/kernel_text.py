"""The text of a kernel, and the user's place of each of its tokens."""
from sigc.expand.messages import At, Refused
from sigc.expand.terms import LEAST, Enumeration, Term

LEVELS = {"default": 0, "when": 1, "cell": 1, "beat": 1, "^+": 2, "^*": 2, "^-": 2, "or": 3, "xor": 3, "and": 4, "not": 5}
LEVELS |= dict.fromkeys(("=", "/=", "<", "<=", ">", ">="), 6) | {"+": 7, "-": 7, "*": 8, "/": 8, "modulo": 8, "neg": 9, "delay": 10, "clock": 11}
ATOM = 12
# What a reader takes in without parentheses beside `default`.
PLAIN = {"name", "const", "delay", "clock"}


def literal(term: Term) -> str:
    """A constant as the kernel writes it."""
    if isinstance(term.data, bool):
        return "true" if term.data else "false"
    if term.data == LEAST:
        raise Refused(term.at, f"the constant {LEAST} cannot be written in a kernel", "the least literal is -9223372036854775807")
    return str(term.data)


class KernelText:
    """Text that is written token by token, with the user's place of each."""

    def __init__(self):
        self.pieces: list[str] = []
        self.places: dict[tuple[int, int], At] = {}
        self.faults: set[tuple[int, int]] = set()
        self.line, self.col = 1, 1

    def put(self, text: str, at: At | None = None) -> None:
        """Writes a text without line breaks."""
        if at is not None:
            self.places[self.line, self.col] = at
        self.pieces.append(text)
        self.col += len(text)

    def new_line(self) -> None:
        self.pieces.append("\n")
        self.line, self.col = self.line + 1, 1

    def text(self) -> str:
        return "".join(self.pieces)

    def term(self, term: Term, level: int = 0) -> None:
        """Writes an expression, in parentheses where its operator is looser than what stands around."""
        own = LEVELS.get(term.op, ATOM)
        is_open = own < level or term.op == "const" and not isinstance(term.data, bool) and term.data < 0 and level > 9
        if is_open:
            self.put("(")
        self.inside(term, own)
        if is_open:
            self.put(")")

    def inside(self, term: Term, own: int) -> None:
        if term.op == "name":
            self.put(term.data, term.at)
        elif term.op == "const":
            self.put(literal(term), term.at)
        elif term.op in ("not", "beat", "neg", "clock"):
            self.put({"not": "not ", "beat": "when ", "neg": "-", "clock": "^"}[term.op], term.at)
            self.term(term.parts[0], {"not": 11, "beat": 6, "neg": 10, "clock": ATOM}[term.op])
        elif term.op == "delay":
            self.term(term.parts[0], 10)
            self.put(" ")
            self.put("$ 1 init ", term.at)
            self.term(term.data)
        else:
            self.between(term, own)

    def between(self, term: Term, own: int) -> None:
        """An operator between two operands; the left one of the same operator needs no parentheses."""
        one, other = term.parts
        is_chain = one.op == term.op and own not in (6,)
        self.term(one, own if is_chain else max(own + 1, tight(one, own)))
        self.put(" ")
        if term.op == "/" and term.data == "index":
            self.faults.add((self.line, self.col))
        self.put(f"{term.op} ", term.at)
        self.term(other, ATOM if term.op == "cell" and other.op != "clock" else max(own + 1, tight(other, own)))
        if term.op == "cell":
            self.put(" init ")
            self.term(term.data)


def tight(term: Term, own: int) -> int:
    """The level at which an operand needs no parentheses: those that a reader would want stand there anyway."""
    if own < 1:
        return 0 if term.op in PLAIN else ATOM
    return ATOM if LEVELS.get(term.op, ATOM) <= 8 else 0


def kernel_kind(kind: object) -> str:
    """The kernel's kind of a signal."""
    return "integer" if isinstance(kind, Enumeration) else str(kind)


def groups(kernel: KernelText, signals: list, begin: str, end: str) -> None:
    """Declarations, with one kind for signals of one kind that follow each other."""
    before = ""
    for number, it in enumerate(signals):
        kind = kernel_kind(it.kind)
        if kind == before:
            kernel.put(", ")
        else:
            kernel.put((end if number else "") + begin + kind + " ")
        kernel.put(it.name, it.at)
        before = kind
    if signals:
        kernel.put(end.strip() if begin else "")


def written(name: str, signals: list, equations: list, clusters: list) -> KernelText:
    """The whole kernel."""
    kernel = KernelText()
    inputs, outputs, inner = ([it for it in signals if it.role == role] for role in ("input", "output", "local"))
    kernel.put(f"process {name} = (? ")
    groups(kernel, inputs, "", "; ")
    kernel.put(" ! ")
    groups(kernel, outputs, "", "; ")
    kernel.put(")")
    kernel.new_line()
    for names, label, at in clusters:
        kernel.put(f'pragmas RunOn {{{", ".join(names)}}} {label} end pragmas' if len(clusters) == 1 else "", at)
    if len(clusters) > 1:
        kernel.put("pragmas " + " ".join(f'RunOn {{{", ".join(names)}}} {label}' for names, label, _ in clusters) + " end pragmas", clusters[0][2])
    if clusters:
        kernel.new_line()
    write_equations(kernel, equations)
    write_locals(kernel, inner)
    return kernel


def write_equations(kernel: KernelText, equations: list) -> None:
    mark = "(| "
    for name, right, at in equations:
        kernel.put(mark)
        if name is None:
            for number, it in enumerate(right):
                if number:
                    kernel.put(" ^= ", at)
                kernel.term(it, 1)
        else:
            kernel.put(name, at)
            kernel.put(" := ", at)
            kernel.term(right)
        kernel.new_line()
        mark = " | "
    kernel.put(" |)" if equations else "(| |)")
    kernel.new_line()


def write_locals(kernel: KernelText, inner: list) -> None:
    """The locals, a line for those of one kind that follow each other."""
    if not inner:
        kernel.put(";")
        kernel.new_line()
        return
    kernel.put("where")
    before = ""
    for it in inner:
        kind = kernel_kind(it.kind)
        if kind == before and kernel.col < 100:
            kernel.put(", ")
        else:
            kernel.put(";" if before else "")
            kernel.new_line()
            kernel.put(f"  {kind} ")
        kernel.put(it.name, it.at)
        before = kind
    kernel.put(";")
    kernel.new_line()
    kernel.put("end;")
    kernel.new_line()
