"""Which signals may come together, and which truths: what equations say of it as clauses, and what cannot be, with the
equations that it takes.

A clause is a list of literals, one of which holds: a number stands for a variable, its negative for the contrary. Integers
are not looked at, as sigc does not: a comparison of integers, a delay and an input are true or false as they like.
"""
from sigc.read.signal_kinds import kind_of, kinds_of
from sigc.read.syntax import FUNCTIONS

MOST_BRANCHES = 60
LOGIC = ("and", "or", "xor", "not")


class Reactions:
    """The clauses of a process that is read. `comes` and `truth` have the variables of a signal's name or of an expression."""

    def __init__(self, process):
        self.kinds = kinds_of(process)
        self.parameters = {it.name.text for it in process.parameters}
        self.clauses, self.tags, self.at, self.count = [], [], {}, 0
        self.tag, self.comes, self.truth, self.search = None, {}, {}, None
        for it in process.signals():
            self.signal(it.name.text, it.kind)
        for tag, equation in enumerate(process.equations):
            self.tag = tag
            self.equation(equation)

    def variable(self):
        self.count += 1
        return self.count

    def signal(self, key, kind):
        """Variables for a signal; an event is true where it comes."""
        self.comes[key] = self.variable()
        if kind != "integer":
            self.truth[key] = self.variable()
        if kind == "event":
            self.add(self.truth[key])

    def add(self, *literals):
        number = len(self.clauses)
        self.clauses.append(literals)
        self.tags.append(self.tag)
        for it in literals:
            self.at.setdefault(-it, []).append(number)

    def same(self, one, other, *unless):
        self.add(-one, other, *unless)
        self.add(one, -other, *unless)

    # Equations.

    def equation(self, equation):
        if equation.form == "definition" and equation.lefts[0].text in self.comes:
            right = self.expression(equation.right)
            if right is not None:
                self.alike(equation.lefts[0].text, right)
        elif equation.form == "clock":
            terms = [it for it in map(self.expression, equation.terms) if it is not None]
            for one, other in zip(terms, terms[1:]):
                self.same(self.comes[one], self.comes[other])

    def alike(self, key, other):
        """Two signals that are the same."""
        self.same(self.comes[key], self.comes[other])
        if key in self.truth and other in self.truth:
            self.same(self.truth[key], self.truth[other], -self.comes[key])

    def is_constant(self, node):
        return node.op in ("number", "truth") or node.op == "neg" and self.is_constant(node.parts[0]) or node.op == "name" and node.at.text in self.parameters

    def expression(self, node):
        """The key of an expression's variables; None for a constant and for what has none."""
        if node.op == "name":
            return node.at.text if node.at.text in self.comes else None
        if self.is_constant(node):
            return None
        parts = [self.expression(it) for it in node.parts]
        if any(key is None and not self.is_constant(it) for key, it in zip(parts, node.parts)):
            return None
        key = node.at
        self.signal(key, kind_of(node, self.kinds) or "integer")
        self.of_operator(node, key, parts)
        return key

    def of_operator(self, node, key, parts):
        comes, given = self.comes[key], [self.comes[it] for it in parts if it is not None]
        if node.op in FUNCTIONS or node.op in ("$", "^"):
            for it in given:
                self.same(comes, it)
            self.of_function(node, key, parts)
        elif node.op in ("when", "at"):
            self.of_when(node, key, parts)
        elif node.op in ("default", "^+") and len(given) == 2:
            self.either(comes, *given)
            if node.op == "default":
                self.of_default(key, *parts)
        elif node.op in ("^*", "^-") and len(given) == 2:
            one, other = given[0], given[1] if node.op == "^*" else -given[1]
            self.join(comes, one, other)
        elif node.op == "cell" and len(given) == 2:
            asked = self.variable()
            self.join(asked, given[1], self.truth.get(parts[1], given[1]))
            self.either(comes, given[0], asked)

    def join(self, one, *others):
        """One holds where all others do."""
        for it in others:
            self.add(-one, it)
        self.add(one, *(-it for it in others))

    def either(self, one, *others):
        self.join(-one, *(-it for it in others))

    def of_when(self, node, key, parts):
        asked = parts[-1]
        if asked is None:
            return
        conditions = [self.comes[asked], *([self.truth[asked]] if asked in self.truth else [])]
        value = parts[0] if node.op == "when" else None
        self.join(self.comes[key], *conditions, *([self.comes[value]] if value is not None else []))
        if value is not None and key in self.truth and value in self.truth:
            self.same(self.truth[key], self.truth[value], -self.comes[key])
        elif value is None and node.op == "when" and node.parts[0].op == "truth":
            self.add(self.truth[key] if node.parts[0].at.text == "true" else -self.truth[key], -self.comes[key])

    def of_default(self, key, one, other):
        """The truth of the first side where that comes, else of the other one."""
        if key in self.truth and one in self.truth and other in self.truth:
            self.same(self.truth[key], self.truth[one], -self.comes[one])
            self.same(self.truth[key], self.truth[other], self.comes[one], -self.comes[other])

    def of_function(self, node, key, parts):
        """The truth of a function of truths."""
        if node.op not in LOGIC and node.op not in ("=", "/=") or any(it is not None and it not in self.truth for it in parts):
            return
        values = [self.truth[it] if it is not None else self.fixed(part) for it, part in zip(parts, node.parts)]
        if None in values:
            return
        it = self.truth[key]
        if node.op == "not":
            self.same(it, -values[0])
        elif node.op in ("and", "or"):
            self.join(it, *values) if node.op == "and" else self.either(it, *values)
        else:
            self.differ(it if node.op in ("xor", "/=") else -it, *values)

    def fixed(self, node):
        """A variable that has the truth of a constant."""
        if node.op != "truth":
            return None
        it = self.variable()
        self.add(it if node.at.text == "true" else -it)
        return it

    def differ(self, it, one, other):
        self.add(-it, one, other)
        self.add(-it, -one, -other)
        self.add(it, -one, other)
        self.add(it, one, -other)

    def merge(self):
        """Takes variables that are always the same for one: what is asked then is quick, and the tags tell nothing more."""
        pairs, heads = {tuple(it) for it in self.clauses if len(it) == 2}, {}

        def head(variable):
            while heads.get(variable, variable) != variable:
                variable = heads[variable]
            return variable

        def headed(literal):
            return head(literal) if literal > 0 else -head(-literal)

        for one, other in pairs:
            if one < 0 < other and ((-one, -other) in pairs or (-other, -one) in pairs):
                heads[head(-one)] = head(other)
        merged = {frozenset(map(headed, it)) for it in self.clauses}
        self.clauses, self.tags, self.at = [], [], {}
        for it in sorted(map(sorted, merged)):
            if not any(-literal in it for literal in it):
                self.add(*it)
        self.comes = {key: head(it) for key, it in self.comes.items()}
        self.truth = {key: head(it) for key, it in self.truth.items()}
        return self

    # What cannot be.

    def refuted(self, *assumed, branches=MOST_BRANCHES):
        """The tags of clauses with which these literals cannot hold together; None where that was not found."""
        if self.search is None:
            self.search = Search(self)
        return self.search.refuted(assumed, [branches])


class Search:
    """Truths of variables that follow from others, each with the clause that it follows from."""

    def __init__(self, reactions):
        self.reactions, self.reasons, self.order = reactions, {}, []
        self.broken = self.follow((it[0], number) for number, it in enumerate(reactions.clauses) if len(it) == 1)

    def refuted(self, assumed, branches):
        begun = len(self.order)
        clause = self.broken or self.follow((it, None) for it in assumed)
        found = self.by_cases(branches) if clause is None else self.blamed(clause)
        for it in self.order[begun:]:
            del self.reasons[it]
        del self.order[begun:]
        return found

    def follow(self, begin):
        """Sets literals, each with its clause, and all that follows; the clauses that break, None where none does."""
        queue = list(begin)
        for literal, reason in queue:
            if literal in self.reasons:
                continue
            if -literal in self.reasons:
                return [it for it in (reason, self.reasons[-literal]) if it is not None]
            self.reasons[literal] = reason
            self.order.append(literal)
            for number in self.reactions.at.get(literal, ()):
                rest = [it for it in self.reactions.clauses[number] if -it not in self.reasons]
                if not rest:
                    return [number]
                if len(rest) == 1 and rest[0] not in self.reasons:
                    queue.append((rest[0], number))
        return None

    def blamed(self, clauses):
        """The tags of all clauses that lead to these."""
        tags, known, rest = set(), set(), list(clauses)
        while rest:
            number = rest.pop()
            if number in known:
                continue
            known.add(number)
            tags.add(self.reactions.tags[number])
            for it in self.reactions.clauses[number]:
                for literal in (it, -it):
                    if self.reasons.get(literal) is not None:
                        rest.append(self.reasons[literal])
        return tags - {None}

    def by_cases(self, branches):
        """Both truths of some variable refuted."""
        literal = self.open_literal()
        branches[0] -= 1
        if literal is None or branches[0] < 0:
            return None
        one = self.refuted((literal,), branches)
        other = self.refuted((-literal,), branches) if one is not None else None
        return None if other is None else one | other

    def open_literal(self):
        """A literal of a clause of two that a literal of late has left open."""
        for literal in self.order:
            for number in self.reactions.at.get(literal, ()):
                clause = self.reactions.clauses[number]
                if not any(it in self.reasons for it in clause):
                    return next((it for it in clause if -it not in self.reasons), None)
        return None

