"""Expressions of the text as values: constants are computed, arrays are lists of their elements, calls are expanded."""
from sigc.expand import arrays, folding, memories, models
from sigc.expand.arrays import elementwise
from sigc.expand.messages import At, Refused
from sigc.expand.near import meant
from sigc.expand.scopes import Current, Scope, Signal, Value
from sigc.expand.terms import (BOOLEAN, CLOCKS, EQUALITIES, EVENT, INTEGER, Enumeration, OneOf, Term, agreed, alone, constant, is_constant, leaves, mapped,
                               settled, sizes_of, truth, whole)
from sigc.expand.tree import Node
from sigc.expand.unit import first_value

NEVER = "never"
MOST_ELEMENTS = 100_000


def value_of(node: Node, scope: Scope):
    """The value of an expression."""
    return READERS.get(node.op, binary)(node, scope)


def single(node: Node, scope: Scope, what: str = "a single value") -> Term:
    """The value of an expression that may be no array."""
    found = value_of(node, scope)
    if isinstance(found, list):
        raise Refused(scope.at(node.at), f"an array where {what} is wanted", "take an element, A[I]")
    return found


def constant_of(node: Node, scope: Scope, what: str) -> Term:
    """A constant that an expression has to be."""
    found = single(node, scope, what)
    if not is_constant(found):
        raise Refused(scope.at(node.at), f"{what} has to be a constant")
    return alone(found)


def integer_of(node: Node, scope: Scope, what: str) -> int:
    return whole(constant_of(node, scope, what)).data


def number(node: Node, scope: Scope) -> Term:
    return constant(node.data, INTEGER if node.op == "int" else BOOLEAN, scope.at(node.at))


def enumerated(node: Node, scope: Scope) -> Term:
    """`#a` or `T#a`."""
    name, value = node.data
    at = scope.at(node.at)
    types = [it for it in ([scope.found("types", name)] if name else types_of(scope)) if isinstance(it, Enumeration)]
    found = list(dict.fromkeys(it for it in types if value in it.values))
    if not found:
        known = [it for type_ in types for it in type_.values]
        raise Refused(at, f"unknown value #{value}", *meant(value, known, "#"))
    if len(found) == 1:
        return constant(found[0].values.index(value), found[0], at)
    return Term("const", OneOf(value, found), at, [], value)


def types_of(scope: Scope) -> list:
    """All types that are declared here or around, the innermost first."""
    own = list(scope.types.values()) + [it for use in reversed(scope.uses) for it in types_of(use)]
    return own + (types_of(scope.parent) if scope.parent else [])


def found_name(node: Node, scope: Scope):
    """What a name means; Refused where it means nothing."""
    found = scope.find(node.data)
    if found is None:
        is_value = any(node.data in it.values for it in types_of(scope) if isinstance(it, Enumeration))
        raise Refused(scope.at(node.at), f"unknown name {node.data}", *([f"did you mean `#{node.data}`?"] if is_value else meant(node.data, scope.visible())))
    return found


def name(node: Node, scope: Scope):
    found, at = found_name(node, scope), scope.at(node.at)
    if isinstance(found, Value):
        return mapped(lambda it: Term(it.op, it.kind, at, it.parts, it.data), found.value)
    return found.signal.value(at, (found.index,)) if isinstance(found, Current) else found.value(at)


def index(node: Node, scope: Scope):
    """`A[I, J]`: of a signal only the elements that are named are looked at."""
    base, at = node.parts[0], scope.at(node.at)
    indices = [single(it, scope, "an index") for it in node.parts[1:]]
    found = found_name(base, scope) if base.op == "name" else None
    if isinstance(found, Current):
        found = found.signal
    path = []
    while isinstance(found, Signal) and indices and is_constant(indices[0]) and len(path) < len(found.sizes):
        path.append(arrays.in_range(whole(indices[0]).data, found.sizes[len(path)], indices[0].at))
        indices.pop(0)
    value = found.value(at, tuple(path)) if isinstance(found, Signal) else value_of(base, scope)
    for it in indices:
        value = arrays.element(value, it, at, scope)
    return value


def previous(node: Node, scope: Scope):
    """`X[?]`: the element before this one."""
    base, at = node.parts[0], scope.at(node.at)
    if base.op != "name":
        raise Refused(at, "`[?]` stands behind a name")
    found_name(base, scope)
    begins = scope.beginning(base.data)
    if begins is None:
        raise Refused(at, f"{base.data}[?] has no first value", f"say it at the end of the iteration: with {base.data} := ..")
    turn, first, whole_array = begins
    return whole_array.value(at, (turn - 1,)) if turn else first


def array(node: Node, scope: Scope) -> list:
    return arrays.enumerated([value_of(it, scope) for it in node.parts], scope.at(node.at), scope)


def binary(node: Node, scope: Scope):
    """A function, or an operator on clocks, of two operands."""
    at = scope.at(node.at)
    one, other = (value_of(it, scope) for it in node.parts)
    if node.op == "|+":
        return joined(one, other, at, scope)
    if node.op == "|*":
        return repeated(arrays.named(one, "OPERAND", scope), integer_of(node.parts[1], scope, "how often an array is repeated"), at)
    if node.op in CLOCKS:
        return Term(node.op, EVENT, at, [clocked(it, at) for it in (one, other)])
    return elementwise(lambda a, b: compared(folding.function(node.op, a, b, at), scope), [one, other], at, scope)


def compared(term: Term, scope: Scope) -> Term:
    """A comparison of an enumeration with one of its values is a signal of its own."""
    if term.op not in EQUALITIES or not isinstance(term.parts[0].kind, Enumeration):
        return term
    one, other = sorted(term.parts, key=is_constant)
    if not is_constant(other):
        return term
    one = scope.unit.named(one, "COMPARED", scope.pace())
    found = scope.unit.comparisons.of(one.data, one.kind, other.data, term.at)
    return found if term.op == "=" else Term("not", BOOLEAN, term.at, [found])


def joined(one, other, at: At, scope: Scope) -> list:
    if not isinstance(one, list) or not isinstance(other, list):
        raise Refused(at, "this is no array", "`|+` joins two arrays; one element is [E]")
    return arrays.enumerated([*one, *other], at, scope)


def repeated(value, times: int, at: At) -> list:
    if not 1 <= times <= MOST_ELEMENTS:
        raise Refused(at, f"an array of {times} elements", "a size is at least 1")
    return value * times if isinstance(value, list) else [value] * times


def clocked(value, at: At) -> Term:
    """The clock of a value: all elements of an array have one."""
    return leaves(value)[0]


def unary(node: Node, scope: Scope):
    at, value = scope.at(node.at), value_of(node.parts[0], scope)
    function = {"not": folding.negated, "neg": folding.minus}[node.op]
    return mapped(lambda it: function(it, at), value)


def clock(node: Node, scope: Scope) -> Term:
    at = scope.at(node.at)
    return Term("clock", EVENT, at, [clocked(value_of(node.parts[0], scope), at)])


def beat(node: Node, scope: Scope) -> Term:
    at = scope.at(node.at)
    condition = truth(single(node.parts[0], scope, "a condition"))
    if is_constant(condition):
        return constant(True, EVENT, at) if condition.data else Term(NEVER, EVENT, at)
    return Term("beat", EVENT, at, [condition])


def sampled(node: Node, scope: Scope):
    """`E when B`."""
    at, value = scope.at(node.at), value_of(node.parts[0], scope)
    condition = truth(single(node.parts[1], scope, "a condition"))
    if is_constant(condition):
        return value if condition.data else mapped(lambda it: Term(NEVER, alone(it).kind, at), value)

    def one(term: Term, when: Term) -> Term:
        return Term("when", term.kind, at, [term, when])

    return elementwise(one, [value, condition], at, scope)


def merged(node: Node, scope: Scope):
    """`E default F`: what never comes is dropped."""
    at = scope.at(node.at)

    def one(first: Term, second: Term) -> Term:
        terms, kind = agreed([first, second], at)
        kept = [it for it in terms if it.op != NEVER]
        return Term("default", kind, at, kept) if len(kept) == 2 else (kept or terms)[0]

    return elementwise(one, [value_of(it, scope) for it in node.parts], at, scope)


def choice(node: Node, scope: Scope):
    """`if C then A else B`: of a constant condition the other part is not looked at."""
    at = scope.at(node.at)
    condition = value_of(node.parts[0], scope)
    if isinstance(condition, Term) and is_constant(truth(condition)):
        return value_of(node.parts[1 if condition.data else 2], scope)
    values = [condition, *(value_of(it, scope) for it in node.parts[1:])]
    return elementwise(lambda *it: chosen(*it, at), values, at, scope)


def chosen(condition: Term, first: Term, second: Term, at: At) -> Term:
    condition = truth(condition)
    if is_constant(condition):
        return first if condition.data else second
    terms, kind = agreed([first, second], at)
    return Term("if", kind, at, [condition, *terms])


def inits(node: Node | None, count: int, value, at: At, scope: Scope) -> list:
    """The inits of a memory of so many values like this one, the oldest first; where the text gives none, the first of their kind."""
    terms = mapped(alone, value)
    if count and node is None:
        scope.unit.told(at, f"no init is given: it is {first_told(leaves(terms)[0].kind)}")
        return [mapped(lambda it: constant(first_value(it.kind), memories.lasting(it.kind), at), terms)] * count
    if not count:
        return []
    given, sizes = value_of(node, scope), sizes_of(terms)
    for it in leaves(given):
        if not is_constant(it):
            raise Refused(scope.at(node.at), "an init has to be a constant")
    if sizes_of(given) == (count, *sizes) and sizes_of(given) != sizes:
        return [fitting_init(it, terms, scope.at(node.at)) for it in given]
    if sizes_of(given) not in ((), sizes):
        wanted = "one value" + (f" or an array of {', '.join(map(str, (count, *sizes)))}" if count > 1 or sizes else "")
        raise Refused(scope.at(node.at), "sizes differ", f"the init is an array of {', '.join(map(str, sizes_of(given)))}; wanted {wanted}")
    return [fitting_init(given, terms, scope.at(node.at))] * count


def first_told(kind: object) -> str:
    return f"#{kind.values[0]}" if isinstance(kind, Enumeration) else "0" if kind == INTEGER else "false"


def fitting_init(given, value, at: At):
    """An init of the form and the kind of a value."""
    if isinstance(value, list):
        return [fitting_init(given[number] if isinstance(given, list) else given, it, at) for number, it in enumerate(value)]
    kind = memories.lasting(value.kind)
    init = settled(given, kind)
    if init.kind != kind:
        raise Refused(at, "types clash", f"the init is {init.kind}, and the signal {kind}")
    return init


def delayed(node: Node, scope: Scope):
    """`X $ n init V`."""
    at, (count, init) = scope.at(node.at), node.data
    back = 1 if count is None else integer_of(count, scope, "the number of delays")
    if back < 0:
        raise Refused(scope.at(count.at), f"a delay by {back}", "a number of delays is at least 0")
    value = value_of(node.parts[0], scope)
    if not back:
        return value
    return with_times(value, inits(init, back, value, at, scope), at, scope)[-1]


def with_times(value, given: list, at: At, scope: Scope) -> list:
    """The previous values of a value, the last one first."""
    if isinstance(value, list):
        columns = [with_times(it, [init[number] for init in given], at, scope) for number, it in enumerate(value)]
        return [list(row) for row in zip(*columns)]
    return memories.delays(bare_refused(alone(value), "$"), given, at, scope)


def bare_refused(term: Term, word: str) -> Term:
    if is_constant(term):
        raise Refused(term.at, "a constant has no clock here", f"`{word}` wants a signal: write the constant without it, or `C when B`")
    return term


def window(node: Node, scope: Scope) -> list:
    """`X window N init V`: the last element is X."""
    at, (size, init) = scope.at(node.at), node.data
    count = integer_of(size, scope, "the size of a window")
    if not 1 <= count <= MOST_ELEMENTS:
        raise Refused(scope.at(size.at), f"a window of {count}", "a size is at least 1")
    value = mapped(lambda it: bare_refused(alone(it), "window"), value_of(node.parts[0], scope))
    value = arrays.named(value, "X", scope)
    times = with_times(value, inits(init, count - 1, value, at, scope), at, scope)
    return [*reversed(times), value]


def cell(node: Node, scope: Scope):
    at, value = scope.at(node.at), value_of(node.parts[0], scope)
    when = truth(bare_refused(single(node.parts[1], scope, "a condition"), "cell"))
    given = inits(node.data, 1, value, at, scope)[0]

    def one(term: Term, condition: Term, init: Term) -> Term:
        return memories.celled(bare_refused(alone(term), "cell"), condition, init, at, scope)

    return elementwise(one, [value, when, given], at, scope)


def count(node: Node, scope: Scope) -> Term:
    at, term = scope.at(node.at), bare_refused(alone(single(node.parts[0], scope)), "count")
    size = integer_of(node.parts[1], scope, "the number behind `count`")
    if size < 1:
        raise Refused(scope.at(node.parts[1].at), f"a count modulo {size}", "the number is at least 1")
    return memories.counted(term, size, at, scope)


def since(node: Node, scope: Scope) -> Term:
    one, other = (bare_refused(alone(single(it, scope)), node.op) for it in node.parts)
    return memories.since(one, other, node.op == "from", scope.at(node.at), scope)


def put(node: Node, scope: Scope) -> list:
    at, (place, new, value) = scope.at(node.at), node.parts
    return arrays.changed(single(place, scope, "an index"), value_of(new, scope), value_of(value, scope), at, scope)


def call(node: Node, scope: Scope):
    """A call in an expression: of a process with one output, or of a function of the language."""
    word = node.data[0]
    if word in ("min", "max", "abs") and models.found_model(word, scope) is None:
        return BUILT_IN[word](node, scope)
    results = models.called(node, scope, None)
    if len(results) != 1:
        raise Refused(scope.at(node.at), f"bad call of {word}", f"it has {len(results)} outputs, and an expression takes one: (A, B) := {word}(..)")
    return results[0]


def greatest(node: Node, scope: Scope):
    """`max` and `min`, of operands or of the elements of one array."""
    at = scope.at(node.at)
    values = [value_of(it, scope) for it in node.parts]
    if len(values) == 1:
        values = leaves(values[0]) if isinstance(values[0], list) else values
    if not values:
        raise Refused(at, f"{node.data[0]} wants an operand")
    found = values[0] if isinstance(values[0], list) else whole(values[0])
    relation = ">=" if node.data[0] == "max" else "<="

    def one(first: Term, second: Term) -> Term:
        return chosen(folding.function(relation, first, second, at), first, second, at)

    for it in values[1:]:
        found, it = arrays.named(found, "OPERAND", scope), arrays.named(it, "OPERAND", scope)
        found = elementwise(one, [found, it], at, scope)
    return found


def absolute(node: Node, scope: Scope):
    at = scope.at(node.at)
    if len(node.parts) != 1:
        raise Refused(at, "abs wants one operand")
    value = arrays.named(value_of(node.parts[0], scope), "OPERAND", scope)
    zero = constant(0, INTEGER, at)
    return mapped(lambda it: chosen(folding.function("<", it, zero, at), folding.minus(it, at), it, at), value)


BUILT_IN = {"min": greatest, "max": greatest, "abs": absolute}
READERS = {
    "int": number, "bool": number, "enum": enumerated, "name": name, "index": index, "previous": previous, "array": array, "call": call,
    "if": choice, "not": unary, "neg": unary, "beat": beat, "clock": clock, "when": sampled, "default": merged, "delay": delayed,
    "window": window, "cell": cell, "count": count, "after": since, "from": since, "put": put,
}
