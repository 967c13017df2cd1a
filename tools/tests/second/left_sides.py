"""Which names a body defines, for the second evaluator."""


def lefts_of(tree: tuple, is_indexed: bool = False) -> set[str]:
    """The names that a body defines, without those that its own `where`s declare; with indexed ones if they are wanted."""
    return READERS.get(tree[0], nothing)(tree, is_indexed)


def nothing(*_) -> set[str]:
    return set()


def of_body(tree: tuple, is_indexed: bool) -> set[str]:
    found = set().union(*(lefts_of(it, is_indexed) for it in tree[1]))
    return found - {it[0] for it in tree[2]["signals"]} if tree[2] else found


def of_definition(tree: tuple, is_indexed: bool) -> set[str]:
    return {name for it in tree[1] if (name := name_of(it, is_indexed))}


def name_of(left: tuple, is_indexed: bool) -> str | None:
    while left[0] == "function" and is_indexed:
        left = left[2][0]
    return left[1] if left[0] == "name" else None


def of_case(tree: tuple, is_indexed: bool) -> set[str]:
    bodies = [body for _, body in tree[2]] + ([tree[3]] if tree[3] else [])
    return set().union(*(lefts_of(it, is_indexed) for it in bodies))


def of_automaton(tree: tuple, is_indexed: bool) -> set[str]:
    return {tree[1]}.union(*(lefts_of(body, is_indexed) for _, body, _ in tree[2]))


def of_iteration(tree: tuple, is_indexed: bool) -> set[str]:
    return lefts_of(tree[3], True) if is_indexed else set()


READERS = {"body": of_body, "define": of_definition, "case": of_case, "automaton": of_automaton, "iterate": of_iteration}
