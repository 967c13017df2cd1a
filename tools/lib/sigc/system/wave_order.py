"""The order in which programs are run: waves, each after all that it depends on; programs that depend on each other are in one wave."""


def components_of(before):
    """The strongly connected components of a graph, each after those that it depends on (Tarjan); before has what each one depends on."""
    numbers, low, stack, on_stack, found = {}, {}, [], set(), []
    for start in range(len(before)):
        if start in numbers:
            continue
        work = [(start, iter(before[start]))]
        enter(start, numbers, low, stack, on_stack)
        while work:
            at, rest = work[-1]
            following = next(rest, None)
            if following is None:
                leave(work, at, numbers, low, stack, on_stack, found)
            elif following not in numbers:
                enter(following, numbers, low, stack, on_stack)
                work.append((following, iter(before[following])))
            elif following in on_stack:
                low[at] = min(low[at], numbers[following])
    return found


def enter(at, numbers, low, stack, on_stack):
    numbers[at] = low[at] = len(numbers)
    stack.append(at)
    on_stack.add(at)


def leave(work, at, numbers, low, stack, on_stack, found):
    """Goes back from a vertex, which may be the first one of a component."""
    work.pop()
    if work:
        low[work[-1][0]] = min(low[work[-1][0]], low[at])
    if low[at] == numbers[at]:
        component = cut(stack, at)
        del stack[len(stack) - len(component) :]
        on_stack.difference_update(component)
        found.append(component)


def cut(stack, at):
    """The end of a stack from a vertex on, which stands near the end as a rule."""
    begin = len(stack) - 1
    while stack[begin] != at:
        begin -= 1
    return stack[begin:]


def waves_of(before):
    """Lists of vertices: in each one all whose components depend on components of earlier waves alone."""
    level, waves = {}, []
    for component in components_of(before):
        inside = set(component)
        mine = 1 + max((level[it] for at in component for it in before[at] if it not in inside), default=-1)
        level.update(dict.fromkeys(component, mine))
        while len(waves) <= mine:
            waves.append([])
        waves[mine] += component
    return waves
