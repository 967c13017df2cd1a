"""Programs of a system that cannot begin: each waits within an instant for the answer to what it gives in this instant.

An output that comes only where an input does gives no more values than the input has. So on a circle of programs on which this
holds of each, none gets a first value. It is found by the guards of the images; other circles may stop too, which a run tells.
"""
from sigc.image.diagrams import Diagrams
from sigc.system.network import Outside
from sigc.system.system_tokens import Fault


class Clocks:
    """When inputs and outputs of a program are present, by the guards of its image."""

    def __init__(self, image):
        self.image, self.diagrams, self.nodes = image, Diagrams(), {0: 0, 1: 1}
        self.presence = {}
        for number, it in enumerate(image.nodes):
            low, high = self.nodes[it.low], self.nodes[it.high]
            self.nodes[number + 2] = self.diagrams.node(it.condition, low, high)
        for it in image.operations:
            if it.kind != "Store":
                target = it.fields[0]
                self.presence[target] = self.diagrams.either(self.presence.get(target, 0), self.nodes[it.guard])

    def needs(self, output, read):
        """Whether an output comes only where an input does."""
        return self.diagrams.implies(self.presence.get(output, 0), self.presence.get(read, 0))


class Answers:
    """The inputs of the nodes of a network, and which of them an output waits for."""

    def __init__(self, network):
        self.network, self.clocks, self.needed = network, {}, {}
        self.readers = {}
        for number, node in enumerate(network.nodes):
            for at, source in enumerate(node.sources):
                if not isinstance(source, Outside):
                    self.readers.setdefault(source.node, []).append((source.port, number, at))

    def is_needed(self, program, output, read):
        key = program.path, output, read
        if key not in self.needed:
            clocks = self.clocks.setdefault(program.path, None) or Clocks(program.image)
            self.clocks[program.path] = clocks
            self.needed[key] = clocks.needs(program.outputs[output].signals[0], program.inputs[read].signals[0])
        return self.needed[key]

    def following(self, node, read):
        """The inputs that get no value before this one does."""
        program = self.network.nodes[node].program
        return [(reader, at) for port, reader, at in self.readers.get(node, []) if self.is_needed(program, port, read)]

    def circle(self):
        """A circle of inputs each of which waits for the one before, None where there is none."""
        done = set()
        for node, it in enumerate(self.network.nodes):
            for read in range(len(it.sources)):
                found = self.circle_from((node, read), done)
                if found:
                    return found
        return None

    def circle_from(self, start, done):
        """A circle that is reached from an input."""
        if start in done:
            return None
        path, on_path, work = [start], {start}, [iter(self.following(*start))]
        while work:
            it = next(work[-1], None)
            if it is None:
                work.pop()
                on_path.discard(path[-1])
                done.add(path.pop())
            elif it in on_path:
                return path[path.index(it) :]
            elif it not in done:
                path.append(it)
                on_path.add(it)
                work.append(iter(self.following(*it)))
        return None


def refuse_circles(network):
    """Fault where programs can never begin, at what one of them reads."""
    circle = Answers(network).circle()
    if not circle:
        return
    first = circle.index(min(circle))
    circle = [circle[first], *(circle[first + 1 :] + circle[:first])[::-1]]
    node, read = circle[0]
    source = network.nodes[node].instance.sources[read]
    names = [network.nodes[it].name for it, _ in circle]
    told = ", ".join(f"{network.nodes[it].name} for {network.name_of(network.nodes[it].sources[at])}" for it, at in circle)
    what = f"{names[0]} waits for the answer to what it gives" if len(circle) == 1 else f"{' and '.join(names)} wait for each other"
    raise Fault(source.place, f"{what}, and none can begin", f"waiting: {told}", "one of them has to give a first value at an instant at which it reads none of these")
