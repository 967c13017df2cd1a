"""A program for its clusters: the image, who does what of it, what may fail, and what guards ask."""
import collections

from sigc.clusters import actors, fates
from sigc.image.step_statements import Operation


class Program:
    """What the steps of all clusters share. With `is_local` each cluster gives its outputs itself; then there is a collector
    only where clusters wait for its word, `is_barrier`."""

    def __init__(self, image, lines, source, prefix, is_local=False, is_barrier=False):
        self.image, self.source, self.prefix, self.is_local = image, source, prefix, is_local
        self.operations = [Operation(number, it.kind, it.guard, it.line, it.column, None if it.kind == "Store" else it.fields[0], it.fields) for number, it in enumerate(image.operations)]
        self.actors = self.actors_of(lines, is_barrier)
        self.fates = fates.Fates(self.operations, source, [it.name for it in image.signals])
        self.reached, self.asked, self.sizes = {}, {}, [1, 1]
        for it in image.nodes:
            self.sizes.append(self.sizes[it.low] + self.sizes[it.high] + 1)

    def actors_of(self, lines, is_barrier):
        """Who does what, by the lines of a code."""
        return actors.Actors(lines, is_barrier or not self.is_local, is_barrier)

    @property
    def has_collector(self):
        return bool(self.actors.reports)

    def inputs(self):
        return range(self.image.inputs)

    def outputs(self):
        return range(self.image.inputs, self.image.inputs + self.image.outputs)

    def below(self, guard):
        """The nodes of a guard but itself, children first."""
        if guard not in self.reached:
            found, todo = set(), [guard]
            while todo:
                it = todo.pop()
                if it >= 2 and it not in found:
                    found.add(it)
                    todo += [self.image.nodes[it - 2].low, self.image.nodes[it - 2].high]
            self.reached[guard] = sorted(found)
        return [it for it in self.reached[guard] if it != guard]

    def parts_of(self, guard, longest):
        """The nodes below a guard that stand in it more than once and are no single test, or have more than so many tests
        between them and the next such nodes; children first."""
        nodes = self.below(guard)
        children = [child for it in (*nodes, guard) for child in self.image.nodes[it - 2][1:]]
        counts, tests = collections.Counter(children), {0: 0, 1: 0}
        for it in nodes:
            node = self.image.nodes[it - 2]
            tests[it] = 1 + tests[node.low] + tests[node.high]
            if tests[it] > longest or tests[it] > 1 and counts[it] > 1:
                tests[it] = 1
                yield it

    def conditions_of(self, guard):
        """The signals that a guard asks."""
        if guard not in self.asked:
            nodes = {*self.below(guard), guard} - {0, 1}
            self.asked[guard] = {self.image.conditions[self.image.nodes[it - 2].condition] for it in nodes}
        return self.asked[guard]

    def size_of(self, guard):
        """How many tests a guard has, written out."""
        return self.sizes[guard]

    def comment(self, operation):
        """The place of an operation and what stands there."""
        target = self.delayed(operation) if operation.kind == "Store" else operation.target
        return self.source.comment(operation._replace(target=target)).replace("*/", "* /").replace("/*", "/ *")

    def delayed(self, store):
        """The signal whose memory an operation sets; None where nothing reads that."""
        return next((it.target for it in self.operations if it.kind == "DelayRead" and it.fields[1] == store.fields[0]), None)
