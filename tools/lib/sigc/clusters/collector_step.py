"""The step of the collector as C: it gets the report of each cluster, and gives the outputs in the order of declaration."""
from sigc.c.c_names import Names
from sigc.clusters.cluster_steps import BITS, OWN, Text


class Collector:
    """The step of the collector. `clusters` are the steps of the clusters, whose reports it gets."""

    def __init__(self, program, clusters):
        self.program, self.prefix, self.clusters = program, program.prefix, clusters
        self.name = f"{self.prefix}_collector"
        self.names, self.text, self.locals = Names(self.prefix), Text(), {}
        self.names.taken.update(OWN)
        self.kept, self.values, self.tests = [], {}, {}
        for it in clusters:
            self.collect(it)
        for it in () if program.is_local else program.outputs():
            self.give(it)
        for stream in program.actors.words:
            self.text.wait(f"put_{self.prefix}(context, {stream}, 0)", self.prefix)
        self.text.line("state->place = 0;")
        self.text.line(f"return {self.prefix}_DONE;")

    def collect(self, cluster):
        """Gets what a cluster reports: which of its outputs come, and their values."""
        self.text.line(f"/* of cluster {cluster.number} */")
        get = f"get_{self.prefix}(context, {self.program.actors.reports[cluster.number]}, &%s)"
        for it in cluster.acts:
            if it.word == "report":
                self.locals["item"] = "int64_t"
                self.text.wait(get % "item", self.prefix)
            elif it.word == "here":
                self.get_bits(cluster, it.signal, get)
            elif it.word == "output":
                self.where_it_comes(it.signal, lambda it=it: self.text.wait(get % self.field(it.signal), self.prefix))

    def get_bits(self, cluster, first, get):
        """Gets the bits that tell which outputs come."""
        name = self.kept_as(f"here_{cluster.number}_{first // BITS}")
        self.text.wait(get % name, self.prefix)
        for bit, it in enumerate(cluster.partial[first : first + BITS]):
            self.tests[it] = f"{name} & {1 << bit}"

    def kept_as(self, wanted):
        """A new field of the state."""
        self.kept.append(self.names.fresh(wanted))
        return f"state->{self.kept[-1]}"

    def field(self, signal):
        """The field that has an output's value."""
        self.values[signal] = self.kept_as(self.program.image.signals[signal].name)
        return self.values[signal]

    def where_it_comes(self, signal, write):
        """Writes something about an output, to be done where it comes."""
        if signal in self.tests:
            self.text.open(f"if ({self.tests[signal]}) {{")
        write()
        if signal in self.tests:
            self.text.close()

    def give(self, signal):
        """Gives an output where it comes; none ever gives one that no cluster has."""
        it = self.program.image.signals[signal]
        if any(signal in cluster.outputs for cluster in self.clusters):
            value = "" if it.kind == "event" else f", {'(int)' if it.kind == 'boolean' else ''}{self.values[signal]}"
            self.where_it_comes(signal, lambda: self.text.line(f"w_{self.prefix}_{it.name}(context{value});"))

    def state(self):
        """The fields of the state with their types and what they are at first."""
        return {it: ("int64_t", "0") for it in self.kept}
