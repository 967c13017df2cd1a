"""A run as columns: what each signal is over the instants of a window. A run may write millions of lines, so it is read
in pieces, and where there are many instants by several processes."""
import gc
import os
import signal
from array import array
from contextlib import contextmanager
from operator import itemgetter

from sigc.trace import flow_values

PIECE = 1 << 20
ABSENT = b"."
# From so many values on several processes read them, and how many at most.
MANY, MOST_PROCESSES = 1_000_000, 4


class Column:
    """A signal over the instants: `there` has for each instant 1 where it is present and else 0, and `values` those of
    the instants at which it is: the letters 1 and 0, or integers."""

    def __init__(self, kind):
        self.kind, self.there = kind, bytearray()
        self.values = array("q") if kind == "integer" else bytearray()

    def add(self, words):
        """Adds the words of some instants."""
        if ABSENT in words:
            self.there += bytes(map(ABSENT.__ne__, words))
            words = [it for it in words if it is not ABSENT]
        else:
            self.there += b"\1" * len(words)
        if self.kind == "integer":
            self.values.extend(map(int, words))
        else:
            self.values += digits(b"".join(words))

    def append(self, other):
        """Adds a column of later instants."""
        self.there += other.there
        self.values += other.values

    def present(self):
        """At how many instants the signal is present."""
        return len(self.values)


def digits(truths):
    return truths.replace(b"true", b"1").replace(b"false", b"0")


class Reader:
    """How a piece of what a run writes is read: by the names that it writes, each with its kind, the first of which
    begins an instant."""

    def __init__(self, kinds):
        self.names, self.kinds = list(kinds), list(kinds.values())
        self.mark, self.shapes = b"\n%s " % self.names[0], {}

    def __call__(self, task):
        """Of a piece of whole instants the columns of those from one on and before another; and of how many of those
        before it each name was written."""
        piece, begin, end = task
        gc.disable()
        instants, read = piece.split(self.mark)[1:], [Column(it) for it in self.kinds]
        skipped = [len(it) - it.count(ABSENT) for it in self.columns(instants[:begin])]
        for column, words in zip(read, self.columns(instants[begin:end])):
            column.add(words)
        gc.enable()
        return skipped, read

    def columns(self, instants):
        """The words of each name at some instants."""
        return list(zip(*map(self.row, instants)))[:-1]

    def row(self, instant):
        """The words of an instant in the order of the names, and ABSENT where nothing was written."""
        words = instant.split()
        shape = b" ".join(words[1::2])
        if shape not in self.shapes:
            self.shapes[shape] = self.order(words[1::2])
        values = words[::2]
        values.append(ABSENT)
        return self.shapes[shape](values)

    def order(self, names):
        """What takes the words of an instant with these names behind the first one in the order of all names, and one
        more, since of a single name it would give no row."""
        places = {name: at for at, name in enumerate([self.names[0], *names])}
        return itemgetter(*(places.get(it, -1) for it in self.names), -1)


class Columns:
    """The columns of all signals of a run, from the first to the last instant of a window."""

    def __init__(self, run, first, last):
        self.run, self.first, self.last, self.seen = run, first, last, 0
        self.flows = flow_values.read_flows(run.flows_text, [it.name for it in run.flat.inputs()])
        self.kinds = {it.name: it.kind for it in run.flat.signals}
        kinds = self.written()
        self.read, self.skipped = {it: Column(kind) for it, kind in kinds.items()}, dict.fromkeys(kinds, 0)
        self.take(Reader(kinds))
        self.by_name = {}
        for name, signals in run.observed.names.items():
            self.name(name.encode("latin-1"), signals)
        self.count = len(self.read[next(iter(kinds))].there)

    def __getitem__(self, name):
        return self.by_name[name]

    def written(self):
        """The names that the run writes, each with its kind, the one that begins an instant first."""
        observed = self.run.observed
        spoken = {name: next((self.kinds[it] for it in signals if it not in observed.sources), "event") for name, signals in observed.names.items()}
        return {it.encode("latin-1"): spoken[it] for it in [observed.marker, *spoken]}

    def take(self, reader):
        """Reads the run to its end."""
        longest = max(map(len, self.flows.values()), default=0)
        with mapping(longest * len(reader.names)) as mapped, self.run.call() as call:
            for skipped, read in mapped(reader, self.tasks(call.ran.stdout, reader.mark)):
                for name, count in zip(reader.names, skipped):
                    self.skipped[name] += count
                for name, column in zip(reader.names, read):
                    self.read[name].append(column)
            self.run.ends(call)

    def tasks(self, stream, mark):
        """Pieces of the run with those of their instants that are in the window."""
        for piece in pieces(stream, mark):
            count = piece.count(mark)
            begin = min(max(self.first - 1 - self.seen, 0), count)
            yield piece, begin, max(min(self.last - self.seen, count), begin)
            self.seen += count

    def name(self, name, signals):
        """Gives the column of a name to the signals that it speaks for. Those with the values of an input are present
        where the name is, and these are its flow's."""
        begin, column, sources = self.skipped[name], self.read[name], self.run.observed.sources
        for it in signals:
            self.by_name[it] = self.input(sources[it], column.there, begin) if it in sources else column

    def input(self, name, there, begin):
        """The column of an input that is present at some instants, from a place in its flow on."""
        if name not in self.by_name:
            made = self.by_name[name] = Column(self.kinds[name])
            made.there, words = there, self.flows[name][begin : begin + there.count(1)]
            made.values += array("q", map(int, words)) if made.kind == "integer" else digits("".join(words).encode("latin-1"))
        return self.by_name[name]


def pieces(stream, mark):
    """What a stream has, in pieces of whole instants, each begun by a mark."""
    rest = b"\n"
    while True:
        more = stream.read(PIECE)
        rest += more
        cut = rest.rfind(mark) if more else len(rest)
        if cut > 0:
            yield rest[:cut]
            rest = rest[cut:]
        if not more:
            return


@contextmanager
def mapping(count):
    """What maps a function over tasks of as many values in their order: several processes where these are many, if there
    can be several."""
    count = min(os.cpu_count() or 1, MOST_PROCESSES) if count >= MANY else 1
    try:
        pool = pool_of(count) if count > 1 else None
    except (ImportError, OSError, ValueError):
        pool = None
    if pool is None:
        yield map
        return
    with pool:
        yield pool.imap


def pool_of(count):
    import multiprocessing

    return multiprocessing.get_context("fork").Pool(count, initializer=signal.signal, initargs=(signal.SIGINT, signal.SIG_IGN))
