"""Who does what of an image: the operations of each cluster, and what clusters pass to each other, in the order of positions.

`sigc code` has an actor for each cluster, and the collector last. What it does to operation j of the image stands at
position 2j, and the result is sent and received at 2j + 1. All links from one cluster to another are one stream here: both
ends pass its items in the order of positions and under the same guards, so neither needs to say what an item is.
"""
import re
from typing import NamedTuple

from sigc.read import lexer

LINE = re.compile(r"\d+ (\d+) ([a-z]+)(?: (\S+))?")
PASSED = ("send", "receive", "report", "collect", "commit")


class Act(NamedTuple):
    """What a cluster does at one place: `do` an operation, or `get` or `put` the result of one, by a stream."""

    word: str
    operation: int
    stream: int = None


class Stream(NamedTuple):
    """A stream of items, from an actor to another one."""

    writer: int
    reader: int


class Step(NamedTuple):
    """A line of a code: the actor, the position, and what is done, with the number of the link where one is used."""

    actor: int
    position: int
    word: str
    what: str


def steps_of(lines):
    """The lines of a code as steps."""
    actor = -1
    for number, line in enumerate(lines, 1):
        step = LINE.fullmatch(line)
        if step:
            yield Step(actor, int(step[1]), step[2], step[3])
        elif line == f"actor {actor + 1}":
            actor += 1
        else:
            raise lexer.Unreadable(f"line {number} is no line of a code")


class Actors:
    """The clusters of a code, numbered as there, each with its acts; behind them the collector, where there is one."""

    def __init__(self, lines, has_reports=True, has_words=False):
        steps = list(steps_of(lines))
        self.count = steps[-1].actor
        self.writers = {it.what: it.actor for it in steps if it.word == "send"}
        self.readers = {it.what: it.actor for it in steps if it.word == "receive"}
        pairs = {(self.writers[link], reader) for link, reader in self.readers.items() if reader != self.count}
        self.streams = [Stream(*it) for it in sorted(pairs)]
        self.reports = self.more(has_reports, [Stream(it, self.count) for it in range(self.count)])
        self.words = self.more(has_words, [Stream(self.count, it) for it in range(self.count)])
        self.numbers = {it: number for number, it in enumerate(self.streams)}
        self.acts = [[] for _ in range(self.count)]
        for it in steps:
            if it.actor < self.count:
                self.acts[it.actor] += self.acts_of(it)

    def more(self, is_wanted, streams):
        """Adds a stream for each cluster; its numbers by the clusters'."""
        if not is_wanted:
            return []
        self.streams += streams
        return list(range(len(self.streams) - len(streams), len(self.streams)))

    def acts_of(self, it):
        """The act that a step of a cluster is; none where it passes something to the collector."""
        if it.word not in PASSED:
            yield Act("do", it.position // 2)
        elif it.word in ("send", "receive") and self.readers[it.what] != self.count:
            stream = self.numbers[self.writers[it.what], self.readers[it.what]]
            yield Act("put" if it.word == "send" else "get", it.position // 2, stream)
