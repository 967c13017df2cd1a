#!/usr/bin/env python3
"""waking.py [CASE..]: searches all schedules of threads that rest and wake each other, as those of sig_work do.

A model of the protocol of docs/threads.md, one atomic step at a time: a thread that finds nothing to do announces in its
bed for which link it rests, looks once more, and sleeps; who hands a chunk of items over or takes one looks behind that step
into the bed of the thread at the other end, notes where it rests there for that, and tells all that were noted when it finds
nothing to do, behind its rounds, and at its end. An actor goes on until a link refuses or it ends, and hands over then what
its ends hold, as far as there is room. One may fail: then the others end where a link refuses. A thread is over where its
actors have ended and hold nothing, or those of all threads have ended. Each step of the model is one access that the program makes with the order SeqCst, or
the exchange by which a link's queue gives out a place, before which no later access is made. So what is searched are all
interleavings of these steps; each must lead on until all actors have ended.

The cases are small programs with links of one chunk, of one item or two, on two and three threads, some of which serve
several actors. Wrong protocols are searched too, and in each of them threads must be found that sleep for ever. It takes a few
minutes; the last line is `N passed, M failed`.
"""
import sys
from typing import NamedTuple

NONE, ANY = -1, -2
MOST_STATES = 3_000_000


class Case:
    """Actors, each a list of steps that put an item on a link or take one, done so many times, and the threads that serve them."""

    def __init__(self, name, actors, threads, times=2, chunk=1, fails=None):
        self.name, self.actors, self.threads, self.times, self.chunk = name, actors, threads, times, chunk
        # the actor that fails, and behind how many steps
        self.fails = fails
        self.links = 1 + max(link for steps in actors for _, link in steps)
        self.owner = {actor: number for number, served in enumerate(threads) for actor in served}
        self.end = {}
        for actor, steps in enumerate(actors):
            for how, link in steps:
                self.end[how, link] = self.owner[actor]


CASES = [
    Case("one link", [[("put", 0)], [("take", 0)]], [[0], [1]], 3),
    Case("there and back", [[("put", 0), ("take", 1)], [("take", 0), ("put", 1)]], [[0], [1]]),
    Case("two links", [[("put", 0), ("put", 1)], [("take", 0), ("take", 1)]], [[0], [1]]),
    Case("a circle of three", [[("put", 0), ("take", 2)], [("take", 0), ("put", 1)], [("take", 1), ("put", 2)]], [[0], [1], [2]], 1),
    Case("two actors on one thread", [[("put", 0)], [("put", 1)], [("take", 0), ("take", 1)]], [[0, 1], [2]]),
    Case("two on each", [[("put", 0)], [("take", 1)], [("take", 0)], [("put", 1)]], [[0, 1], [2, 3]]),
    Case("a link within a thread", [[("put", 0), ("put", 1)], [("take", 0), ("take", 2)], [("take", 1), ("put", 2)]], [[0, 1], [2]]),
    Case("chunks on one link", [[("put", 0)], [("take", 0)]], [[0], [1]], 3, 2),
    Case("chunks there and back", [[("put", 0), ("take", 1)], [("take", 0), ("put", 1)]], [[0], [1]], 2, 2),
    Case("chunks on two links", [[("put", 0), ("put", 1)], [("take", 1), ("take", 0)]], [[0], [1]], 3, 2),
    Case("chunks of two actors", [[("put", 0)], [("put", 1)], [("take", 0), ("take", 1)]], [[0, 1], [2]], 2, 2),
    Case("chunks within a thread", [[("put", 0), ("put", 1)], [("take", 0), ("take", 2)], [("take", 1), ("put", 2)]], [[0, 1], [2]], 2, 2),
    Case("an answer to what is held", [[("put", 0), ("put", 0), ("put", 0), ("take", 1)], [("take", 0), ("take", 0), ("take", 0), ("put", 1)]], [[0], [1]], 1, 2),
    Case("more than a chunk", [[("put", 0)] * 3, [("take", 0)] * 3], [[0], [1]], 1, 2),
    Case("a failure ends who took nothing", [[("put", 0)] * 4, [("take", 0)] * 4], [[0], [1]], 1, 2, (1, 0)),
    Case("a failure ends the reader", [[("put", 0)], [("take", 0), ("put", 1)], [("take", 1)]], [[0], [1], [2]], 2, 2, (1, 1)),
    Case("a failure ends the writer", [[("put", 0)], [("take", 0)]], [[0], [1]], 4, 2, (0, 3)),
    Case("many held, little room", [[("put", 0), ("put", 0), ("put", 0), ("take", 1)], [("take", 0), ("put", 1), ("take", 0), ("take", 0)]], [[0], [1]], 1, 2),
]
# What a wrong protocol leaves out, or does at another place.
WRONG = {
    "no second look": {"second_look": False},
    "a note before the step": {"note_first": True},
    "none is told before a rest": {"told_before_rest": False, "told_each_round": False},
    "none is told at the end": {"told_at_end": False, "told_each_round": False, "told_before_rest": False},
    "what is held is kept": {"handed_over": False},
    "one that holds items rests for its next link": {"rests_for_any": False},
    "one that holds items is over": {"over_with_none": False},
    "one that holds items is never over": {"over_with_all": False},
}
RIGHT = {
    "second_look": True,
    "note_first": False,
    "told_before_rest": True,
    "told_each_round": True,
    "told_at_end": True,
    "handed_over": True,
    "rests_for_any": True,
    "over_with_none": True,
    "over_with_all": True,
}


class Link(NamedTuple):
    """The items that the end holds which puts, those of the chunk in the queue, which has room for one, and those that are
    left of the chunk that was taken."""

    held: int = 0
    queued: int = 0
    left: int = 0


class World(NamedTuple):
    """What threads share, and where each of them stands."""

    links: tuple
    steps: tuple
    ended: tuple
    failed: bool
    left: int
    link: tuple
    owed: tuple
    owing: bool
    waiters: tuple
    epoch: tuple
    threads: tuple


class Thread(NamedTuple):
    """Where a thread stands: the next atomic step, the place among its actors, and what it knows by itself."""

    next: str
    place: int = 0
    moved: bool = False
    announced: bool = False
    left: bool = False
    key: int = 0
    about: int = 0
    bed: int = 0
    at: int = 0
    then: str = ""


def with_(values, at, value):
    return (*values[:at], value, *values[at + 1 :])


class Model:
    """The atomic steps of threads over the world of a case, by the rules of a protocol."""

    def __init__(self, case, rules):
        self.case, self.rules = case, rules

    def opening(self):
        case, count = self.case, len(self.case.threads)
        none, zero = (NONE,) * count, (0,) * count
        threads = ()
        actors = len(case.actors)
        world = World((Link(),) * case.links, (0,) * actors, (False,) * actors, False, 0, none, (False,) * count, False, zero, zero, threads)
        return world._replace(threads=tuple(self.at_actor(number, Thread("round"), world) for number in range(count)))

    def has_ended(self, world, actor):
        return world.ended[actor] or world.steps[actor] == self.case.times * len(self.case.actors[actor])

    def holds(self, links, actor):
        """A link of which the actor's end holds items."""
        return next((link for how, link in self.case.actors[actor] if how == "put" and links[link].held), None)

    def is_idle(self, world, actor):
        """Whether the actor has ended and holds nothing."""
        return self.has_ended(world, actor) and self.holds(world.links, actor) is None

    def is_over(self, world, served):
        """Whether a thread has nothing more to do of which all actors have ended."""
        if not self.rules["over_with_none"] or all(self.is_idle(world, actor) for actor in served):
            return True
        return self.rules["over_with_all"] and world.left == len(self.case.threads)

    def next_of(self, steps, actor):
        plan = self.case.actors[actor]
        return plan[steps[actor] % len(plan)]

    def at_actor(self, number, thread, world):
        """The thread before the turn of its next actor that is not over, or behind its round."""
        served = self.case.threads[number]
        place = thread.place
        while place < len(served) and self.is_idle(world, served[place]):
            place += 1
        if place < len(served):
            early = self.rules["note_first"] and not self.has_ended(world, served[place])
            return thread._replace(next="note early" if early else "use", place=place)
        if all(self.has_ended(world, actor) for actor in served):
            # with chunks of one item none is ever held, and who has ended is of no matter
            if not thread.left and self.case.chunk > 1:
                return thread._replace(next="leave")
            if self.is_over(world, served):
                return thread._replace(next="tell" if self.rules["told_at_end"] else "over", then="over")
            return thread._replace(next="tell" if self.rules["told_before_rest"] else "rest", then="rest")
        if thread.moved:
            then = thread._replace(next="leave bed" if thread.announced else "tell", then="round")
            return then if thread.announced or self.rules["told_each_round"] else self.round(number, then, world)
        return thread._replace(next="tell" if self.rules["told_before_rest"] else "rest", then="rest")

    def round(self, number, thread, world):
        return self.at_actor(number, thread._replace(place=0, moved=False), world)

    def go_on(self, number, thread, world):
        """What comes behind a telling."""
        return self.round(number, thread, world) if thread.then == "round" else thread._replace(next=thread.then)

    def step(self, world, number):
        """The world behind the next step of a thread; None where that waits or is over."""
        thread = world.threads[number]
        if thread.next == "over" or thread.next == "sleep" and world.epoch[number] == thread.key:
            return None
        world, thread = getattr(self, thread.next.replace(" ", "_"))(world, number, thread)
        if thread.next == "rest":
            thread = thread._replace(next="sleep" if thread.announced else "announce")
        return world._replace(threads=with_(world.threads, number, thread))

    def over(self, world, number, thread):
        return world, thread

    def leave(self, world, number, thread):
        """All actors of the thread have ended: that is counted, and all rests end."""
        return self.rouse(world._replace(left=world.left + 1), number, thread._replace(left=True, then="round"))

    def rouse(self, world, number, thread):
        epoch = tuple(it + (waiting > 0) for it, waiting in zip(world.epoch, world.waiters))
        world = world._replace(epoch=epoch)
        if thread.then == "hand over":
            return world, self.behind_turn(number, thread, world)
        return world, self.round(number, thread, world)

    # A turn of an actor.

    def use(self, world, number, thread):
        actor = self.case.threads[number][thread.place]
        if self.has_ended(world, actor):
            return world, self.behind_turn(number, thread, world)
        if self.case.fails == (actor, world.steps[actor]):
            world = world._replace(ended=with_(world.ended, actor, True), failed=True)
            return world, thread._replace(next="rouse", moved=True, then="hand over")
        how, number_of_link = self.next_of(world.steps, actor)
        link = world.links[number_of_link]
        used = self.put(link) if how == "put" else self.take(link)
        if used is None:
            world = world._replace(ended=with_(world.ended, actor, world.failed))
            return world, self.behind_turn(number, thread, world)
        other = self.case.end["take" if how == "put" else "put", number_of_link]
        links = with_(world.links, number_of_link, used)
        world = world._replace(links=links, steps=with_(world.steps, actor, world.steps[actor] + 1))
        thread = thread._replace(moved=True, bed=other, about=number_of_link, then="use")
        if used.queued == link.queued or self.rules["note_first"]:
            return world, self.behind_note(world, number, thread)
        return world, thread._replace(next="look into bed")

    def put(self, link):
        """A link of which one item more is held, or handed over in a chunk; None where there is no room."""
        if link.held + 1 < self.case.chunk:
            return link._replace(held=link.held + 1)
        return None if link.queued else link._replace(held=0, queued=link.held + 1)

    def take(self, link):
        """A link of which one item of a chunk is taken; None where there is none."""
        if link.left:
            return link._replace(left=link.left - 1)
        return link._replace(queued=0, left=link.queued - 1) if link.queued else None

    def behind_turn(self, number, thread, world):
        """The thread before it hands over what the ends of its actor hold."""
        if self.rules["handed_over"]:
            return thread._replace(next="hand over", at=0, then="")
        return self.at_actor(number, thread._replace(place=thread.place + 1, then=""), world)

    def hand_over(self, world, number, thread):
        actor = self.case.threads[number][thread.place]
        while thread.at < self.case.links and not (self.puts(actor, thread.at) and world.links[thread.at].held):
            thread = thread._replace(at=thread.at + 1)
        if thread.at == self.case.links:
            return world, self.at_actor(number, thread._replace(place=thread.place + 1, at=0, about=0, then=""), world)
        about, link = thread.at, world.links[thread.at]
        thread = thread._replace(at=about + 1)
        if link.queued:
            return world, thread
        world = world._replace(links=with_(world.links, about, link._replace(held=0, queued=link.held)))
        return world, thread._replace(next="look into bed", bed=self.case.end["take", about], about=about, then="hand over")

    def puts(self, actor, link):
        return ("put", link) in self.case.actors[actor]

    def note_early(self, world, number, thread):
        how, link = self.next_of(world.steps, self.case.threads[number][thread.place])
        thread = thread._replace(bed=self.case.end["take" if how == "put" else "put", link], about=link, then="use early")
        return self.look_into_bed(world, number, thread)

    def look_into_bed(self, world, number, thread):
        if world.link[thread.bed] in (thread.about, ANY):
            return world, thread._replace(next="owe")
        return world, self.behind_note(world, number, thread)

    def owe(self, world, number, thread):
        return world._replace(owed=with_(world.owed, thread.bed, True)), thread._replace(next="owe all")

    def owe_all(self, world, number, thread):
        world = world._replace(owing=True)
        return world, self.behind_note(world, number, thread)

    def behind_note(self, world, number, thread):
        if thread.then == "use early":
            return thread._replace(next="use", then="", about=0)
        if thread.then == "hand over":
            return thread._replace(next="hand over", then="", about=0)
        return self.at_actor(number, thread._replace(then="", about=0), world)

    # Telling.

    def tell(self, world, number, thread):
        if not world.owing:
            return world, self.go_on(number, thread, world)
        return world, thread._replace(next="clear all", bed=0)

    def clear_all(self, world, number, thread):
        return world._replace(owing=False), thread._replace(next="look at owed", bed=0)

    def look_at_owed(self, world, number, thread):
        if world.owed[thread.bed]:
            return world, thread._replace(next="clear")
        return world, self.next_bed(world, number, thread)

    def clear(self, world, number, thread):
        return world._replace(owed=with_(world.owed, thread.bed, False)), thread._replace(next="look at waiters")

    def look_at_waiters(self, world, number, thread):
        if world.waiters[thread.bed]:
            return world, thread._replace(next="notify")
        return world, self.next_bed(world, number, thread)

    def notify(self, world, number, thread):
        world = world._replace(epoch=with_(world.epoch, thread.bed, world.epoch[thread.bed] + 1))
        return world, self.next_bed(world, number, thread)

    def next_bed(self, world, number, thread):
        if thread.bed + 1 < len(world.owed):
            return thread._replace(next="look at owed", bed=thread.bed + 1)
        return self.go_on(number, thread._replace(bed=0), world)

    # Resting.

    def announce(self, world, number, thread):
        served = self.case.threads[number]
        holds = self.rules["rests_for_any"] and self.holds(world.links, served[0]) is not None
        link = ANY if len(served) > 1 or holds else self.next_of(world.steps, served[0])[1]
        return world._replace(link=with_(world.link, number, link)), thread._replace(next="prepare")

    def prepare(self, world, number, thread):
        return world._replace(waiters=with_(world.waiters, number, world.waiters[number] + 1)), thread._replace(next="read epoch")

    def read_epoch(self, world, number, thread):
        thread = thread._replace(announced=True, key=world.epoch[number])
        return world, self.round(number, thread, world) if self.rules["second_look"] else thread._replace(next="sleep")

    def sleep(self, world, number, thread):
        return world, thread._replace(next="leave bed", then="round")

    def leave_bed(self, world, number, thread):
        return world._replace(link=with_(world.link, number, NONE)), thread._replace(next="wait no more")

    def wait_no_more(self, world, number, thread):
        world = world._replace(waiters=with_(world.waiters, number, world.waiters[number] - 1))
        thread = thread._replace(announced=False, key=0)
        if thread.moved and self.rules["told_each_round"]:
            return world, thread._replace(next="tell", then="round")
        return world, self.round(number, thread, world)


def stuck(case, rules):
    """The number of states, and whether some state is one in which threads sleep for ever."""
    model = Model(case, rules)
    seen, waiting = set(), [model.opening()]
    while waiting:
        world = waiting.pop()
        if world in seen:
            continue
        seen.add(world)
        if len(seen) > MOST_STATES:
            raise SystemExit(f"{case.name}: more than {MOST_STATES} states")
        following = [it for it in (model.step(world, number) for number in range(len(world.threads))) if it is not None]
        if not following and any(it.next != "over" for it in world.threads):
            return len(seen), True
        waiting += following
    return len(seen), False


def once(case):
    """The case with each actor's steps done once."""
    return Case(case.name, case.actors, case.threads, 1 if case.fails is None else case.times, case.chunk, case.fails)


def main():
    names = sys.argv[1:]
    passed = failed = 0
    for case in CASES:
        if not names or case.name in names:
            states, is_stuck = stuck(case, RIGHT)
            print(f"{case.name}: {states} states, {'some of them stuck' if is_stuck else 'each leads on'}", flush=True)
            passed, failed = passed + (not is_stuck), failed + is_stuck
    for name, wrong in WRONG.items():
        if not names or name in names:
            found = next((case.name for case in map(once, CASES) if stuck(case, {**RIGHT, **wrong})[1]), None)
            print(f"{name}: {f'stuck in {found}' if found else 'never stuck'}", flush=True)
            passed, failed = passed + (found is not None), failed + (found is None)
    print(f"{passed} passed, {failed} failed")
    return 1 if failed else 0


if __name__ == "__main__":
    sys.exit(main())
