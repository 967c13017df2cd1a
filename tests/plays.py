#!/usr/bin/env python3
"""plays.py [SIGC]: lists of events drawn at random, and what `play` writes after each of their beginnings.

For every program of examples/ that has a flow file, over this file, over one with each of its lines fifty times, and over that
one up to the third instant, it draws lists of 10,000 events: steps and looks of all actors, now and then mostly of one of
them, and of actors that are not there. `SIGC play` runs beginnings of each list at the capacities 1, 2 and 16. The text of the
events and the rest after `finish` must together be the text of `SIGC run --workers 0`, with the same end and status; the state
between them must have a line for each actor of `SIGC code` and for each link, none of which holds more than its capacity.
Last it does so with a file of as many events and as many bytes as an event file may have.

SIGC is the first word, or else the environment's, or else the program in crates/sigc/out. The draws are the same each time.
It prints a line for each program and for each play that differs; the last line is `N passed, M failed`.
"""
import os
import random
import re
import subprocess
import sys
import tempfile

from docs import TOP, default_program

EXAMPLES = os.path.join(TOP, "examples")
CAPACITIES = (1, 2, 16)
LISTS = 6
EVENTS = 10_000
BEGINNINGS = (0, 1, 3, 10, 30, 100, 300, 1000, 3000, EVENTS)
REPEATED = 50
# the most events and the most bytes of an event file
MOST_EVENTS = 1_000_000
MOST_BYTES = 67_108_864

PLAYED = re.compile(r"(.*?)events done\n((?:actor|link|word).*?)finish\n(.*)", re.DOTALL)
STATE = re.compile(r"((?:actor \d+ \d+ \d+ (?:running|ended)\n)+)((?:link \d+ \d+\n)*)word (?:none|\d+ \d+)\n")


def programs():
    """The programs of examples/ that have a flow file, by their names."""
    found = sorted(it.removesuffix(".sig") for it in os.listdir(EXAMPLES) if it.endswith(".sig"))
    return [it for it in found if os.path.isfile(f"{EXAMPLES}/{it}.flows")]


def called(words):
    """What a command writes to standard output and to standard error, and its status."""
    ran = subprocess.run(words, capture_output=True, timeout=120, stdin=subprocess.DEVNULL)
    return ran.stdout.decode("ascii"), ran.stderr.decode("ascii"), ran.returncode


def drawn(draws, actors, count):
    """So many events. Half of the lists have a favourite, whose links fill and run empty."""
    favourite = draws.randrange(actors) if draws.random() < 0.5 else None
    events = []
    for _ in range(count):
        number = draws.randrange(actors)
        if favourite is not None and draws.random() < 0.8:
            number = favourite
        elif draws.random() < 0.02:
            number = draws.randrange(10 ** draws.randrange(1, 10))
        digits = max(len(str(number)), draws.randrange(1, 10) if draws.random() < 0.02 else 1)
        events.append(f"{'look' if draws.random() < 0.1 else 'act'} {number:0{digits}}\n")
    return events


def repeated(flows):
    """The lines of a flow file, the values of each of them many times; the line of its version stays."""
    lines = [it.split() for it in flows.splitlines() if it.split()]
    return "".join(f"{name} {' '.join(values * (1 if name == 'flows' else REPEATED))}\n" for name, *values in lines)


def difference(played, wanted, actors, capacity):
    """In what a play is not the run, None where it is."""
    (out, *ended), (text, *end) = played, wanted
    parts = PLAYED.fullmatch(out)
    state = parts and STATE.fullmatch(parts[2])
    if not state:
        return f"there is no state in {out[-200:]!r}"
    if state[1].count("\n") != actors or any(int(it.split()[2]) > capacity for it in state[2].splitlines()):
        return f"the state is {parts[2]!r}"
    if parts[1] + parts[3] != text:
        return f"the text is {(parts[1] + parts[3])[-200:]!r}"
    return None if ended == end else f"it ends with {ended}, and not with {end}"


class Plays:
    """The count of what passed and failed, over one program sigc."""

    def __init__(self, sigc, room):
        self.sigc, self.room = sigc, room
        self.passed = self.failed = 0

    def put(self, name, text):
        with open(f"{self.room}/{name}", "w", encoding="ascii") as file:
            file.write(text)
        return f"{self.room}/{name}"

    def play(self, where, words, actors, wanted):
        """Plays the events of the file `events` at each capacity."""
        for capacity in CAPACITIES:
            played = called([self.sigc, "play", *words[:2], f"{self.room}/events", *words[2:], "--capacity", str(capacity)])
            differs = difference(played, wanted, actors, capacity)
            self.passed += differs is None
            if differs is not None:
                self.failed += 1
                print(f"{where}, capacity {capacity}: {differs}")

    def lists(self, name, words, actors, seed):
        """Plays the beginnings of lists of events."""
        wanted = called([self.sigc, "run", *words, "--workers", "0"])
        draws = random.Random(f"{name} {seed}")
        for number in range(LISTS):
            events = drawn(draws, actors, EVENTS)
            for beginning in BEGINNINGS:
                self.put("events", "".join(events[:beginning]))
                self.play(f"{name}, {seed}, list {number}, {beginning} events", words, actors, wanted)

    def greatest(self, name, words, actors):
        """Plays as many events as a file may have, in as many bytes."""
        wanted = called([self.sigc, "run", *words, "--workers", "0"])
        events = drawn(random.Random(name), actors, MOST_EVENTS)
        blanks = MOST_BYTES - sum(map(len, events))
        self.put("events", " " * (blanks // 2) + "".join(events) + "\t" * (blanks - blanks // 2))
        self.play(f"{name}, the most events", words, actors, wanted)

    def program(self, name):
        """All plays of one program."""
        program, own = f"{EXAMPLES}/{name}.sig", f"{EXAMPLES}/{name}.flows"
        with open(own, encoding="ascii") as file:
            long = self.put("flows", repeated(file.read()))
        # A program without a root is run with its paces.
        pace = [] if called([self.sigc, "check", program])[2] == 0 else ["--pace"]
        actors = called([self.sigc, "code", program] + pace)[0].count("actor ")
        before = self.passed
        self.lists(name, [program, own] + pace, actors, "its own flows")
        self.lists(name, [program, long] + pace, actors, "long flows")
        self.lists(name, [program, long, "--instants", "3"] + pace, actors, "long flows, 3 instants")
        self.greatest(name, [program, long] + pace, actors)
        print(f"{name}, {actors} actors: {self.passed - before} plays give the text and the end of the run", flush=True)


def main():
    program = os.path.abspath(sys.argv[1] if len(sys.argv) > 1 else default_program())
    if not os.path.isfile(program):
        print(f"plays.py: there is no program {program}: build it first\n0 passed, 1 failed")
        return 1
    with tempfile.TemporaryDirectory(prefix="sigc-plays-") as room:
        plays = Plays(program, room)
        for name in programs():
            plays.program(name)
    print(f"{plays.passed} passed, {plays.failed} failed")
    return 1 if plays.failed or not plays.passed else 0


if __name__ == "__main__":
    sys.exit(main())
