"""Claims on drawn programs, and attacks on those that sigc-prove calls proved: runs that keep to what is assumed, looking for one that breaks them.

    tools/tests/claims.py 400 100 [SECONDS [SEED]]     400 claims, those proved attacked by 100 runs each; the status is 1 where
                                                       one was broken

The runs are those of prove/drawn_flows.py over the image, which read no formula; what breaks a claim is run by sigc.
"""
import random
import sys
import tempfile
import time
from typing import NamedTuple

from calling import ran, written
from programs import Program

from sigc.call import running
from sigc.image import images
from sigc.image.image_runs import constants_of, last_of
from sigc.prove import property_language
from sigc.prove.drawn_flows import Drawing, Wanted
from sigc.prove.property_language import LEAST, MOST

INSTANTS = 30
TOTAL = "process P = (? integer A, B; boolean R ! integer N, M; boolean F)\n(| N := (0 when R) default (ZN + A) | ZN := N $ init {0}\n | M := {1} | F := M > {2} and N < {3} | A ^= B ^= R ^= ZN |)\nwhere integer ZN; end;\n"
RIGHTS = ("N * B", "N / B", "(ZN modulo B) + A", "(N + A) - B", "- N", "(M $ init 3) + (B when (B < {0})) default B", "N * N - B * B", "(A / 2) + (A / 2)")
OPERATORS = ("<", "<=", ">", ">=", "=", "/=")


class Case(NamedTuple):
    """A program with its image, its claims as words, and what is assumed of it: properties and ranges of inputs."""

    text: str
    image: object
    claims: tuple
    assumed: tuple
    ranges: dict

    def words(self):
        found = [it for claim in self.claims for it in claim]
        found += [it for text in self.assumed for it in ("--assume", text)]
        return found + [it for name, (low, high) in self.ranges.items() for it in ("--range", f"{name}={low}..{high}")]

    def kinds(self):
        return {it.name: it.kind for it in self.image.signals}


def image_of(path):
    """The image of a program; None where sigc refuses it."""
    with running.Call("build", path) as call:
        data = call.ran.stdout.read()
        return images.image_of(data) if call.ended()[1] == 0 else None


def text_of(seed, draws):
    """A program: a drawn one, or one with sums that an assumption may keep small."""
    if draws.random() < 0.5:
        return Program(seed).text()
    numbers = [draws.choice((0, 1, -5, 100)) for _ in range(4)]
    right = draws.choice(RIGHTS).format(draws.choice((0, 3, 50)))
    return TOTAL.format(numbers[0], f"({right})" if "default" in right else right, numbers[2], numbers[3])


class Drawn:
    """Expressions over the signals of an image."""

    def __init__(self, image, draws):
        self.draws, self.numbers = draws, constants_of(image)
        names = [it for it in image.signals if "#" not in it.name.rpartition(".")[2]]
        self.integers = [it.name for it in names if it.kind == "integer"]
        self.truths = [it.name for it in names if it.kind != "integer"]

    def number(self):
        found = self.draws.choice((*self.numbers, 1000, -1000, 1 << 40)) if self.draws.random() < 0.9 else self.draws.choice((LEAST + 1, MOST))
        return str(max(found, LEAST + 1))

    def integer(self):
        name = self.draws.choice(self.integers)
        other = self.draws.choice(self.integers)
        shapes = (name, name, name, f"({name} $ init {self.number()})", f"({name} + {self.number()})", f"({name} - {other})", f"({name} * {name})",
                  f"({name} default {other})", f"({name} modulo 7)", f"({name} when {self.draws.choice(self.truths)})" if self.truths else name)
        return self.draws.choice(shapes)

    def assumptions(self):
        """What is assumed: nothing, bounds of a number, or anything."""
        how = self.draws.choice(("nothing", "bounds", "bounds", "any"))
        if how == "bounds" and self.integers:
            name, most = self.draws.choice(self.integers), self.draws.choice((10, 1000, 1 << 40))
            return tuple(f"({name} {sign}{most})" for sign in self.draws.choice((("< ", "> -"), ("<= ",), (">= -",))))
        return tuple(self.truth(1) for _ in range(self.draws.choice((1, 2)))) if how == "any" else ()

    def truth(self, depth=2):
        shapes = ["compare"] * 4 + ["both", "not", "name", "delay"] * bool(depth and self.truths)
        shape = self.draws.choice(shapes) if self.integers else "name"
        if shape == "compare":
            return f"({self.integer()} {self.draws.choice(OPERATORS)} {self.draws.choice((self.number(), self.number(), self.integer()))})"
        if shape == "both":
            return f"({self.truth(depth - 1)} {self.draws.choice(('and', 'or', 'xor', 'default'))} {self.truth(depth - 1)})"
        name = self.draws.choice(self.truths)
        return {"not": f"(not {name})", "name": name, "delay": f"({name} $ init {self.draws.choice(('true', 'false'))})"}[shape]


def drawn_case(seed, folder):
    """A program with claims; None where sigc refuses it. Claims that some short runs break are left out, most of them."""
    draws = random.Random(seed)
    text = text_of(seed, draws)
    image = image_of(written(folder, "p.sig", text))
    if image is None:
        return None
    drawn = Drawn(image, draws)
    inputs = [it.name for it in image.signals[: image.inputs] if it.kind == "integer"]
    ranges = {name: tuple(sorted(draws.choice((0, 1, -3, 10, 100, -1000, MOST, LEAST)) for _ in range(2))) for name in inputs if draws.random() < 0.4}
    assumed = drawn.assumptions()
    case = Case(text, image, (), tuple(it for it in assumed if is_property(it, image)), ranges)
    claims = [("--never-ends",), ("--faults",)]
    for _ in range(60):
        claim = draws.choice(("--always", "--never")), drawn.truth()
        if is_property(claim[1], image) and (draws.random() < 0.05 or not attacked(case._replace(claims=(claim,)), claim, 8, seed)):
            claims.append(claim)
    return case._replace(claims=(*claims[:2], *claims[2:6]))


def is_property(text, image):
    try:
        return property_language.property_of(text, {it.name: it.kind for it in image.signals}).kind != "integer"
    except property_language.Wrong:
        return False


def attacked(case, claim, runs, seed):
    """The flows of a run that breaks a claim and keeps to what is assumed; None where none of so many does."""
    kinds, wanted = case.kinds(), Wanted()
    if len(claim) > 1:
        wanted = Wanted(property_language.property_of(claim[1], kinds), claim[0] == "--always")
    assumed = [property_language.property_of(it, kinds) for it in case.assumed]
    lasts = [max((last_of(case.image, name) for name in it.signals()), default=-1) for it in assumed]
    drawing = Drawing(case.image, case.ranges, list(zip(assumed, lasts)), f"{seed} {claim}")
    for _ in range(runs):
        found = drawing.tried(wanted, INSTANTS, time.monotonic() + 100)
        if found is not None:
            return found[0]
    return None


def proved_of(case, said):
    """The claims that sigc-prove calls proved: those of instants by their words, and that runs do not end."""
    lines = {it.partition(": ")[2] for it in said.splitlines() if it.startswith("proved")}
    found = [it for it in case.claims if len(it) > 1 and f"{it[0][2:]} {it[1]}" in lines]
    return found + [("--never-ends",)] * ("never ends" in lines)


def survey(count, runs, seconds, first=0, tell=print):
    """Draws so many claims and attacks those proved: how many were claimed, proved and false, and those that were broken."""
    counts, broken, seed = dict.fromkeys(("claims", "proved", "false", "unknown"), 0), [], first
    with tempfile.TemporaryDirectory() as folder:
        while counts["claims"] < count:
            seed += 1
            case = drawn_case(seed, folder)
            if case is None:
                continue
            said = ran("sigc-prove", written(folder, "p.sig", case.text), *case.words(), "--seconds", str(seconds))
            if said.returncode not in (0, 1, 2, 3) or "Traceback" in said.stderr or not said.stdout:
                broken.append((seed, said.stderr))
            for word in ("proved", "false", "unknown"):
                counts[word] += sum(it.startswith(word) for it in said.stdout.splitlines())
            counts["claims"] = counts["proved"] + counts["false"] + counts["unknown"]
            for claim in proved_of(case, said.stdout):
                flows = attacked(case, claim, runs, seed)
                if flows is not None:
                    broken.append((seed, claim, case.words(), flows))
            if "the flows found" in said.stdout:
                broken.append((seed, said.stdout))
            tell(seed, counts, broken)
    return counts, broken


def main():
    count, runs = map(int, sys.argv[1:3])
    seconds, first = map(int, [*sys.argv[3:5], "5", "0"][:2] if len(sys.argv) != 4 else [sys.argv[3], "0"])
    counts, broken = survey(count, runs, seconds, first, lambda seed, counts, broken: print(seed, counts, len(broken), flush=True))
    for it in broken:
        print("broken", *it, sep="\n  ")
    return 1 if broken else 0


if __name__ == "__main__":
    sys.exit(main())
