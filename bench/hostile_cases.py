#!/usr/bin/env python3
"""hostile_cases.py FOLDER: writes the hostile texts, flows and images below into a folder, one folder for each, with the words of
its command in the file `words`. bench/check.py runs them, each within a bound of time and memory."""
import os
import sys
from typing import Callable, NamedTuple

import colliding
import guard_images
from shapes import SHAPES, distant_circle, drawn_circle, many_inputs, paced_merges, sums_of_products

INPUTS = 510


class Case(NamedTuple):
    """A command, and the files that it names, each made when it is wanted."""

    words: str
    files: dict[str, Callable[[], str | bytes]]


def check(make, *count, flags=""):
    return Case(f"check program.sig{flags}", {"program.sig": lambda: make(*count)})


def run(program, flows):
    return Case("run program.sig flows --workers 0", {"program.sig": program, "flows": flows})


def execute(make, *count):
    return Case("exec image flows", {"image": lambda: make(*count), "flows": str})


# the worst of each kind first
CASES = {
    "sums of products 24 7": check(sums_of_products, 24, 7),
    "sums of products 22 6": check(sums_of_products, 22, 6),
    "sums of products 20 6": check(sums_of_products, 20, 6),
    "sums of products 26 5": check(sums_of_products, 26, 5),
    "sums of products 42 10 11": check(sums_of_products, 42, 10, 11),
    "sums of products 40 10 11": check(sums_of_products, 40, 10, 11),
    "400,000 nodes of the store": execute(colliding.image_of_stored_nodes, 400_000),
    "200,000 nodes of the store": execute(colliding.image_of_stored_nodes, 200_000),
    "sums written twice 26 8": execute(guard_images.written_twice, 26, 8),
    "sums written twice 24 7": execute(guard_images.written_twice, 24, 7),
    "sums written twice 22 6": execute(guard_images.written_twice, 22, 6),
    "sums written twice 20 6": execute(guard_images.written_twice, 20, 6),
    "names of an accepted program": check(colliding.accepted_names, 158_000),
    "names of a refused program": check(colliding.refused_names, 75_000),
    "names of processes": check(colliding.accepted_processes, 43_000),
    "names of flows": run(lambda: colliding.inputs_together(INPUTS), lambda: colliding.lines_of_last(INPUTS)),
    "400,000 nodes": execute(colliding.image_of_nodes, 395_904),
    "200,000 nodes": execute(colliding.image_of_nodes, 195_904),
    "written twice 11": execute(guard_images.written_twice, 22, 11),
    "written twice 10": execute(guard_images.written_twice, 20, 10),
    "written twice 9, 32 times": execute(guard_images.written_twice, 18, 9, 32),
    "read within 15": execute(guard_images.read_within, 30, 15),
    "read within 13": execute(guard_images.read_within, 26, 13),
    "read within 12": execute(guard_images.read_within, 24, 12),
    "read within 11": execute(guard_images.read_within, 22, 11),
    "read within 11, 400 times": execute(guard_images.read_within, 22, 11, 400),
    "read within 10, 16 times": execute(guard_images.read_within, 20, 10, 16),
    "distant circle 24": check(distant_circle, 24),
    "drawn circle 29, 1": check(drawn_circle, 29, 1),
    "drawn circle 29, 2": check(drawn_circle, 29, 2),
    "drawn circle 29, 3": check(drawn_circle, 29, 3),
    "merges at paces 60": check(paced_merges, 60, 1, flags=" --pace"),
    "merges at paces 45": check(paced_merges, 45, 1, flags=" --pace"),
    "merges at paces 40": check(paced_merges, 40, 1, flags=" --pace"),
    "13,000,000 lines of names": run(lambda: many_inputs(INPUTS - 1), lambda: 13_000_000 * f"A{INPUTS - 2}\n"),
    "3,999,999 lines of values": run(lambda: many_inputs(INPUTS - 1), lambda: 3_999_999 * f"A{INPUTS - 2} 1\n"),
}
CASES |= {f"{name} {count}": check(shape, count) for name, (shape, counts) in SHAPES.items() for count in counts}


def write(case, folder):
    """Writes the files of a case into a folder, and tells their bytes."""
    size = 0
    for name, make in case.files.items():
        text = make()
        data = text if isinstance(text, bytes) else text.encode("ascii")
        size += len(data)
        with open(os.path.join(folder, name), "wb") as file:
            file.write(data)
    return size


def main():
    for name, case in CASES.items():
        folder = os.path.join(sys.argv[1], name.replace(",", "").replace(" ", "-"))
        os.makedirs(folder, exist_ok=True)
        write(case, folder)
        with open(os.path.join(folder, "words"), "w", encoding="ascii") as file:
            file.write(case.words + "\n")
    return 0


if __name__ == "__main__":
    sys.exit(main())
