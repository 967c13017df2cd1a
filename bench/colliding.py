"""Programs, flows and images whose keys fall together in tables that are hashed by a known key: bench/collide.c, which gcc
compiles, finds them."""

import functools
import os
import subprocess
import tempfile

HERE = os.path.dirname(os.path.abspath(__file__))
MOST_FILE = 67_108_864


@functools.cache
def found(*words):
    """What bench/collide.c gives for these words."""
    with tempfile.TemporaryDirectory() as folder:
        program = os.path.join(folder, "collide")
        subprocess.run(["gcc", "-O2", "-o", program, os.path.join(HERE, "collide.c")], check=True)
        return subprocess.run([program, *map(str, words)], check=True, stdout=subprocess.PIPE).stdout


def names_together(count, length):
    """So many names of so many bytes that fall together."""
    return found("names", count, length).decode("ascii").split()


def program_of_names(names, is_called=False):
    """A program with a process of so many inputs, which is called or not."""
    call = f"Q({', '.join(len(names) * ['A'])})" if is_called else "A"
    inner = f"process Q = (? integer {','.join(names)} ! integer Y) Y := {names[0]};"
    return f"process P = (? integer A ! integer Y)\n(| Y := {call} |)\nwhere\n{inner}\nend;\n"


def accepted_names(count):
    """A program with so many inputs of a process that nothing calls."""
    return program_of_names(names_together(count, 5))


def refused_names(count):
    """The same of a process that is called, which makes more signals than there may be."""
    return program_of_names(names_together(count, 5), is_called=True)


def accepted_processes(count):
    """A program with so many processes that nothing calls."""
    inner = "".join(f"process {name}=(?!)(||);\n" for name in names_together(count, 5))
    return f"process P = (? integer A ! integer Y)\n(| Y := A |)\nwhere\n{inner}\nend;\n"


def flat_inputs(names):
    """A program of so many inputs on one clock."""
    return f"process P = (? integer {', '.join(names)} ! integer Y)\n(| Y := {names[-1]} | {' ^= '.join(names)} |);\n"


def inputs_together(count):
    """A program of so many inputs, whose names fall together."""
    return flat_inputs(names_together(count, 4))


def lines_of_last(count):
    """As many lines of a flow file as there may be, each of the input that is found last."""
    line = names_together(count, 4)[-1] + "\n"
    return line * (MOST_FILE // len(line))


def number(value):
    return value.to_bytes(4, "big")


def image_of_conditions(nodes, operations=()):
    """An image of 512 conditions, a memory, these nodes and operations."""
    counts = (512, 512, 0, 512, 1, len(nodes) // 12, len(operations))
    signals = b"".join(b"\1" + number(4) + b"B%03d" % i for i in range(512))
    conditions = b"".join(map(number, range(512)))
    return b"SIGIMG01" + b"".join(map(number, counts)) + signals + conditions + b"\1" + bytes(8) + nodes + b"".join(operations)


def image_of_nodes(count):
    """An image with so many nodes that fall together and no operation."""
    return image_of_conditions(found("nodes", count))


def image_of_stored_nodes(count):
    """An image with so many nodes that fall together in the store of diagrams, all of them below one guard. The nodes below these
    are guards of their own before it, so that the store has them first."""
    nodes = found("stored", count)
    reads = [b"\0" + number(1) + number(1) + number(1) + number(i) for i in range(512)]
    store = lambda guard: b"\5" + number(guard) + number(1) + number(1) + number(0) + number(0)
    below = next(at for at in range(2, len(nodes) // 12 + 2) if int.from_bytes(nodes[12 * (at - 2) : 12 * (at - 2) + 4], "big") < 384)
    return image_of_conditions(nodes, [*reads, *map(store, range(2, below)), store(len(nodes) // 12 + 1)])
