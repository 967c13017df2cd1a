"""sigc-image: the parts of an image, and the first broken byte of a file that is none."""
import subprocess
import tempfile
import unittest

from calling import EXAMPLES, SIGC, needs_sigc, ran

from sigc.image import images


def number(value, width=4):
    return value.to_bytes(width, "big", signed=value < 0)


def head(counts):
    return images.MAGIC + b"".join(map(number, counts))


def signal(kind, name):
    return bytes([kind]) + number(len(name)) + name


def begun(kind, guard, line, column):
    return bytes([kind]) + number(guard) + number(line) + number(column)


# process SUM = (? integer A, B ! integer Y) Y := A + B;
SUM = head((3, 2, 1, 0, 0, 0, 3)) + signal(0, b"A") + signal(0, b"B") + signal(0, b"Y")
SUM += begun(0, 1, 1, 26) + number(0) + begun(0, 1, 1, 29) + number(1)
SUM += begun(1, 1, 1, 51) + number(2) + bytes([12, 2, 0]) + number(0) + bytes([0]) + number(1)
# a boolean input C, a memory, a node that asks C, and each operation once more
PARTS = head((3, 1, 1, 1, 1, 1, 5)) + signal(1, b"C") + signal(1, b"B") + signal(2, b"E") + number(0)
PARTS += bytes([1]) + number(0, 8) + number(0) + number(0) + number(1)
PARTS += begun(0, 1, 1, 1) + number(0) + begun(4, 1, 2, 2) + number(1) + number(0) + begun(3, 2, 3, 3) + number(2) + number(1, 8)
PARTS += begun(5, 2, 4, 4) + number(0) + number(2) + begun(1, 0, 5, 5) + number(1) + bytes([6, 2, 1]) + number(1, 8) + bytes([0]) + number(0)


def broken_at(data):
    """The first broken byte, or None."""
    try:
        images.image_of(data)
    except images.Broken as broken:
        return broken.at
    return None


def changed(data, at, new):
    return data[:at] + new + data[at + len(new) :]


class Reading(unittest.TestCase):
    def test_the_parts(self):
        image = images.image_of(PARTS)
        self.assertEqual([(it.kind, it.guard, it.fields[0]) for it in image.operations[:4]], [("Read", 1, 0), ("DelayRead", 1, 1), ("Const", 2, 2), ("Store", 2, 0)])
        self.assertEqual(image.operations[4].fields, (1, "Eq", (images.Operand(None, 1), images.Operand(0, None))))
        self.assertEqual((image.memories, image.nodes), ([("boolean", 0)], [(0, 0, 1)]))

    def test_files_that_are_cut(self):
        self.assertEqual(broken_at(SUM[:116]), 113)
        self.assertEqual([broken_at(SUM[:n]) for n in (0, 7, 8, 35, 36, 40, 41)], [0, 0, 8, 32, 36, 37, 41])
        self.assertEqual(broken_at(SUM + b"x"), len(SUM))
        self.assertTrue(all(broken_at(PARTS[:n]) is not None for n in range(len(PARTS))))

    def test_fields_that_are_broken(self):
        last = len(SUM)
        cases = [(0, b"s", 0), (8, number(513), 8), (12, number(9), 16), (16, number(2), 16), (36, b"\3", 36), (41, b" ", 41), (47, b"A", 47), (55, number(2), 55)]
        cases += [(67, number(2), 67), (101, number(3), 101), (105, b"\6", 105), (106, b"\1", 106), (107, b"\2", 107), (last - 4, number(3), last - 4)]
        self.assertEqual([(at, broken_at(changed(SUM, at, new))) for at, new, _ in cases], [(at, wanted) for at, _, wanted in cases])

    def test_nodes_that_are_no_diagram(self):
        two = head((1, 1, 0, 1, 0, 2, 0)) + signal(1, b"C") + number(0)
        node = number(0) + number(0) + number(1)
        begin = len(two)
        self.assertEqual(broken_at(two + node + node), begin + 20)
        self.assertEqual(broken_at(two + number(0) + number(1) + number(1) + node), begin + 8)
        self.assertEqual(broken_at(two + node + number(0) + number(2) + number(1)), begin + 16)


class Showing(unittest.TestCase):
    def shown(self, data, *words):
        with tempfile.NamedTemporaryFile() as file:
            file.write(data)
            file.flush()
            done = ran("sigc-image", file.name, *words)
            return done.returncode, done.stdout, done.stderr.replace(file.name, "I")

    def test_sum(self):
        text = "117 bytes: 2 inputs, 1 outputs, 3 signals, 0 conditions, 0 memories, 0 nodes, 3 operations\n"
        parts = "\nsignals\n0 input integer A\n1 input integer B\n2 output integer Y\n\noperations\n0 1:26 read A\n1 1:29 read B\n2 1:51 Y := A + B\n"
        self.assertEqual(self.shown(SUM), (0, text + parts, ""))
        self.assertEqual(self.shown(SUM, "--counts"), (0, text, ""))
        self.assertEqual(self.shown(SUM[:116]), (1, "", "sigc-image: I: bad image at byte 113: the file ends in an operand\n"))

    def test_guards_and_memories(self):
        _, text, _ = self.shown(PARTS)
        wanted = ["0 boolean false", "0 C ? always : never", "1 2:2 B := memory 0", "2 3:3 node 0: E := true", "3 4:4 node 0: memory 0 := E", "4 5:5 never: B := true = C"]
        self.assertEqual([it for it in wanted if it not in text.splitlines()], [])

    @needs_sigc
    def test_images_that_sigc_makes(self):
        for name in ("down", "watch", "thermostat"):
            with self.subTest(name):
                done = subprocess.run([SIGC, "build", f"{EXAMPLES}/{name}.sig"], capture_output=True)
                self.assertEqual((done.returncode, broken_at(done.stdout)), (0, None))
