"""sigc-format: the words and comments of a program stay, and formatting twice is formatting once."""
import os
import random
import re
import tempfile
import unittest
from unittest import mock

from calling import EXAMPLES, TOP, TUTORIAL, module_of, needs_sigc, ran, sigc, written
from programs import Program

from sigc.read import files_read, layout, syntax, text_limits

COUNT = int(os.environ.get("SIGC_FORMAT_PROGRAMS", "80"))
COMMENTS = ("%%", "% a note %", "% two\n   lines %", "%\n%", "%\t\xe9 and \xff %", "% (| := default |) %", "%\r\n a %")
BLANKS = (" ", " ", " ", "\n", "\n\n", "\n\n\n  ", "\t", "\r\n", "  ")
MESSY = """%first%process   P={integer M}(?integer A;boolean B!integer Y;event E init true)pragmas RunOn{Y}"1"end pragmas(|Y:=(A+-1)*-M modulo- -A|(|(|E:=when(not not B)|)|U:=Q{1,-2}(A,(B))|)
|(|% none %|)|)where integer U init -3;process Q={integer X,Z}(?integer A;boolean B!integer Y)Y:=A cell^B init X;end;"""
NEAT = """%first%
process P = {integer M} (? integer A; boolean B ! integer Y; event E init true)
pragmas RunOn {Y} "1" end pragmas
(| Y := (A + -1) * -M modulo --A
 | (| (| E := when (not not B)
       |)
    | U := Q{1, -2}(A, (B))
    |)
 | (| % none % |)
 |)
where integer U init -3;
  process Q = {integer X, Z} (? integer A; boolean B ! integer Y)
    Y := A cell ^B init X;
end;
"""
LONG = "process LONG = (? integer A ! integer Y)\n(| Y := " + " default ".join(f"({at} when (A = {at}))" for at in range(9)) + " default (A default (B default C))\n |)\nwhere integer "
LONG += ", ".join(f"LOCAL{at}" for at in range(20)) + "; boolean B; end;\n"


def program_of(right):
    return f"process P = (? integer A; boolean B ! integer Y)\n(| Y := {right}\n |);\n"


def nested(count, before, behind, inside="Y := A"):
    return f"process P = (? integer A ! integer Y)\n{before * count}{inside}{behind * count};\n"


# A text that keeps to a limit, one that passes it, and the words of the refusal.
LIMITS = [
    *((program_of(make(63)), program_of(make(64)), "nesting deeper than 64") for make in (
        lambda n: "(" * n + "A" + ")" * n, lambda n: "A when " + "not " * n + "B", lambda n: "- " * n + "A", lambda n: "A when " + "(when " * (n // 2) + "(" * (n % 2) + "B" + ")" * (n // 2 + n % 2),
    )),
    (nested(64, "(|", "|)"), nested(65, "(|", "|)"), "nesting deeper than 64"),
    (nested(63, "(|", "|)", "(Y) := (A)"), nested(64, "(|", "|)", "(Y) := (A)"), "nesting deeper than 64"),
    (nested(64, "Y := A where process Q = (? integer A ! integer Y) ", "; end"), nested(65, "Y := A where process Q = (? integer A ! integer Y) ", "; end"), "nesting deeper than 64"),
    (program_of("A" + " + A" * 512), program_of("A" + " + A" * 513), "more than 512 operators"),
    (program_of("-A" + " + A" * 511), program_of("-A" + " + A" * 512), "more than 512 operators"),
    (program_of(f"Q(A, A{' + A' * 512})"), program_of(f"Q(A + A, A{' + A' * 512})"), "more than 512 operators"),
    (program_of(f"A $ init 0{' - A' * 509} cell (when B) init 0"), program_of(f"A $ init 0{' - A' * 510} cell (when B) init 0"), "more than 512 operators"),
    (program_of("A + 9223372036854775807"), program_of("A + 9223372036854775808"), "number too large"),
    (program_of("A + 09223372036854775807"), program_of("A + " + "9" * 5000), "number too large"),
    (f"%{' ' * 1_048_500}%\n" + "process P = (? ! ) (| |);", f"%{' ' * 1_048_600}%\n" + "process P = (? ! ) (| |);", "program longer than 1048576 bytes"),
]


def programs():
    """The texts of all programs of the repository that are read as programs, those in documents too."""
    for folder in (EXAMPLES, TUTORIAL, f"{TOP}/bench"):
        for name in sorted(os.listdir(folder)):
            if name.endswith(".sig") and name != "heater-2.sig":
                yield name, files_read.read_text(f"{folder}/{name}")
    for name in sorted(os.listdir(f"{TOP}/docs")):
        if name.endswith(".md"):
            for at, text in enumerate(re.findall(r"^```signal [^\n]*\n(.*?)^```$", files_read.read_text(f"{TOP}/docs/{name}"), flags=re.M | re.S)):
                reader = syntax.read(text)
                if not reader.faults and not reader.strange and not text_limits.first_excess(reader):
                    yield f"{name} {at}", text


def scattered(text, draws):
    """A program with other blanks, and with comments anywhere."""
    found = []
    for piece in syntax.pieces_of(text)[0]:
        if draws.random() < 0.08:
            found.append(draws.choice(COMMENTS))
        found.append(draws.choice(BLANKS))
        if draws.random() < 0.08:
            found += [draws.choice(COMMENTS), draws.choice(BLANKS)]
        found.append(piece.text)
    return "".join(found)


class Formatted(unittest.TestCase):
    def compared(self, text):
        """A text laid out, of which words and comments are the same."""
        made = layout.formatted(text)
        self.assertEqual(layout.told(layout.words_of(made)), layout.told(layout.words_of(text)))
        self.assertEqual(layout.formatted(made), made)
        return made

    def test_programs_of_the_repository(self):
        found = [(name, self.compared(text) == text) for name, text in programs()]
        self.assertGreater(len(found), 80)

    def test_what_is_laid_out_here(self):
        """The examples and the programs of the tutorial."""
        for name, text in programs():
            if name.endswith(".sig") or name.startswith("tutorial.md"):
                with self.subTest(name):
                    self.assertEqual(layout.formatted(text), text)

    def test_comments_anywhere(self):
        draws = random.Random(56)
        for seed in range(COUNT):
            self.compared(scattered(Program(seed).text(), draws))

    @needs_sigc
    def test_sigc_prints_the_same(self):
        draws = random.Random(57)
        with tempfile.TemporaryDirectory() as room:
            for seed in range(10_000, 10_020):
                text = scattered(Program(seed).text(), draws)
                said = [sigc("print", written(room, "p.sig", it)) for it in (text, layout.formatted(text))]
                self.assertEqual((said[0].stdout, said[0].returncode, said[1].returncode), (said[1].stdout, 0, 0))

    def test_a_layout(self):
        self.assertEqual(self.compared(MESSY), NEAT)

    def test_long_equations_are_broken_at_default(self):
        made = self.compared(LONG)
        self.assertIn("(| Y := (0 when (A = 0))\n       default (1 when (A = 1))\n", made)
        self.assertIn("\n       default (A default (B default C))\n |)\nwhere\n  integer LOCAL0, ", made)
        self.assertIn("\n  boolean B;\nend;\n", made)

    def test_comments_stay_where_they_are(self):
        text = "% a %\n\n% b %\nprocess P = (? integer A ! integer Y) % c %\n(| % d %\n   Y := A % e %\n\n   % f %\n | A ^= Y\n   % g %\n |);\n\n% h %\n"
        self.assertEqual(self.compared(text), text)

    def test_lines_end_with_a_newline_alone(self):
        self.assertEqual(self.compared("process P = (? ! )\r\n(| |);\r\n\r\n"), "process P = (? ! )\n(| |);\n")


class Refused(unittest.TestCase):
    def refusal(self, text):
        with self.assertRaises(layout.Unformatted) as it:
            layout.formatted(text)
        return str(it.exception)

    def test_what_is_no_program(self):
        self.assertEqual(self.refusal("process P = (? ! )\n(| Y := |);"), "2:9: found `|)`")
        self.assertEqual(self.refusal("process P = (? ! ) (| |)"), "1:25: the text ends")
        self.assertEqual(self.refusal(""), "1:1: the text ends")
        self.assertEqual(self.refusal("process P = (? ! ) (| |); \xe9"), "1:27: no word begins here")
        self.assertEqual(self.refusal("process P = (? ! ) (| |); % open"), "1:27: no word begins here")

    def test_a_text_of_too_many_words(self):
        text = "process P = (? integer A ! integer Y)\n(| Y := A" + " | A ^= A" * 70_000 + " |);\n"
        self.assertTrue(syntax.read(text).is_cut)
        self.assertEqual(self.refusal(text), "more than 250000 words")


    def test_texts_that_pass_a_limit(self):
        """At each limit of docs/limits.md that a text may pass a program that keeps to it, and one that does not."""
        for kept, passing, words in LIMITS:
            layout.formatted(kept)
            self.assertRegex(self.refusal(passing), f"^([0-9]+:[0-9]+: )?{words}$")

    @needs_sigc
    def test_sigc_refuses_these_at_the_same_places(self):
        with tempfile.TemporaryDirectory() as room:
            for kept, passing, words in LIMITS:
                said = sigc("check", written(room, "p.sig", passing)).stderr.strip().removeprefix("error").removeprefix(":").strip()
                self.assertEqual(self.refusal(passing), said)
                self.assertNotIn(words, sigc("check", written(room, "p.sig", kept)).stderr)

    def test_a_long_number_and_a_long_name(self):
        """More digits than Python turns into a number, and a word that a message shows in part."""
        layout.formatted(program_of(f"A $ {'0' * 5000}1 init 0"))
        self.assertEqual(self.refusal(program_of(f"A $ {'7' * 5000} init 0")), f"2:13: found `{'7' * 58}..`")


class Words(unittest.TestCase):
    def setUp(self):
        room = tempfile.TemporaryDirectory()
        self.addCleanup(room.cleanup)
        self.room = room.name

    def test_ways(self):
        messy, neat = written(self.room, "messy.sig", MESSY), written(self.room, "neat.sig", NEAT)
        wrong = written(self.room, "wrong.sig", "process P")
        self.assertEqual(ran("sigc-format", messy).stdout, NEAT)
        self.assertEqual(ran("sigc-format", "-", given=MESSY).stdout, NEAT)
        done = ran("sigc-format", "--check", messy, neat)
        self.assertEqual((done.stdout, done.stderr, done.returncode), (f"{messy}\n", "", 1))
        done = ran("sigc-format", "--write", messy, wrong, neat)
        self.assertEqual((done.stdout, done.stderr, done.returncode), ("", f"sigc-format: {wrong}:1:10: the text ends\n", 1))
        self.assertEqual([files_read.read_text(it) for it in (messy, neat, wrong)], [NEAT, NEAT, "process P"])
        self.assertEqual(sorted(os.listdir(self.room)), ["messy.sig", "neat.sig", "wrong.sig"])

    def test_what_stands_beside_the_file_stays(self):
        messy = written(self.room, "messy.sig", MESSY)
        os.chmod(messy, 0o751)
        beside = written(self.room, "messy.sig.new", "mine")
        os.mkdir(f"{self.room}/other")
        os.symlink("../messy.sig", f"{self.room}/other/link.sig")
        self.assertEqual(ran("sigc-format", "--write", f"{self.room}/other/link.sig").returncode, 0)
        self.assertEqual([files_read.read_text(it) for it in (messy, beside)], [NEAT, "mine"])
        self.assertEqual(sorted(os.listdir(self.room)), ["messy.sig", "messy.sig.new", "other"])
        self.assertEqual((os.stat(messy).st_mode & 0o7777, os.readlink(f"{self.room}/other/link.sig"), os.listdir(f"{self.room}/other")), (0o751, "../messy.sig", ["link.sig"]))

    def test_a_link_into_another_file_system(self):
        with tempfile.TemporaryDirectory(dir="/dev/shm" if os.path.isdir("/dev/shm") else None) as elsewhere:
            os.symlink(written(elsewhere, "messy.sig", MESSY), f"{self.room}/link.sig")
            done = ran("sigc-format", "--write", f"{self.room}/link.sig")
            self.assertEqual((done.stderr, done.returncode, files_read.read_text(f"{elsewhere}/messy.sig"), os.listdir(elsewhere)), ("", 0, NEAT, ["messy.sig"]))
            self.assertTrue(os.path.islink(f"{self.room}/link.sig"))

    def test_a_file_of_two_names_stays_one(self):
        os.link(written(self.room, "one.sig", MESSY), f"{self.room}/other.sig")
        self.assertEqual(ran("sigc-format", "--write", f"{self.room}/one.sig").returncode, 0)
        self.assertEqual(files_read.read_text(f"{self.room}/other.sig"), NEAT)
        self.assertTrue(os.path.samefile(f"{self.room}/one.sig", f"{self.room}/other.sig"))

    def test_a_file_that_cannot_be_replaced(self):
        messy = written(self.room, "messy.sig", MESSY)
        with mock.patch("os.replace", side_effect=OSError(28, "No space left on device", messy)), self.assertRaises(OSError):
            module_of("sigc-format").replaced(messy, NEAT)
        self.assertEqual((files_read.read_text(messy), os.listdir(self.room)), (MESSY, ["messy.sig"]))


if __name__ == "__main__":
    unittest.main()
