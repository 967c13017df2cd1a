"""sigc-expand: the kernel of each construct of docs/signal.md, refusals at the user's place, and what leads home."""
import json
import os
import tempfile
import time
import unittest

from calling import TOP, needs_sigc, pairs, ran, sigc, written

from sigc.expand import Refused, calling, expanded
from sigc.hints import entries

HERE = os.path.dirname(os.path.realpath(__file__))
AROUND = """type COLOUR = enum (red, green, blue);
constant integer N = 4;
process MAIN = (? integer A, B; boolean P, Q; COLOUR S; [3] integer R ! integer Y)
(| {}
 |)
where
  [3] integer V;
  process TWICE = {{ integer K; }} (? integer X ! integer Y) Y := X * (2 * K);
end;
"""


def text_of(name):
    with open(f"{HERE}/expand/{name}", encoding="utf-8") as it:
        return it.read()


def rows():
    """The rows of kernels.txt: what is said, the equations, and those of the kernel."""
    for block in text_of("kernels.txt").strip().split("\n--\n"):
        said, equations, *kernel = block.split("\n")
        yield said, equations, kernel


def program_of(equations):
    text = AROUND.format(equations)
    return text if "V" in equations.replace("VALUE", "") else text.replace("  [3] integer V;\n", "")


def equations_of(kernel):
    """The equations of a kernel, without those that tie the elements of arrays."""
    lines = [it[3:] for it in kernel.split("\n") if it.startswith(("(| ", " | "))]
    return [it for it in lines if it not in ("R_0 ^= R_1 ^= R_2", "V_0 ^= V_1 ^= V_2")]


class Expanding(unittest.TestCase):
    def setUp(self):
        room = tempfile.TemporaryDirectory()
        self.addCleanup(room.cleanup)
        self.room = room.name

    def expanded(self, text, name="p.sig"):
        return expanded(written(self.room, name, text))

    def refused(self, text):
        """The line and the column of a refusal, and what it says with its advice."""
        with self.assertRaises(Refused) as found:
            self.expanded(text)
        at = found.exception.at
        return at.place.line, at.place.col, " / ".join([found.exception.text, *found.exception.advice]), at.trail

    def test_each_construct_has_its_kernel(self):
        for said, equations, kernel in rows():
            with self.subTest(said):
                found = self.expanded(program_of(equations))
                self.assertEqual(equations_of(found.kernel), kernel)

    def test_a_kernel_stays_as_it_is(self):
        for folder in ("examples", "examples/tutorial"):
            for name in sorted(os.listdir(f"{TOP}/{folder}")):
                if name.endswith(".sig") and name not in ("heater-2.sig", "channels.sig"):
                    path = f"{TOP}/{folder}/{name}"
                    with self.subTest(path), open(path, encoding="latin-1") as it:
                        self.assertEqual(expanded(path).kernel, it.read())

    def test_words_are_names_in_a_kernel(self):
        text = (
            "process state = (? integer if, count; boolean max ! integer case, array, from)\n"
            "(| case := (if when max) default count | array := if $ 1 init 0 | from := after(if, count) | if ^= count ^= max |)\n"
            "where process after = (? integer use, type ! integer module) module := use + type; end;\n"
        )
        self.assertTrue(self.expanded(text).is_kernel)

    def test_words_are_names_where_they_can_be_nothing_else(self):
        text = (
            "process P = (? integer count, from; boolean next ! integer window, Y)\n"
            "(| window := if next then count count 3 else from | Y := max(count, from) |)\n"
            "where process max = (? integer A, B ! integer Y) Y := A * B; end;\n"
        )
        self.assertIn("Y := count * from", self.expanded(text).kernel)

    def test_a_kernel_is_expanded_once(self):
        for said, equations, _ in rows():
            with self.subTest(said):
                found = self.expanded(program_of(equations))
                self.assertEqual(found.kernel, self.expanded(program_of(equations)).kernel)
                again = self.expanded(found.kernel, "kernel.sig")
                self.assertTrue(again.is_kernel)
                self.assertEqual(again.kernel, found.kernel)

    def test_faults_are_told_at_their_places(self):
        for block in text_of("faults.txt").strip().split("\n--\n"):
            text, _, said = block.rpartition("\n")
            with self.subTest(text):
                line, col, why, trail = self.refused(text.replace("\\n", "\n"))
                shown = f"{line}:{col}: {why}{trail}".replace(self.room + "/", "").replace(self.room, "ROOM")
                self.assertEqual(shown, said)

    def test_a_syntax_that_is_neither_is_left_to_sigc(self):
        for text in ("process P = (? bool B ! boolean Y) Y := not B;\n", "process P = (? integer A ! integer Y) Y := A mod 2;\n", "garbage\n", ""):
            self.assertTrue(self.expanded(text).is_kernel)

    def test_modules(self):
        written(self.room, "M.sig", "module M = use K; constant integer N = 2 * HALF; process TWICE = (? integer X ! integer Y) Y := N * X; end;\n")
        written(self.room, "K.sig", "module K = constant integer HALF = 3; type T = enum (a, b); end;\n")
        text = "use M;\nprocess P = (? integer A; T S ! integer Y) (| Y := TWICE(A) + HALF when S = #b |);\n"
        self.assertEqual(equations_of(self.expanded(text).kernel), ["TWICE_1_Y := 6 * A", "S_is_b := S = 1", "Y := (TWICE_1_Y + 3) when S_is_b"])

    def test_modules_from_another_folder(self):
        os.mkdir(f"{self.room}/lib")
        written(f"{self.room}/lib", "M.sig", "module M = constant integer N = 7; end;\n")
        path = written(self.room, "p.sig", "use M;\nprocess P = (? integer A ! integer Y) Y := A + N;\n")
        self.assertIn("Y := A + 7", expanded(path, [f"{self.room}/lib"]).kernel)
        with self.assertRaises(Refused):
            expanded(path)

    def test_circles_of_modules(self):
        written(self.room, "K.sig", "module K = use M; end;\n")
        written(self.room, "M.sig", "module M =\n  use K;\nend;\n")
        with self.assertRaises(Refused) as found:
            self.expanded("use M;\nprocess P = (? integer A ! integer Y) Y := A;\n")
        self.assertEqual(str(found.exception).replace(f"{self.room}/", ""), "K.sig:1:16: error: modules use each other in a circle\n      M uses K uses M")

    def test_a_fault_in_a_module_is_told_there(self):
        written(self.room, "M.sig", "module M =\n  process F = (? integer X ! integer Y)\n    Y := X + B;\nend;\n")
        with self.assertRaises(Refused) as found:
            self.expanded("use M;\nprocess P = (? integer A ! integer Y)\n  Y := F(A);\n")
        self.assertEqual(str(found.exception).replace(f"{self.room}/", ""), "M.sig:3:14: error: unknown name B\n      here: in F#1 (called at p.sig:3:8)")

    def test_a_user_name_stays_beside_an_array(self):
        found = self.expanded("process P = (? [2] integer X; integer X_0 ! [2] integer Y) Y := X + X_0;\n")
        self.assertIn("(? integer X_0_, X_1, X_0 ! integer Y_0, Y_1)", found.kernel)
        self.assertEqual((found.name("X_0"), found.name("X_0_"), found.kernel_name("X[0]")), ("X_0", "X[0]", "X_0_"))
        self.assertEqual(found.flows_to_kernel("X [1,2] [3,4]\nX_0 5 6\n").split("\n"), ["", "X_0 5 6", "X_0_ 1 3", "X_1 2 4", ""])

    def test_flows_and_outputs(self):
        found = self.expanded("type T = enum (a, b);\nprocess P = (? T S; [2] integer X; [2] T Z ! T U; [2] integer Y; [2] T W)\n(| U := S | Y := X | W := Z |);\n")
        given = "flows 2\nS #a*2 #b\nX [1, 2]*2\nX[0] 7\nX_1 8\nZ [#a,#b] [#b, #a]*2\n"
        self.assertEqual(
            [it for it in found.flows_to_kernel(given).split("\n") if it],
            ["flows 2", "S 0*2 1", "X_0 1*2", "X_1 2*2", "X_0 7", "X_1 8", "Z_0 0 1*2", "Z_1 1 0*2"],
        )
        self.assertEqual(found.outputs_to_user("U 1\nY_0 1\nY_1 2\nW_0 0\nW_1 1\n"), "U #b\nY [1,2]\nW [#a,#b]\n")

    def test_what_is_chosen_is_told(self):
        found = self.expanded("process P = (? integer A; boolean B ! integer Y, Z; boolean C)\n(| Y := A $ | Z := A cell B | C := B $ 2 | A --> Y |);\n")
        self.assertEqual([str(it).split("p.sig:")[1] for it in found.notes],
                         ["2:11: note: no init is given: it is 0", "2:22: note: no init is given: it is 0", "2:38: note: no init is given: it is false",
                          "2:44: note: this is dropped: a dependence, `-->`: sigc orders computations by itself"])

    def test_notes_stand_once_a_place(self):
        text = "process P = (? [3] integer A ! [3] integer Y)\n  array I to 2 of Y[I] := F(A[I]) end\nwhere process F = (? integer X ! integer Y) Y := X $; end;\n"
        self.assertEqual([str(it.at.place).split("p.sig:")[1] for it in self.expanded(text).notes], ["3:52"])

    def test_a_branch_that_defines_nothing_is_told(self):
        text = "type T = enum (a, b);\nprocess P = (? T S; integer A ! integer Y)\n(| S ^= A\n | case S in\n     {#a}: Y := A\n     {#b}: (| |)\n   end\n |);\n"
        self.assertEqual([str(it).split("p.sig:")[1] for it in self.expanded(text).notes],
                         ["6:12: note: Y is absent where this branch is taken: no equation here defines it"])
        self.assertEqual(self.expanded(text.replace("(| |)", "Y := 0")).notes, [])

    def test_locals_of_an_iteration_have_its_turn(self):
        text = "process P = (? [2] integer A ! [2] integer Y)\n  array I to 1 of (| Y[I] := T + 1 | T := A[I] |) where integer T; end end;\n"
        found = self.expanded(text)
        self.assertEqual([found.name(it) for it in ("T", "T_")], ["T[I=0]", "T[I=1]"])
        self.assertEqual(found.kernel_name("T[I=1]"), "T_")

    def test_each_refusal_has_its_section(self):
        with open(f"{TOP}/docs/signal.md", encoding="utf-8") as it:
            anchors = {entries.anchor(line.lstrip("#").strip()) for line in it if line.startswith("## ")}
        self.assertLessEqual(set(calling.SECTIONS.values()), anchors)
        self.assertEqual(calling.section_of("index 3 is out of range"), "#arrays")

    def test_the_map(self):
        found = self.expanded("process P = (? [2] integer A ! integer Y)\n  Y := max(A);\n")
        read = json.loads(found.map())
        self.assertEqual(read["names"]["A_1"], "A[1]")
        self.assertEqual(read["inputs"], [{"name": "A", "kind": "integer", "sizes": [2], "kernel": ["A_0", "A_1"]}])
        line = found.kernel.split("\n").index(" | Y := (A_0 when (A_0 >= A_1)) default A_1") + 1
        self.assertTrue(found.place(line, 4).endswith("p.sig:2:3"))

    def test_sizes(self):
        found = self.expanded("constant integer N = 300;\nprocess P = (? integer X ! integer Y)\n(| W := X window N init 0\n | Y := W[0] |)\nwhere [N] integer W; end;\n")
        self.assertGreater(found.count, 512)
        told = str(found.too_large()).replace(f"{self.room}/", "")
        self.assertIn("error: more than 512 signals", told)
        self.assertIn("p.sig:5 needs 300", told)
        most = int(told.split("fits with N = ")[1].split(":")[0])
        for value in (most, most + 1):
            text = f"constant integer N = {value};\nprocess P = (? integer X ! integer Y)\n(| W := X window N init 0\n | Y := W[0] |)\nwhere [N] integer W; end;\n"
            self.assertEqual(self.expanded(text).count <= 512, value == most)

    @needs_sigc
    def test_sizes_are_those_of_sigc(self):
        equations = "Y := if A > 1 then (A cell P) + B else abs(A) $ 2 | Y ^= (A ^+ B) ^- (A ^* B)"
        count = self.expanded(program_of(equations)).count
        for missing in (-1, 0, 1):
            more = "Y := " + "A + " * (512 - count - missing)
            found = self.expanded(program_of(equations.replace("Y := ", more, 1)))
            said = sigc("check", written(self.room, "k.sig", found.kernel)).stderr
            self.assertEqual("more than 512 signals" in said, found.count > 512, (found.count, said))
            self.assertEqual(found.count > 512, missing < 0, found.count)

    def test_many_equations_take_a_moment(self):
        lines = "\n | ".join(f"X{number} := if X{number - 1} > {number} then X{number - 1} else {number}" for number in range(1, 10_001))
        names = ", ".join(f"X{number}" for number in range(1, 10_001))
        path = written(self.room, "p.sig", f"process P = (? integer X0 ! integer Y)\n(| {lines}\n | Y := X10000 |)\nwhere integer {names}; end;\n")
        begun = time.process_time()
        found = expanded(path)
        self.assertEqual(found.kernel.count(":="), 10_001)
        self.assertLess(time.process_time() - begun, 6)


@needs_sigc
class Calling(unittest.TestCase):
    """sigc-expand itself, and sigc check, run and tree on programs that are no kernels."""

    def setUp(self):
        room = tempfile.TemporaryDirectory()
        self.addCleanup(room.cleanup)
        self.room = room.name
        self.program = written(self.room, "p.sig", "type T = enum (a, b);\nprocess P = (? [2] integer A; T S ! [2] integer Y; T U)\n(| Y := if S = #a then A else A + 1\n | U := S |);\n")
        self.flows = written(self.room, "p.flows", "A [1,2] [3,4]\nS #a #b\n")

    def test_check_run_and_tree(self):
        self.assertEqual(ran("sigc-caret", "check", self.program).stdout, "accepted\n")
        done = ran("sigc-caret", "run", self.program, self.flows)
        self.assertEqual((done.stdout, done.stderr, done.returncode), ("Y [1,2]\nU #a\nY [4,5]\nU #b\n", "end: input A[0] exhausted after 2 instants\n", 0))
        self.assertEqual(ran("sigc-caret", "tree", self.program).stdout.split("\n")[0], "A[0] A[1] S Y[0] Y[1] U")

    def test_programs_run_as_wanted(self):
        folders = (f"{HERE}/expand/programs", f"{TOP}/examples/signal")
        for program, flows in [it for folder in folders for it in pairs(folder)]:
            with self.subTest(program), open(program.removesuffix(".sig") + ".want", encoding="utf-8") as want:
                self.assertEqual(ran("sigc-caret", "run", program, flows).stdout, want.read())

    def test_modules_of_another_folder_are_named(self):
        os.mkdir(f"{self.room}/lib")
        written(f"{self.room}/lib", "M.sig", "module M = constant integer N = 7; end;\n")
        path = written(self.room, "q.sig", "use M;\nprocess P = (? integer A ! integer Y) Y := A + N;\n")
        self.assertEqual(ran("sigc-caret", "check", path, "-I", f"{self.room}/lib").stdout, "accepted\n")
        self.assertIn("q.sig:1:5: error: there is no module M\n", ran("sigc-caret", "check", path).stderr)

    def test_what_is_neither_is_refused(self):
        done = ran("sigc-expand", written(self.room, "q.sig", "process P = (? integer A ! integer Y) Y := A mod 2;\n"))
        self.assertEqual((done.returncode, done.stdout), (1, ""))
        self.assertIn("q.sig:1:46: error: syntax\n", done.stderr)

    def test_the_kernel_and_the_map_are_written(self):
        done = ran("sigc-expand", self.program, "-o", f"{self.room}/k.sig", "--map", f"{self.room}/k.map")
        self.assertEqual((done.stdout, done.stderr, done.returncode), ("", "", 0))
        self.assertEqual(sigc("check", f"{self.room}/k.sig").stdout, "accepted\n")
        with open(f"{self.room}/k.map", encoding="utf-8") as it:
            self.assertEqual(json.load(it)["types"], {"T": ["a", "b"]})

    def test_a_refusal_of_the_kernel_is_told_in_the_text(self):
        text = "process P = (? [2] boolean B ! [2] integer Y)\n(| array I to 1 of\n     Y[I] := F(B[I])\n   end\n |)\nwhere\n  process F = (? boolean C ! integer Y)\n    (| Y := 1 when C | Y ^= C |);\nend;\n"
        done = ran("sigc-caret", "check", written(self.room, "q.sig", text))
        self.assertEqual(done.returncode, 1)
        said = done.stderr.replace(f"{self.room}/", "")
        self.assertIn("q.sig:1:28: error: condition B[0] is forced\n", said)
        self.assertIn("q.sig:8:24: note: this is one of the equations responsible\n", said)
        self.assertIn("here: in F#1 (called at q.sig:3:14 [I=0])\n", said)

    def test_an_index_out_of_range_ends_the_run(self):
        path = written(self.room, "q.sig", "process P = (? [2] boolean A; integer S ! boolean Y)\n  Y := A[S];\n")
        done = ran("sigc-caret", "run", path, written(self.room, "q.flows", "A [true,false] [true,true] [true,true]\nS 1 2 0\n"))
        self.assertEqual((done.stdout, done.returncode), ("Y false\n", 3))
        self.assertIn("end: index out of range at q.sig:2:9 after 1 instants\n", done.stderr.replace(f"{self.room}/", ""))

    def test_a_wrong_flow_is_told(self):
        for given, said in (("A [1,2]\nS #c\n", "2:3: error: bad value"), ("A [1,2,3]\n", "1:3: error: bad value"), ("A[2] 1\n", "1:1: error: not an input"), ("\nX 1\n", "2:1: error: not an input")):
            done = ran("sigc-caret", "run", self.program, written(self.room, "w.flows", given))
            self.assertEqual((done.returncode, done.stderr.split("\n")[0].replace(f"{self.room}/", "")), (4, f"w.flows:{said}"))


if __name__ == "__main__":
    unittest.main()
