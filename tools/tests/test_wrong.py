"""Wrong programs and wrong flow files as newcomers write them: each gets a hint, and each mend that is shown is accepted."""
import os
import re
import subprocess
import tempfile
import unittest

from helping import NEEDS_SIGC, module_of, program, ran

from sigc.call import compiler
from sigc.editor import documents
from sigc.read import editing

FOLDER = os.path.join(os.path.dirname(os.path.realpath(__file__)), "wrong")
PROGRAMS, FLOWS, WITHOUT_HINT = 56, 18, 2
WHOLE = {"start": {"line": 0, "character": 0}, "end": {"line": 9999, "character": 0}}


def rows_of(name):
    """The head of a table, and its rows: a title, the fields, and the text."""
    with open(f"{FOLDER}/{name}", encoding="utf-8") as it:
        head, *rows = it.read().split("\n### ")
    return head, [row_of(it) for it in rows]


def row_of(row):
    told, _, text = row.partition("\n\n")
    title, *fields = told.split("\n")
    return title, dict(it.split(": ", 1) for it in fields), text.strip("\n") + "\n" if text.strip() else ""


def line_of(refusal):
    """A refusal as sigc says it; `accepted` where there is none."""
    if refusal is None:
        return "accepted"
    return f"error {refusal.line}:{refusal.col}: {refusal.text}" if refusal.line else f"error: {refusal.text}"


@NEEDS_SIGC
class Programs(unittest.TestCase):
    @classmethod
    def setUpClass(cls):
        cls.sigc = compiler.Sigc(program())
        cls.caret = module_of("sigc-caret")
        cls.rows = rows_of("programs.txt")[1]

    def shown(self, text, said):
        """What sigc-caret shows of a program, with warnings, and the mends that stand in it."""
        with tempfile.TemporaryDirectory() as room:
            path = f"{room}/p.sig"
            with open(path, "w", encoding="utf-8") as it:
                it.write(text)
            shown = self.caret.Shown(program(), [path], "check", ["--lint"])
            shown.sigc = self.sigc
            lines = shown.line(said, ["check", path]) if said != "accepted" else ""
            return lines + shown.warned(1 if lines else 0), shown.mends

    def test_the_table(self):
        self.assertEqual(len(self.rows), PROGRAMS)
        self.assertEqual(len({title for title, _, _ in self.rows}), PROGRAMS)
        self.assertLessEqual(sum("hint" not in fields for _, fields, _ in self.rows), WITHOUT_HINT)

    def test_each_has_its_hint_and_its_mend(self):
        for title, fields, text in self.rows:
            with self.subTest(title):
                self.assertEqual(line_of(self.sigc.check(text)), fields["said"])
                shown, mends = self.shown(text, fields["said"])
                self.assertIn(fields.get("hint", ""), shown)
                for entry in re.findall(r"see docs/errors.md#(.*)", shown):
                    self.assertTrue(self.caret.explained(entry), entry)
                self.assertEqual([line_of(self.sigc.check(it)) for it in mends], ["accepted"] * len(mends))
                if "mend" in fields:
                    self.assertIn("mend, accepted by check:", shown)
                    self.assertIn(fields["mend"], mends[0])

    def test_each_action_of_an_editor_is_accepted(self):
        """Of a program that is no kernel the front end speaks, which takes it or says what it lacks."""
        for title, fields, text in self.rows:
            with self.subTest(title):
                document = documents.Document("file:///p.sig", text, self.sigc)
                if not document.wider.is_kernel:
                    continue
                self.assertTrue(fields["said"] == "accepted" or document.diagnostics()[0]["message"])
                mended = [self.changed(document, it) for it in document.actions(WHOLE)]
                self.assertEqual([line_of(self.sigc.check(it)) for it in mended], ["accepted"] * len(mended))
                self.assertTrue("mend" not in fields or any(fields["mend"] in it for it in mended))

    def changed(self, document, action):
        edits = action["edit"]["changes"][document.uri]
        return editing.applied(document.text, [editing.Edit(document.offset(it["range"]["start"]), document.offset(it["range"]["end"]), it["newText"]) for it in edits])

    def test_an_undeclared_local_is_told_once(self):
        title, fields, text = self.rows[0]
        shown, _ = self.shown(text, fields["said"])
        self.assertEqual((shown.count("error: "), text.count("BIG")), (1, 3))

    def test_a_mend_that_is_refused_is_not_shown(self):
        for text in (
            "process P = (? integer A, B ! integer Y)\n(| Y := A +* B |);\n",
            "process P = (? integer A ! integer Y)\n(| Y := A cell A init true |);\n",
            "process P = (? integer A ! integer Y)\n(| Y := (A when C) default (A when D) | C := D | D := C |);\n",
        ):
            document = documents.Document("file:///p.sig", text, self.sigc)
            mended = [self.changed(document, it) for it in document.actions(WHOLE)]
            self.assertEqual([it for it in mended if self.sigc.check(it)], [], text)


@NEEDS_SIGC
class Flows(unittest.TestCase):
    def test_each_has_its_hint(self):
        head, rows = rows_of("flows.txt")
        self.assertEqual(len(rows), FLOWS)
        self.assertLessEqual(sum("hint" not in fields for _, fields, _ in rows), WITHOUT_HINT)
        with tempfile.TemporaryDirectory() as room:
            with open(f"{room}/p.sig", "w", encoding="utf-8") as it:
                it.write(head[head.index("process ") :] + "\n")
            for title, fields, text in rows:
                with self.subTest(title):
                    with open(f"{room}/p.flows", "w", encoding="utf-8") as it:
                        it.write(text)
                    done = ran("sigc-caret", "run", "p.sig", "p.flows", cwd=room)
                    shown = done.stderr.decode()
                    self.assertEqual(shown.split("\n")[0], first_line(fields["said"]))
                    self.assertEqual(done.returncode, 4 if fields["said"].startswith("error") else 0)
                    self.assertIn(fields.get("hint", ""), shown)
                    self.assertEqual("warning" in shown, done.returncode == 0)


    def test_images_and_paces(self):
        with tempfile.TemporaryDirectory() as room:
            for name, text in (("p.sig", "process P = (? integer A; boolean B ! integer Y)\n(| Y := A when B | A ^= B |);"), ("two.sig", "process P = (? integer A, B ! integer Y, Z)\n(| Y := A | Z := B |);"), ("p.flows", "A 1 2\n"), ("two.flows", "A 1\nB 1\npace_1 true\n")):
                with open(f"{room}/{name}", "w", encoding="utf-8") as it:
                    it.write(text)
            with open(f"{room}/p.img", "wb") as it:
                it.write(image_of(f"{room}/p.sig"))
            shown = ran("sigc-caret", "exec", "p.img", "p.flows", cwd=room).stderr.decode()
            self.assertIn("p.flows:1:1: warning: input B has no values", shown)
            shown = ran("sigc-caret", "run", "--pace", "two.sig", "two.flows", cwd=room).stderr.decode()
            self.assertIn("two.sig:1:9: warning: input pace_2 has no values in two.flows", shown)
            self.assertNotIn("pace_1 has", shown)


def image_of(path):
    """The image of a program, as sigc build writes it."""
    return subprocess.run([program(), "build", path], capture_output=True, check=True).stdout


def first_line(said):
    """What sigc says of a file as sigc-caret writes it: with a line and a column."""
    if not said.startswith("error: "):
        return said
    path, *places, text = said.removeprefix("error: ").split(":")
    line, col = (*places, "1")[:2]
    return f"{path}:{line}:{col}: error:{text}"


if __name__ == "__main__":
    unittest.main()
