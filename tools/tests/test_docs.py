"""tests/docs.py itself: that it passes what is right, and fails what is not."""
import os
import subprocess
import sys
import tempfile
import unittest
import unittest.mock
from importlib.machinery import SourceFileLoader
from importlib.util import module_from_spec, spec_from_loader

sys.dont_write_bytecode = True
TOP = os.path.dirname(os.path.dirname(os.path.dirname(os.path.realpath(__file__))))


def loaded():
    spec = spec_from_loader("docs", SourceFileLoader("docs", f"{TOP}/tests/docs.py"))
    made = module_from_spec(spec)
    spec.loader.exec_module(made)
    return made


STAND_IN = """#!/usr/bin/env bash
case $1 in
check) case $2 in bad.sig) echo "error 1:2: syntax" >&2; exit 1;; esac; echo accepted;;
run) echo 'error: these words are not a command' >&2; exit 2;;
*) echo "error 1:2: syntax" >&2; exit 1;;
esac
"""


class PlainWords(unittest.TestCase):
    """tests/plain_words.py: prose is read, code and links are not."""

    def setUp(self):
        sys.path.insert(0, f"{TOP}/tests")
        self.addCleanup(sys.path.remove, f"{TOP}/tests")
        self.words = SourceFileLoader("plain_words", f"{TOP}/tests/plain_words.py").load_module()

    def test_odd_words_of_prose(self):
        for line, word in [("It stands behind the name.", "behind"), ("A mend is shown.", "mend"), ("It is told once.", "told"), ("It ends for want of memory.", "want of")]:
            self.assertEqual([(at, found) for at, found, _ in self.words.odd_words(f"# A page\n\n{line}\n")], [(3, word)])
        for line in ("`behind`", "```\nbehind\n```", "    behind", "[a](behind.md)", "Ask whoever has it. Tell them."):
            self.assertEqual(self.words.odd_words(f"{line}\n"), [])

    def test_pages_say_for_whom_they_are(self):
        self.assertTrue(self.words.says_for_whom("# A page\n\nFor readers: a page.\n"))
        self.assertFalse(self.words.says_for_whom("# A page\n\nThis and that.\n\nFor readers.\n"))


class Pages(unittest.TestCase):
    def counts(self, page, **files):
        """How many examples of a page pass and fail, where sigc is a stand-in and these files stand in the folder `there`."""
        docs = loaded()
        with tempfile.TemporaryDirectory() as room:
            for it in ("top", "work"):
                os.mkdir(f"{room}/{it}")
            with open(f"{room}/sigc", "w", encoding="utf-8") as it:
                it.write(STAND_IN)
            with open(f"{room}/top/page.md", "w", encoding="utf-8") as it:
                it.write(page)
            for name, text in files.items():
                os.makedirs(f"{room}/top/there", exist_ok=True)
                with open(f"{room}/top/there/{name}", "w", encoding="utf-8") as it:
                    it.write(text)
            docs.TOP, docs.print = f"{room}/top", lambda *_: None
            run = docs.Documents(f"{room}/sigc", f"{room}/work")
            run.document("page.md")
            return run.passed, run.failed

    def test_what_is_right(self):
        self.assertEqual(self.counts("```signal a.sig\nA\n```\n\n```console\n$ sigc check a.sig\naccepted\n$ cat a.sig\nA\n```\n"), (2, 0))
        self.assertEqual(self.counts("```console\n$ sigc tree x\nerror 1:2: syntax\n(status 1)\n```\n"), (1, 0))

    def test_what_is_wrong(self):
        self.assertEqual(self.counts("```console\n$ sigc check x\naccepted!\n```\n"), (0, 1))
        self.assertEqual(self.counts("```console\n$ sigc check x\naccepted\n(status 1)\n```\n"), (0, 1))
        self.assertEqual(self.counts("```console\n$ sigc run x\nY 1\n```\n"), (0, 1))

    def test_programs_that_nothing_runs(self):
        self.assertEqual(self.counts("```signal a.sig\nA\n```\n"), (0, 1))
        self.assertEqual(self.counts("```signal\nA\n```\n"), (0, 1))
        self.assertEqual(self.counts("```console\nnothing\n```\n"), (0, 1))

    def test_a_later_fence_stands_in_the_place_of_the_first(self):
        page = "```text a\nA\n```\n\n```console\n$ cat a\nA\n```\n\n```text a\nB\n```\n\n```console\n$ cat a\nB\n```\n"
        self.assertEqual(self.counts(page), (2, 0))

    def test_changes_of_a_program(self):
        page = "```signal a.sig\nA\nB\nC\n```\n\n```diff a.sig\n- A\n+ D\n  B\n+ E\n- C\n```\n\n```console\n$ cat a.sig\nD\nB\nE\n```\n"
        self.assertEqual(self.counts(page), (2, 0))
        self.assertEqual(self.counts("```signal a.sig\nA\n```\n\n```diff a.sig\n- B\n```\n"), (0, 1))

    def test_what_is_said_of_a_program(self):
        page = "```signal bad.sig\nA\n```\n\n> error 1:2: syntax\n"
        self.assertEqual(self.counts(page), (1, 0))
        self.assertEqual(self.counts(page.replace("1:2", "1:3")), (0, 1))
        self.assertEqual(self.counts(page.replace("bad.sig", "a.sig")), (0, 1))

    def test_a_committed_file_is_what_the_page_shows(self):
        page = "```console\n$ cd there\n```\n\n```signal a\nA\n```\n\n```console\n$ cat a ../there/b\nA\nB\n```\n"
        self.assertEqual(self.counts(page, a="A\n", b="B\n"), (2, 0))
        self.assertEqual(self.counts(page, a="C\n", b="B\n"), (1, 2))
        self.assertEqual(self.counts(page, a="A\n"), (1, 1))

    def test_a_committed_file_stays_as_it_is(self):
        page = "```console\n$ cd there\n$ echo A > a\n```\n"
        self.assertEqual(self.counts(page, a="A\n"), (2, 0))
        self.assertEqual(self.counts(page, a="B\n"), (2, 1))

    def test_what_is_exported_holds_for_the_commands_behind(self):
        self.assertEqual(self.counts("```console\n$ export X=1\n$ X=2\n```\n\n```console\n$ echo $X\n1\n```\n"), (3, 0))

    def test_rows(self):
        head = "| Command | Standard output | Standard error | Status |\n|---|---|---|---|\n"
        self.assertEqual(self.counts(head + "| `sigc check x` | `accepted` | | 0 |\n| `sigc tree x` | | `error 1:2: syntax` | 1 |\n"), (2, 0))
        self.assertEqual(self.counts(head + "| `sigc check x` | | | 0 |\n| `sigc check x` | `accepted` | | 1 |\n"), (0, 2))

    def test_a_program_that_is_not_there(self):
        done = subprocess.run([sys.executable, f"{TOP}/tests/docs.py", "/nothing"], capture_output=True, text=True)
        self.assertEqual((done.stdout.splitlines()[-1], done.returncode), ("0 passed, 1 failed", 1))


class Bounds(unittest.TestCase):
    pages = loaded().pages

    def test_a_page_that_is_too_long(self):
        self.assertEqual(self.pages.long_pages(), [])
        with unittest.mock.patch.dict(self.pages.BOUNDS, {"README.md": 10}):
            self.assertEqual([(it, bound) for it, _, bound in self.pages.long_pages()], [("README.md", 10)])
        with unittest.mock.patch.object(self.pages, "TOGETHER", 10):
            self.assertEqual([it for it, _, _ in self.pages.long_pages()], ["together"])

    def test_each_page_has_a_bound(self):
        self.assertEqual([it for it in self.pages.documents() if it not in self.pages.BOUNDS], [])

    def test_the_table_of_crates(self):
        crates = self.pages.crates
        found = [it for _, names in crates.groups() for it in names]
        self.assertEqual(sorted(found), sorted(os.listdir(f"{TOP}/crates")))
        self.assertEqual([it for it in found if not crates.head(it)], [])
        self.assertTrue(crates.is_right())


if __name__ == "__main__":
    unittest.main()
