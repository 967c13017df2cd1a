"""The language server, spoken to directly; and the files for editors, in Vim and Neovim where they are installed."""
import contextlib
import io
import json
import os
import pathlib
import random
import shutil
import subprocess
import sys
import tempfile
import time
import unittest
from unittest import mock

from helping import EXAMPLES, NEEDS_SIGC, TOOLS, only_with, program, ran

from sigc.call import compiler
from sigc.commands import lsp
from sigc.editor import documents, parameters, places, soon
from sigc.editor.messages import Messages
from sigc.hints import entries
from sigc.read import layout

URI = "file:///p.sig"
TIMER = "% \u00e9 %\nprocess P = (? event TICK, RESET ! integer N)\n(| N := (0 when RESET) default (ZN + 1)\n | ZN := N $ init 0\n | N ^= TICK\n |)\nwhere integer ZN; end;\n"


class Client:
    """An editor's side of a conversation."""

    def __init__(self):
        env = {**os.environ, "SIGC": program()}
        self.server = subprocess.Popen([sys.executable, f"{TOOLS}/sigc-lsp"], stdin=subprocess.PIPE, stdout=subprocess.PIPE, env=env)
        self.asked = 0

    def write(self, body):
        self.server.stdin.write(b"Content-Length: %d\r\n\r\n%s" % (len(body), body))
        self.server.stdin.flush()

    def read(self):
        length = int(self.server.stdout.readline().split(b":")[1])
        self.server.stdout.readline()
        return json.loads(self.server.stdout.read(length))

    def notify(self, method, words):
        self.write(json.dumps({"jsonrpc": "2.0", "method": method, "params": words}).encode())

    def ask(self, method, words):
        self.asked += 1
        self.write(json.dumps({"jsonrpc": "2.0", "id": self.asked, "method": method, "params": words}).encode())
        return self.read()

    def at(self, method, line, character, **more):
        return self.ask(f"textDocument/{method}", {"textDocument": {"uri": URI}, "position": {"line": line, "character": character}, **more})

    def open(self, text):
        self.notify("textDocument/didOpen", {"textDocument": {"uri": URI, "text": text}})
        return self.read()["params"]["diagnostics"]

    def end(self):
        self.ask("shutdown", None)
        self.notify("exit", None)
        self.server.stdin.close()
        self.server.stdout.close()
        return self.server.wait(30)


def place_in(text, at):
    """The place of a letter of a text whose lines end with newlines."""
    before = text[:at].rpartition("\n")[2]
    return {"line": text.count("\n", 0, at), "character": len(before.encode("utf-16-le")) // 2}


def spot(line, first, last):
    return {"start": {"line": line, "character": first}, "end": {"line": line, "character": last}}


def changed(text, edits):
    """A text with the edits of a workspace edit, all ASCII."""
    lines = text.split("\n")
    at = [0]
    for it in lines:
        at.append(at[-1] + len(it) + 1)
    for it in sorted(edits, key=lambda it: -at[it["range"]["start"]["line"]] - it["range"]["start"]["character"]):
        start, end = (at[it["range"][side]["line"]] + it["range"][side]["character"] for side in ("start", "end"))
        text = text[:start] + it["newText"] + text[end:]
    return text


@NEEDS_SIGC
class Conversation(unittest.TestCase):
    def setUp(self):
        self.client = Client()
        self.assertTrue(self.client.ask("initialize", {})["result"]["capabilities"]["hoverProvider"])

    def tearDown(self):
        self.assertEqual(self.client.end(), 0)

    def test_a_refusal_with_its_mends(self):
        found, guilty = self.client.open(TIMER)
        self.assertEqual((guilty["range"]["start"], guilty["severity"]), ({"line": 2, "character": 3}, 3))
        self.assertEqual([it["location"]["range"] for it in found["relatedInformation"]], [guilty["range"]])
        self.assertEqual((found["range"], found["severity"], found["message"].split("\n")[0]), (spot(1, 27, 32), 1, "clock of RESET is not determined"))
        actions = self.client.ask("textDocument/codeAction", {"textDocument": {"uri": URI}, "range": spot(1, 0, 5)})["result"]
        self.assertEqual(actions[0]["title"], "RESET as a boolean that comes with TICK")
        mended = changed(TIMER, actions[0]["edit"]["changes"][URI])
        self.client.notify("textDocument/didChange", {"textDocument": {"uri": URI}, "contentChanges": [{"text": mended}]})
        self.assertEqual(self.client.read()["params"]["diagnostics"], [])
        self.assertIn("clock: every instant of the program", self.client.at("hover", 1, 21)["result"]["contents"]["value"])

    def test_a_mistake_of_the_syntax(self):
        text = "process P = (? bool A ! boolean Y)\n(| Y := A |);\n"
        (found,) = self.client.open(text)
        self.assertEqual(found["range"], spot(0, 15, 19))
        self.assertIn("did you mean `boolean`?", found["message"])
        (action,) = self.client.ask("textDocument/codeAction", {"textDocument": {"uri": URI}, "range": spot(0, 15, 15)})["result"]
        self.assertIn("(? boolean A", changed(text, action["edit"]["changes"][URI]))

    def test_names(self):
        self.client.open(TIMER)
        self.assertEqual(self.client.at("definition", 2, 33)["result"], {"uri": URI, "range": spot(6, 14, 16)})
        self.assertEqual(len(self.client.at("references", 6, 14)["result"]), 3)
        renamed = self.client.at("rename", 2, 33, newName="OLD")["result"]["changes"][URI]
        self.assertEqual(changed(TIMER, renamed), TIMER.replace("ZN", "OLD"))
        for name in ("TICK", "when", "1A", "A B", ""):
            self.assertIn("error", self.client.at("rename", 2, 33, newName=name), name)
        self.assertIsNone(self.client.at("prepareRename", 2, 5)["result"])

    def test_kind_clock_and_cluster(self):
        with open(f"{EXAMPLES}/watch.sig", encoding="utf-8") as it:
            self.assertEqual(self.client.open(it.read()), [])
        shown = self.client.at("hover", 7, 4)["result"]["contents"]["value"]
        self.assertIn("`integer AGE`, local of WATCH", shown)
        self.assertIn("clock: every instant of the program", shown)
        self.assertIn("cluster: 1", shown)
        self.assertIn("some of the instants of TICK", self.client.at("hover", 5, 3)["result"]["contents"]["value"])
        self.assertIn("clock of COUNT#1.N", self.client.at("hover", 14, 5)["result"]["contents"]["value"])
        self.assertIn("process COUNT = {integer MAX}", self.client.at("hover", 7, 12)["result"]["contents"]["value"])
        self.assertIsNone(self.client.at("hover", 0, 3)["result"])

    def test_layout(self):
        messy = TIMER.replace(" := ", ":=").replace("\n |", "  |")
        self.client.open(messy)
        edits = self.client.ask("textDocument/formatting", {"textDocument": {"uri": URI}, "options": {}})["result"]
        self.assertEqual(changed(messy, edits), layout.formatted(messy))
        self.assertNotEqual(edits, [])
        for text, has_error in ((layout.formatted(messy), False), ("process P", True)):
            self.client.notify("textDocument/didChange", {"textDocument": {"uri": URI}, "contentChanges": [{"text": text}]})
            self.client.read()
            answer = self.client.ask("textDocument/formatting", {"textDocument": {"uri": URI}, "options": {}})
            self.assertEqual(("error" in answer, answer.get("result") or []), (has_error, []))

    def test_completion_and_symbols(self):
        with open(f"{EXAMPLES}/watch.sig", encoding="utf-8") as it:
            self.client.open(it.read())
        labels = [it["label"] for it in self.client.at("completion", 6, 3)["result"]]
        for it in ("when", "process", "ALARM", "COUNT"):
            self.assertIn(it, labels)
        self.assertNotIn("ZN", labels)
        self.assertIn("ZN", [it["label"] for it in self.client.at("completion", 14, 5)["result"]])
        symbols = self.client.ask("textDocument/documentSymbol", {"textDocument": {"uri": URI}})["result"]
        self.assertEqual([it["name"] for it in symbols], ["WATCH", "COUNT"])

    def opened(self, name):
        with open(f"{EXAMPLES}/{name}", encoding="utf-8") as it:
            return self.client.open(it.read())

    def test_clocks_in_words(self):
        self.opened("watch.sig")
        self.assertIn("clock: when REQ, some of the instants of TICK", self.client.at("hover", 5, 3)["result"]["contents"]["value"])
        guarded = "process P = (? integer A; boolean SENSE, HELD ! integer Y, Z)\n(| SENSE ^= A ^= HELD\n | Y := A when (SENSE and not HELD)\n | Z := Y default (0 when HELD)\n |);\n"
        self.client.notify("textDocument/didChange", {"textDocument": {"uri": URI}, "contentChanges": [{"text": guarded}]})
        self.client.read()
        self.assertIn("clock: when SENSE and not HELD, ", self.client.at("hover", 2, 3)["result"]["contents"]["value"])

    def hints(self, first, last):
        words = {"textDocument": {"uri": URI}, "range": {"start": {"line": first, "character": 0}, "end": {"line": last, "character": 0}}}
        return [(it["position"]["line"], it["position"]["character"], it["label"]) for it in self.client.ask("textDocument/inlayHint", words)["result"]]

    def test_inlay_hints(self):
        self.opened("watch.sig")
        self.assertEqual(
            self.hints(6, 9),
            [(6, 7, ": integer"), (6, 7, "at every instant"), (7, 6, ": integer"), (7, 6, "at every instant"), (8, 7, ": boolean"), (8, 7, "at every instant")],
        )
        self.assertEqual(self.hints(14, 15), [(14, 6, ": integer"), (14, 6, "at every instant")])
        self.client.notify("textDocument/didChange", {"textDocument": {"uri": URI}, "contentChanges": [{"text": TIMER}]})
        self.client.read()
        self.assertEqual(self.hints(0, 9), [(2, 4, ": integer"), (3, 5, ": integer")])

    def test_links_to_the_page_of_errors(self):
        self.client.open(TIMER)
        (link, *_) = self.client.ask("textDocument/documentLink", {"textDocument": {"uri": URI}})["result"]
        page, _, entry = link["target"].partition("#")
        self.assertEqual(link["range"], spot(1, 27, 32))
        with open(page.removeprefix("file://"), encoding="utf-8") as it:
            headings = [entries.anchor(line.lstrip("# ").strip()) for line in it if line.startswith("#")]
        self.assertIn(entry, headings)
        self.opened("watch.sig")
        self.assertEqual(self.client.ask("textDocument/documentLink", {"textDocument": {"uri": URI}})["result"], [])

    def found(self, query):
        found = self.client.ask("workspace/symbol", {"query": query})["result"]
        return [(it["name"], it["containerName"], it["location"]["uri"].rpartition("/")[2], it["location"]["range"]["start"]) for it in found]

    def test_symbols_of_all_programs(self):
        with tempfile.TemporaryDirectory(prefix="sigc %") as room:
            for name, text in (("a.sig", TIMER), ("b b.sig", TIMER.replace("ZN", "OLDER")), (".hidden.sig.swp", TIMER), ("c.txt", TIMER)):
                with open(f"{room}/{name}", "w", encoding="utf-8") as it:
                    it.write(text)
            os.mkfifo(f"{room}/pipe.sig")
            os.mkdir(f"{room}/.git")
            shutil.copy(f"{room}/a.sig", f"{room}/.git/a.sig")
            uri = pathlib.Path(room).as_uri()
            self.client.ask("initialize", {"workspaceFolders": [{"uri": uri, "name": "it"}]})
            self.assertEqual(self.found("zn"), [("ZN", "P", "a.sig", {"line": 6, "character": 14})])
            self.assertEqual(self.found("olr"), [("OLDER", "P", "b%20b.sig", {"line": 6, "character": 14})])
            self.assertEqual([it[:3] for it in self.found("P")], [("P", "", "a.sig"), ("P", "", "b%20b.sig")])
            self.client.notify("textDocument/didOpen", {"textDocument": {"uri": f"{uri}/a.sig", "text": TIMER.replace("ZN", "NEWER")}})
            self.client.read()
            self.assertEqual(self.found("zn"), [])
            self.assertEqual([it[:3] for it in self.found("newer")], [("NEWER", "P", "a.sig")])

    def test_incremental_edits(self):
        """Each change is of the text that the one before it left; a wrong one leaves the document as it was."""
        self.client.open("process P = (? integer A ! integer Y)\r\n(| Y := A |);\r\n")
        changes = [{"range": spot(0, 15, 22), "text": "boolean"}, {"range": spot(0, 27, 34), "text": "boolean"}, {"range": spot(1, 9, 9), "text": "B"}]
        self.client.notify("textDocument/didChange", {"textDocument": {"uri": URI}, "contentChanges": changes})
        (found,) = self.client.read()["params"]["diagnostics"]
        self.assertEqual((found["range"], found["message"].split("\n")[0]), (spot(1, 8, 10), "unknown name AB"))
        wrong = {"range": {"start": {"line": 1, "character": 9}, "end": {"line": 0, "character": 0}}, "text": "x"}
        self.client.notify("textDocument/didChange", {"textDocument": {"uri": URI}, "contentChanges": [{"text": "no program"}, wrong]})
        self.client.notify("textDocument/didChange", {"textDocument": {"uri": URI}, "contentChanges": [{"range": spot(1, 9, 10), "text": ""}]})
        self.assertEqual(self.client.read()["params"]["diagnostics"], [])

    def test_headers_that_are_wrong(self):
        """Behind each of them the next request has its answer."""
        body = b'{"jsonrpc": "2.0", "id": 7, "method": "x/y"}'
        size = len(body)
        wrong = [
            body, b"\r\n\r\n" + body, b"Content-Type: text\r\n\r\n" + body, b"Content-Length: none\r\n\r\n" + body,
            b"Content-Length: -4\r\n\r\n" + body, b"Content-Length:\r\n\r\n" + body, b"Content-Length: 99999999\r\n\r\n" + body,
            b"Content-Length: 123456789012\r\n\r\n" + body, b"Content-Length: %d\r\n\r\n%s" % (size - 9, body),
            b"Content-Length: %d\r\n\r\n%s" % (size + 9, body), b"Content-Length %d\r\n\r\n%s" % (size, body), b"x" * 300_000, b"\x00\xff\n\n\n", b"Content-Length: 0\r\n\r\n",
        ]
        right = [b"content-length:%d\n\n%s" % (size, body), b"Content-Type: x\r\nContent-Length:  %d \r\n\r\n%s" % (size, body)]
        for number, it in enumerate([*wrong, *right], 100):
            with self.subTest(it[:40]):
                self.client.server.stdin.write(it)
                self.client.asked = number
                answer = self.client.ask("nothing", {})
                while answer["id"] != number + 1:
                    self.assertIn("error", answer)
                    answer = self.client.read()
                self.assertEqual(answer["error"]["code"], -32601)

    def test_what_is_no_request(self):
        self.assertEqual(self.client.ask("textDocument/nothing", {})["error"]["code"], -32601)
        self.assertEqual(self.client.ask("textDocument/hover", {})["error"], {"code": -32602, "message": "params: textDocument is missing"})
        self.client.write(b"{")
        self.assertEqual(self.client.read()["error"]["code"], -32700)
        for body in (b'{"id": 9, "method": ["a"]}', b"[" * 100_000, b'{"id": ' + b"[" * 50_000):
            self.client.write(body)
            self.assertIn("error", self.client.read())
        self.client.open("\x00\ud83d\ude00 nonsense")
        self.client.at("completion", 99, 99)
        self.assertIsNone(self.client.at("definition", 99, 99)["result"])


@NEEDS_SIGC
class Late(unittest.TestCase):
    def test_a_clock_that_has_too_many_words(self):
        names = ", ".join(f"B{i}" for i in range(60))
        equal, sum_ = " ^= ".join(f"B{i}" for i in range(60)), " xor ".join(f"B{i}" for i in range(60))
        text = f"process P = (? integer A; boolean {names} ! integer Y)\n(| Y := A when ({sum_})\n | A ^= {equal} |);\n"
        when = soon.When(compiler.Sigc(program()), text)
        self.assertEqual(when.words("B7"), "at every instant")
        begun = time.monotonic()
        when.words("Y")
        self.assertLess(time.monotonic() - begun, 2)

    def test_what_is_not_known(self):
        sigc = compiler.Sigc(program())
        self.assertEqual(soon.When(sigc, TIMER).words("N"), "")
        self.assertEqual(soon.When(sigc, compiler.PROBE).words("NONE"), "")


class Parameters(unittest.TestCase):
    """What an editor sends wrong is its error; what the server does wrong is the server's."""

    def refusal(self, method, given):
        with self.assertRaises(parameters.WrongParameters) as raised:
            parameters.check(method, given)
        return str(raised.exception)

    def test_wrong_ones(self):
        of = {"textDocument": {"uri": "file:///p.sig"}}
        self.assertEqual(self.refusal("textDocument/hover", []), "params: an object is wanted")
        self.assertEqual(self.refusal("textDocument/hover", {"textDocument": 7}), "params.textDocument: an object is wanted")
        for position in ({"line": "1", "character": 0}, {"line": -1, "character": 0}, {"line": True, "character": 0}):
            said = self.refusal("textDocument/hover", {**of, "position": position})
            self.assertEqual(said, "params.position.line: a number that is not negative is wanted")
        self.assertEqual(self.refusal("textDocument/didChange", {**of, "contentChanges": [{}]}), "params.contentChanges[0]: text is missing")
        parameters.check("textDocument/hover", {**of, "position": {"line": 0, "character": 0}})
        parameters.check("shutdown", {})

    def test_an_own_error_is_no_wrong_parameter(self):
        server = lsp.Server(io.BytesIO(), io.BytesIO())
        server.requests["workspace/symbol"] = lambda given: {}["a key of the server"]
        with contextlib.redirect_stderr(io.StringIO()):
            server.answer({"id": 1, "method": "workspace/symbol", "params": {"query": ""}})
        self.assertIn(b"-32603", server.write.getvalue())
        server.answer({"id": 2, "method": "textDocument/hover", "params": {"textDocument": {"uri": "u"}, "position": {"line": 0, "character": 0}}})
        self.assertIn(b'"code": -32602, "message": "u is not open"', server.write.getvalue())


class Stream(unittest.TestCase):
    def test_messages_behind_bytes_by_chance(self):
        """Whatever stands before them, of three messages in a row the last two are read."""
        draws, pieces = random.Random(10), [b"Content-Length: ", b"\r\n", b"\n", b"{", b"}", b'"', b"17", b"5", b" ", b":", b"x\xff"]
        whole = [b'{"id": %d}' % it for it in range(3)]
        for _ in range(300):
            junk = b"".join(draws.choices(pieces, k=draws.randrange(12)))
            stream = Messages(io.BytesIO(junk + b"".join(b"Content-Length: %d\r\n\r\n%s" % (len(it), it) for it in whole)))
            found = [it for it in iter(stream.following, None) if it]
            self.assertEqual(found[-2:], [{"id": 1}, {"id": 2}], junk)


class Places(unittest.TestCase):
    def test_lines_of_every_end(self):
        document = documents.Document(URI, "A\r\nB\rC\n\nD", None)
        for offset, place in ((0, (0, 0)), (1, (0, 1)), (3, (1, 0)), (5, (2, 0)), (7, (3, 0)), (8, (4, 0)), (9, (4, 1))):
            place = {"line": place[0], "character": place[1]}
            self.assertEqual((document.position(offset), document.offset(place)), (place, offset))
        self.assertEqual([document.offset({"line": it, "character": 99}) for it in range(6)], [1, 4, 6, 7, 9, 9])

    def test_changes_by_chance(self):
        """Ranges in units of UTF-16 do what the same edits of a list of units do."""
        draws, letters = random.Random(7), ["a", "\u00e9", "\U0001f600", "\n"]
        for _ in range(200):
            text = "".join(draws.choices(letters, k=draws.randrange(9)))
            had, wanted = places.bytes_in(text), text
            for _ in range(3):
                one, other = sorted(draws.choices(range(len(wanted) + 1), k=2))
                put = "".join(draws.choices(letters, k=draws.randrange(4)))
                had = places.changed(had, [{"range": {"start": place_in(wanted, one), "end": place_in(wanted, other)}, "text": put}])
                wanted = wanted[:one] + put + wanted[other:]
            self.assertEqual(places.shown(had), wanted)

    def test_units(self):
        document = documents.Document(URI, "\u00e9\U0001f600A\nB", None)
        self.assertEqual(document.position(6), {"line": 0, "character": 3})
        self.assertEqual(document.offset({"line": 0, "character": 3}), 6)
        self.assertEqual(document.offset({"line": 1, "character": 5}), 9)

    def test_classes(self):
        classes = documents.classes_of("A B\n  C\n    -\n  D\n")
        self.assertEqual(classes["A"], (["A", "B"], None))
        self.assertEqual(classes["D"], (["D"], ["A", "B"]))

    def test_no_program_is_built_for_an_editor(self):
        with tempfile.TemporaryDirectory() as room, mock.patch.object(compiler, "TOP", room), mock.patch.dict(os.environ, {"SIGC": ""}):
            os.makedirs(f"{room}/crates/sigc/out")
            self.assertRaises(compiler.NoProgram, compiler.built_program)
            open(f"{room}/crates/sigc/out/unproved", "w", encoding="utf-8").close()
            self.assertEqual(compiler.built_program(), f"{room}/crates/sigc/out/unproved")

    def test_the_end_of_the_input(self):
        self.assertEqual(ran("sigc-lsp", given=b"").returncode, 1)
        self.assertEqual(ran("sigc-lsp", given=os.urandom(2000)).returncode, 1)
        for length in ("\u00b2", "-4", "9" * 8, "9" * 4000, "12345678"):
            done = ran("sigc-lsp", given=f"Content-Length: {length}\r\n\r\n{{}}".encode("latin-1"))
            self.assertEqual((done.returncode, done.stderr), (1, b""), length)


class Files(unittest.TestCase):
    def test_the_files_of_vs_code(self):
        with open(f"{TOOLS}/editors/vscode/package.json", encoding="utf-8") as it:
            contributes = json.load(it)["contributes"]
        paths = [it["path"] for it in contributes["grammars"] + contributes["snippets"]] + [it["configuration"] for it in contributes["languages"]]
        for path in paths:
            with open(f"{TOOLS}/editors/vscode/{path}", encoding="utf-8") as it:
                self.assertTrue(json.load(it))


def editor(name):
    return only_with(shutil.which(name), f"{name} is not installed: its test is left out")


@NEEDS_SIGC
class Editors(unittest.TestCase):
    def lines(self, words, text):
        """What an editor that is told these words writes into the file `out`, beside a program."""
        with tempfile.TemporaryDirectory() as room:
            with open(f"{room}/p.sig", "w", encoding="utf-8") as it:
                it.write(text)
            with open(f"{room}/rc.vim", "w", encoding="utf-8") as it:
                it.write(f"set rtp^={TOOLS}/editors/vim\nfiletype plugin indent on\nsyntax on\n")
            env = {**os.environ, "SIGC": program(), "HOME": room, "XDG_CONFIG_HOME": room, "TERM": "dumb"}
            subprocess.run(words, cwd=room, env=env, capture_output=True, stdin=subprocess.DEVNULL, timeout=60)
            with open(f"{room}/out", encoding="utf-8") as it:
                return it.read().splitlines()

    @editor("vim")
    def test_vim(self):
        words = ["vim", "-N", "-es", "-u", "rc.vim", "-i", "NONE", "p.sig"]
        words += ["-c", "normal gg=G", "-c", "silent! make!", "-c", "call writefile([&filetype, &commentstring, getqflist()[0].text, string(getqflist()[0].lnum), getline(3)], 'out')", "-c", "qa!"]
        found = self.lines(words, TIMER.replace("\n |", "\n      |"))
        self.assertEqual(found, ["signal", "% %s %", "clock of RESET is not determined", "2", "(| N := (0 when RESET) default (ZN + 1)"])

    @editor("nvim")
    def test_neovim(self):
        told = "lua vim.wait(20000, function() return #vim.diagnostic.get(0) > 0 end); local it = vim.diagnostic.get(0)[1]; vim.fn.writefile({vim.bo.filetype, it.message:match('[^\\n]*'), tostring(it.lnum)}, 'out')"
        found = self.lines(["nvim", "--headless", "-u", "rc.vim", "-i", "NONE", "p.sig", "-c", told, "-c", "qa!"], TIMER)
        self.assertEqual(found, ["signal", "clock of RESET is not determined", "1"])


if __name__ == "__main__":
    unittest.main()
