"""A language server for the programs of sigc: an editor starts it, and speaks with it over standard input and output.

    vim.lsp.start({ cmd = { "tools/sigc-lsp" }, root_dir = vim.fn.getcwd() })       (Neovim)

It shows what `sigc check` refuses, each further refusal that is independent of it and warnings, offers fixes as code
actions, shows a signal's kind, clock (in words, as sigc-clocks does) and cluster, goes to declarations, finds references,
renames, completes, lays out as sigc-format does, lists the processes of one program and of all programs in the folder,
links refusals to docs/errors.md, and shows kinds and clocks as inlay hints. The program is the file that the variable SIGC
names, or else the one that ./sigc has built; the server builds none.
"""
import argparse
import json
import sys
import traceback

from sigc.call import compiler
from sigc.editor import inlays, links, parameters
from sigc.editor.documents import Document
from sigc.editor.messages import Messages
from sigc.editor.workspaces import Workspace

CAPABILITIES = {
    "textDocumentSync": {"openClose": True, "change": 2},
    "hoverProvider": True,
    "definitionProvider": True,
    "referencesProvider": True,
    "renameProvider": {"prepareProvider": True},
    "completionProvider": {},
    "codeActionProvider": {"codeActionKinds": ["quickfix"]},
    "documentSymbolProvider": True,
    "documentFormattingProvider": True,
    "documentLinkProvider": {},
    "inlayHintProvider": True,
    "workspaceSymbolProvider": True,
}
PARSE_ERROR, NO_METHOD, WRONG_PARAMETERS, OWN_ERROR, FAILED = -32700, -32601, -32602, -32603, -32803


class Server:
    """One conversation with an editor."""

    def __init__(self, read, write):
        self.messages, self.write = Messages(read), write
        self.documents, self.workspace, self.sigc, self.is_over = {}, Workspace(), None, False
        self.requests = {
            "initialize": self.initialize,
            "shutdown": self.shutdown,
            "textDocument/hover": lambda it: self.document(it).hover(it["position"]),
            "textDocument/definition": lambda it: self.document(it).definition(it["position"]),
            "textDocument/references": lambda it: self.document(it).references(it["position"]),
            "textDocument/prepareRename": lambda it: self.document(it).rename_range(it["position"]),
            "textDocument/rename": lambda it: self.document(it).rename(it["position"], it["newName"]),
            "textDocument/completion": lambda it: self.document(it).completion(it["position"]),
            "textDocument/codeAction": lambda it: self.document(it).actions(it["range"]),
            "textDocument/documentSymbol": lambda it: self.document(it).symbols(),
            "textDocument/formatting": lambda it: self.document(it).formatting(),
            "textDocument/documentLink": lambda it: links.links_of(self.document(it)),
            "textDocument/inlayHint": lambda it: inlays.hints_of(self.document(it), it["range"]),
            "workspace/symbol": lambda it: self.workspace.symbols(it["query"], self.documents),
        }
        self.notices = {
            "textDocument/didOpen": self.opened,
            "textDocument/didChange": self.changed,
            "textDocument/didClose": self.closed,
        }

    def document(self, words):
        """The open document that the parameters of a request name."""
        uri = words["textDocument"]["uri"]
        if uri not in self.documents:
            raise parameters.WrongParameters(f"{uri} is not open")
        return self.documents[uri]

    def initialize(self, words):
        self.sigc = compiler.Sigc(compiler.built_program())
        self.workspace.initialize(words)
        return {"capabilities": CAPABILITIES, "serverInfo": {"name": "sigc-lsp"}}

    def shutdown(self, _):
        self.is_over = True

    def opened(self, words):
        uri = words["textDocument"]["uri"]
        self.documents[uri] = Document(uri, words["textDocument"]["text"], self.sigc)
        self.publish(self.documents[uri])

    def changed(self, words):
        document = self.document(words)
        document.change(words["contentChanges"])
        self.publish(document)

    def closed(self, words):
        uri = self.document(words).uri
        del self.documents[uri]
        self.notify("textDocument/publishDiagnostics", {"uri": uri, "diagnostics": []})

    def publish(self, document):
        self.notify("textDocument/publishDiagnostics", {"uri": document.uri, "diagnostics": document.diagnostics()})

    # Messages.

    def send(self, message):
        body = json.dumps({"jsonrpc": "2.0", **message}).encode("utf-8")
        self.write.write(b"Content-Length: %d\r\n\r\n%s" % (len(body), body))
        self.write.flush()

    def notify(self, method, words):
        self.send({"method": method, "params": words})

    def answer(self, message):
        """Answers a request, or takes a notice."""
        method, words, is_request = message.get("method"), message.get("params") or {}, "id" in message
        if not isinstance(method, str) or not method:
            if not message or method:
                self.send({"id": None, "error": {"code": PARSE_ERROR, "message": "this is no message"}})
            return
        call = (self.requests if is_request else self.notices).get(method)
        if call is None:
            if is_request:
                self.send({"id": message["id"], "error": {"code": NO_METHOD, "message": f"{method} is not known"}})
            return
        result, error = attempted(method, call, words)
        if is_request:
            self.send({"id": message["id"], **({"error": error} if error else {"result": result})})
        elif error:
            print(f"sigc-lsp: {method}: {error['message']}", file=sys.stderr)

    def serve(self):
        """Answers until the editor ends it: status 0 where it said so before, else 1."""
        while True:
            message = self.messages.following()
            if message is None or message.get("method") == "exit":
                return 0 if self.is_over else 1
            self.answer(message)


def attempted(method, call, words):
    """A method's result and None, or None and the error that the editor gets. An error of the server does not end it."""
    try:
        parameters.check(method, words)
        return call(words), None
    except parameters.WrongParameters as error:
        return None, {"code": WRONG_PARAMETERS, "message": str(error)}
    except (LookupError, TypeError, AttributeError) as error:
        traceback.print_exc()
        return None, {"code": OWN_ERROR, "message": f"an error of sigc-lsp itself, in {method}: {error!r}"}
    except (ValueError, RecursionError, OverflowError, compiler.NoProgram, OSError) as error:
        return None, {"code": FAILED, "message": str(error)}


def main():
    words = argparse.ArgumentParser(prog="sigc-lsp", description=__doc__, formatter_class=argparse.RawDescriptionHelpFormatter)
    words.add_argument("--stdio", action="store_true", help="speak over standard input and output, as it always does")
    words.parse_args()
    return Server(sys.stdin.buffer, sys.stdout.buffer).serve()


def start():
    sys.exit(compiler.guarded(main))
