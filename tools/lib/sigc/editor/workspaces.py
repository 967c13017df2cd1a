"""The processes and signals of all programs in an editor's folders."""
import os
import stat
import urllib.parse

from sigc.editor.documents import Document
from sigc.editor.places import shown
from sigc.read import files_read

# How many symbols an editor is given, how many files are read for them, of how many bytes in all, and how many names are
# looked at to find the files.
MOST_SYMBOLS, MOST_FILES, MOST_BYTES, MOST_NAMES = 1000, 500, 4 << 20, 50_000


class Workspace:
    def __init__(self):
        self.folders, self.read = [], {}

    def initialize(self, words):
        """Takes the folders that a client names."""
        folders = words.get("workspaceFolders") or []
        uris = [it["uri"] for it in folders] or [it for it in [words.get("rootUri")] if it]
        self.folders = [path for path in map(path_of, uris) if path]

    def symbols(self, query, documents):
        """The symbols that have these letters in this order in their names, of open documents and of files."""
        found = []
        for document in [*documents.values(), *self.closed(documents)]:
            for process in document.symbols():
                found += matching(document, query.lower(), process)
            if len(found) >= MOST_SYMBOLS:
                break
        return found[:MOST_SYMBOLS]

    def closed(self, documents):
        """The programs of the files that are not open."""
        opened, size = {path_of(it) for it in documents}, 0
        for path in self.files():
            document = self.document(path) if path not in opened else None
            if document:
                size += len(document.text)
                yield document
            if size > MOST_BYTES:
                break

    def files(self):
        """The program files below the folders, at most so many."""
        found, names = [], 0
        for folder in self.folders:
            for place, inner, files in os.walk(folder):
                inner[:] = sorted(it for it in inner if not it.startswith("."))
                names += len(inner) + len(files)
                found += [os.path.join(place, it) for it in sorted(files) if it.endswith(".sig")]
                if len(found) >= MOST_FILES or names >= MOST_NAMES:
                    return found[:MOST_FILES]
        return found

    def document(self, path):
        """The program of a file, read again where it was written since; None where it cannot be, or is too long."""
        try:
            state = os.stat(path)
            if not stat.S_ISREG(state.st_mode) or state.st_size > files_read.PROGRAM_BYTES:
                return None
            if path not in self.read or self.read[path][0] != state.st_mtime_ns:
                text = files_read.read_text(path, files_read.PROGRAM_BYTES)
                self.read[path] = state.st_mtime_ns, Document(uri_of(path), shown(text), None)
        except OSError:
            return None
        return self.read[path][1]


def matching(document, query, process):
    """A process and its signals, as far as they match."""
    own = [symbol_of(document, process, "")] if is_like(query, process["name"]) else []
    return own + [symbol_of(document, it, process["name"]) for it in process["children"] if is_like(query, it["name"])]


def symbol_of(document, symbol, container):
    where = {"uri": document.uri, "range": symbol["selectionRange"]}
    return {"name": symbol["name"], "kind": symbol["kind"], "location": where, "containerName": container}


def is_like(query, name):
    """Whether the letters of the query stand in the name in their order."""
    letters = iter(name.lower())
    return all(it in letters for it in query)


def path_of(uri):
    """The file that a uri names; empty where it names none."""
    parts = urllib.parse.urlsplit(uri)
    return os.path.realpath(urllib.parse.unquote(parts.path)) if parts.scheme == "file" else ""


def uri_of(path):
    return "file://" + urllib.parse.quote(path)
