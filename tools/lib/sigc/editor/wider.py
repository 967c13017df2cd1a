"""What an editor is told of a program that is no kernel: what its expansion refuses, and what sigc says of its kernel, at the
places of its text. docs/signal.md has what such a program is."""
import urllib.parse

from sigc.read import plain_kernels


class Wider:
    """An expansion of a document, or what the front end refuses; both are None where the document is a kernel."""

    def __init__(self, uri, text, sigc):
        self.path, self.found, self.refused = path_of(uri), None, None
        if plain_kernels.is_plainly_kernel(text):
            return
        from sigc import expand

        try:
            found = expand.expanded(self.path, (), text)
            self.refused = found.too_large()
            self.found = None if found.is_kernel else found
        except expand.Refused as refused:
            self.refused = None if stops_alike(refused, sigc.check(text)) else refused

    @property
    def is_kernel(self):
        return self.found is None and self.refused is None

    def kernel(self, text):
        """The kernel's text, where there is one."""
        return self.found.kernel if self.found else text

    def name(self, name):
        return self.found.name(name) if self.found else name

    def told(self, sigc, advice_of):
        """Lines of what is refused: pairs of a place and words, first what is refused and then what has to do with it."""
        if self.refused:
            return [self.line(self.refused.at, "\n".join([self.refused.text, *self.refused.advice]))]
        refusal = sigc.check(self.found.kernel)
        if refusal is None:
            return []
        said = self.found.said(refusal.text)
        first = self.line(self.found.at(refusal.line, refusal.col) if refusal.line else None, said)
        notes = [self.line(self.found.at(it.line, it.col), f"of `{said}`: this is one of the equations responsible") for it in advice_of(self.found.kernel).notes(refusal)]
        return [first, *dict.fromkeys(it for it in notes if it[0] != first[0])]

    def line(self, at, words):
        """A place of the document and words; what stands in another file is told at its begin, with its place in words."""
        if at is None:
            return (1, 1), words
        if at.place.file != self.path:
            return (1, 1), f"{at}: {words}"
        return (at.place.line, at.place.col), words + (f"\nhere:{at.trail}" if at.trail else "")


def stops_alike(refused, said):
    """Whether sigc's own reader stops where this one does: then the text is a kernel that has a mistake, and sigc's hints help more."""
    return refused.text == "syntax" and refused.at is not None and said is not None and (said.line, said.col) == (refused.at.place.line, refused.at.place.col)


def path_of(uri):
    """The path of a document, beside which its modules stand."""
    return urllib.parse.unquote(urllib.parse.urlparse(uri).path) or uri
