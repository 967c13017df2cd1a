"""A program in an editor: what the language server says of it.

A document keeps its text a byte a character, as sigc sees it, and turns places over where they go in and out.
"""
from sigc.editor import places, soon
from sigc.editor.places import shown
from sigc.editor.wider import Wider
from sigc.hints import all_advice, warnings
from sigc.read import editing, layout, syntax
from sigc.read.lexer import RESERVED

ERROR, WARNING, INFORMATION = 1, 2, 3
MOST_MENDS = 3
SNIPPETS = {
    "process": "process ${1:NAME} = (? ${2:integer A} ! ${3:integer Y})\n(| ${4:Y := A}\n |);",
    "where": "where ${1:integer Z};\nend",
    "pragmas": "pragmas RunOn {${1:Y}} \"${2:1}\" end pragmas",
}
KEYWORD_ITEM, VARIABLE_ITEM, FUNCTION_ITEM, SNIPPET_ITEM, CONSTANT_ITEM = 14, 6, 3, 15, 21


class Document:
    def __init__(self, uri, text, sigc):
        self.uri, self.sigc = uri, sigc
        self.take(places.bytes_in(text))

    def change(self, changes):
        """Takes the changes of an editor: all of them, or none where one of them is wrong."""
        self.take(places.changed(self.text, changes))

    def take(self, text):
        self.text = text
        self.reader = syntax.read(self.text)
        self.clocks, self.advice, self.wider = None, all_advice.Advice(self.sigc, self.reader), Wider(self.uri, self.text, self.sigc)

    # Places.

    def position(self, offset):
        return places.position_of(self.text, offset)

    def range(self, start, end):
        return {"start": self.position(start), "end": self.position(end)}

    def offset(self, position):
        return places.offset_of(self.text, position)

    def piece_at(self, offset):
        return next((it for it in self.reader.pieces if it.start <= offset <= it.end and it.kind == "name"), None)

    def range_of(self, line, col):
        """The range of the token at a place of sigc's, of one byte where none begins there."""
        offset = editing.offset_of(self.text, line, col)
        piece = next((it for it in self.reader.pieces if it.start == offset), None)
        return self.range(offset, piece.end if piece and piece.end > offset else min(offset + 1, len(self.text)))

    # What sigc says.

    def refusals(self):
        if not self.wider.is_kernel:
            return []
        first = self.sigc.check(self.text)
        return self.advice.refusals(first) if first else []

    def diagnostics(self):
        if not self.wider.is_kernel:
            told = self.wider.told(self.sigc, lambda kernel: all_advice.Advice(self.sigc, syntax.read(kernel)))
            return [self.marked(*place, INFORMATION if at else ERROR, words) for at, (place, words) in enumerate(told)]
        refusals = self.refusals()
        found = [self.diagnostic(it) for it in refusals]
        found += [self.marked(it.line, it.col, INFORMATION, f"of `{refusal.text}`: {it.words}") for refusal in refusals for it in self.advice.notes(refusal)]
        return found + [self.marked(it.line, it.col, WARNING, it.text) for it in warnings.warnings_of(self.reader, not refusals)]

    def marked(self, line, col, severity, message):
        return {"range": self.range_of(line, col), "severity": severity, "source": "sigc", "message": message}

    def diagnostic(self, refusal):
        message = "\n".join([refusal.text, *self.advice.hint(refusal).lines])
        related = [{"location": {"uri": self.uri, "range": self.range_of(it.line, it.col)}, "message": it.words} for it in self.advice.notes(refusal)]
        return {**self.marked(refusal.line or 1, refusal.col or 1, ERROR, message), **({"relatedInformation": related} if related else {})}

    def actions(self, wanted):
        """The mends of the refusals that stand in a range, or have a guilty line there, as code actions: each text of them once."""
        found = {}
        for refusal in self.refusals():
            places = [(refusal.line or 1, refusal.col or 1), *((it.line, it.col) for it in self.advice.notes(refusal))]
            if any(meet(wanted, self.range_of(*it)) for it in places):
                for it in self.advice.mends(refusal, MOST_MENDS):
                    found.setdefault(it.text, self.action("; ".join((it.words, *it.notes)), editing.differences(self.text, it.text), refusal))
        return list(found.values())

    def action(self, title, edits, refusal):
        changes = [{"range": self.range(it.start, it.end), "newText": shown(it.text)} for it in edits]
        return {"title": title, "kind": "quickfix", "diagnostics": [self.diagnostic(refusal)], "edit": {"changes": {self.uri: changes}}}

    def formatting(self):
        """The edit that lays the text out; ValueError where it is no program, and no edit where it is laid out."""
        try:
            made = layout.formatted(self.text)
        except layout.Unformatted as refusal:
            raise ValueError(f"not laid out: {refusal}") from None
        if made == self.text:
            return []
        edit = editing.difference(self.text, made)
        return [{"range": self.range(edit.start, edit.end), "newText": shown(edit.text)}]

    # Names.

    def process_at(self, offset):
        """The innermost process around an offset, the first one where there is none."""
        found = None
        for it in self.reader.processes:
            end = it.end.end if it.end else len(self.text)
            if it.keyword.start <= offset <= end:
                found = it
        return found

    def is_process_name(self, piece):
        named = [it.name.start for it in self.reader.processes]
        called = [it.called.start for process in self.reader.processes for it in process.equations if it.called]
        return piece.start in named + called

    def process_named(self, name):
        return next((it for it in self.reader.processes if it.name.text == name), None)

    def occurrences(self, piece):
        """The pieces that mean what this one means, its declaration among them."""
        if self.is_process_name(piece):
            return [it for it in self.reader.pieces if it.text == piece.text and self.is_process_name(it)]
        process = self.process_at(piece.start)
        if process is None or not process.declaration(piece.text):
            return []
        same = [it for it in self.reader.pieces if it.kind == "name" and it.text == piece.text and not self.is_process_name(it)]
        return [it for it in same if self.process_at(it.start) is process]

    def declared(self, piece):
        """Where what a piece means is declared."""
        if self.is_process_name(piece):
            process = self.process_named(piece.text)
            return process.name if process else None
        process = self.process_at(piece.start)
        declaration = process.declaration(piece.text) if process else None
        return declaration.name if declaration else None

    def location(self, piece):
        return {"uri": self.uri, "range": self.range(piece.start, piece.end)}

    def definition(self, position):
        piece = self.piece_at(self.offset(position))
        at = self.declared(piece) if piece else None
        return self.location(at) if at else None

    def references(self, position):
        piece = self.piece_at(self.offset(position))
        return [self.location(it) for it in self.occurrences(piece)] if piece else []

    def rename_range(self, position):
        piece = self.piece_at(self.offset(position))
        return self.range(piece.start, piece.end) if piece and self.occurrences(piece) else None

    def rename(self, position, name):
        """The edits of a rename; ValueError where the name may not be taken."""
        piece = self.piece_at(self.offset(position))
        found = self.occurrences(piece) if piece else []
        if not found:
            raise ValueError("no name of the program stands here")
        if not syntax.pieces_of(name)[0][0].text == name or name in RESERVED or not name[:1].isalpha():
            raise ValueError(f"{name} is no name")
        process = self.process_at(piece.start)
        is_taken = self.process_named(name) if self.is_process_name(piece) else process.declaration(name)
        if is_taken and name != piece.text:
            raise ValueError(f"{name} is taken")
        return {"changes": {self.uri: [{"range": self.range(it.start, it.end), "newText": name} for it in found]}}

    # Hover and completion.

    def hover(self, position):
        piece = self.piece_at(self.offset(position))
        if piece is None:
            return None
        lines = self.process_lines(piece) if self.is_process_name(piece) else self.signal_lines(piece)
        if not lines:
            return None
        return {"contents": {"kind": "markdown", "value": "  \n".join(lines)}, "range": self.range(piece.start, piece.end)}

    def process_lines(self, piece):
        process = self.process_named(piece.text)
        if process is None:
            return []
        interface = self.text[process.keyword.start : (process.body[0].start if process.body else process.name.end)]
        return [f"`{' '.join(shown(interface).split())}`"]

    def signal_lines(self, piece):
        process = self.process_at(piece.start)
        declaration = process.declaration(piece.text) if process else None
        if declaration is None:
            return []
        init = f" init {''.join(it.text for it in declaration.init)}" if declaration.init else ""
        lines = [f"`{declaration.kind} {piece.text}{init}`, {declaration.role} of {process.name.text}"]
        if declaration.role == "parameter":
            return lines
        return [*lines, *self.clock_lines(process, piece.text), self.cluster_line(process, piece.text)]

    def classes(self):
        """The classes of the signals; none where sigc refuses the program."""
        if self.clocks is None:
            self.clocks = classes_of(self.sigc.ask("tree", self.wider.kernel(self.text)).out)
        return self.clocks

    def images_of(self, process, name):
        """The names of a signal in the program as it runs: of a called process one of each call."""
        if process is self.reader.processes[0]:
            return [name] if name in self.classes() else []
        return [it for it in self.classes() if it.startswith(f"{process.name.text}#") and it.endswith(f".{name}")]

    def clock_lines(self, process, name):
        names = self.images_of(process, name)
        return [self.clock_line(it) for it in names[:4]] or ["clock: not known, since sigc refuses the program"]

    def clock_line(self, name):
        members, above = self.classes()[name]
        others = [it for it in members if it != name]
        of = f" of {name}" if "#" in name else ""
        when = "every instant of the program"
        if above is not None:
            words = soon.of(self.sigc, self.wider.kernel(self.text)).words(name)
            when = (f"{words}, " if words else "") + "some of the instants of " + (" ".join(map(self.wider.name, above)) if above != ["-"] else "a clock of the compiler")
        return f"clock{of}: {when}" + (f", with {' '.join(map(self.wider.name, others[:8]))}" if others else "")

    def cluster_line(self, process, name):
        for _, names, label in process.pragmas:
            if name in [it.text for it in names]:
                return f"cluster: {label.text.strip(chr(34))}"
        return "cluster: 0" if process is self.reader.processes[0] else "cluster: that of the call's first left side"

    def completion(self, position):
        process = self.process_at(self.offset(position)) or (self.reader.processes[-1] if self.reader.processes else None)
        found = [{"label": it, "kind": KEYWORD_ITEM} for it in sorted(RESERVED - set(SNIPPETS))]
        found += [{"label": it, "kind": SNIPPET_ITEM, "insertText": text, "insertTextFormat": 2} for it, text in SNIPPETS.items()]
        for it in process.names() if process else []:
            item = CONSTANT_ITEM if it.role == "parameter" else VARIABLE_ITEM
            found.append({"label": it.name.text, "kind": item, "detail": f"{it.kind}, {it.role}"})
        for it in self.reader.processes[1:]:
            found.append({"label": it.name.text, "kind": FUNCTION_ITEM, "detail": self.process_lines(it.name)[0].strip("`")})
        return found

    def symbols(self):
        found = []
        for it in self.reader.processes:
            end = it.end.end if it.end else len(self.text)
            inner = [self.symbol(one.name, 13 if one.role != "parameter" else 14, one.kind) for one in it.names()]
            found.append({**self.symbol(it.name, 12, "process"), "range": self.range(it.keyword.start, end), "children": inner})
        return found

    def symbol(self, piece, kind, detail):
        where = self.range(piece.start, piece.end)
        return {"name": piece.text, "kind": kind, "detail": detail, "range": where, "selectionRange": where}


def meet(wanted, where):
    """Whether two ranges have a line in common."""
    return wanted["start"]["line"] <= where["end"]["line"] and where["start"]["line"] <= wanted["end"]["line"]


def classes_of(tree):
    """Of each signal that `sigc tree` names the signals of its class, and those of the class above, None at the root."""
    found, above = {}, []
    for line in tree.splitlines():
        level, names = (len(line) - len(line.lstrip(" "))) // 2, line.split()
        above = [*above[:level], names]
        for it in names:
            found[it] = names, above[level - 1] if level else None
    return found
