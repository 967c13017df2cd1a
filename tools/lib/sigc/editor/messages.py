"""The messages of an editor: a header that says how many bytes follow, an empty line, and so many bytes of JSON.

Bytes that are no message are passed over up to the next header, so one message that went wrong takes no other one with it.
"""
import io
import json
import re

# No message of an editor is longer, and of what has no end of a line so much is kept as a header may take.
MOST_BYTES, MOST_HEADER, PIECE = 64 << 20, 256, 1 << 16
NAME = re.compile(rb"content-length[ \t]*:", re.I)
LENGTH = re.compile(NAME.pattern + rb"[ \t]*([0-9]{1,8})[ \t\r]*", re.I)


class Messages:
    """The messages of a stream of bytes."""

    def __init__(self, stream: io.BufferedIOBase):
        self.stream, self.held = stream, bytearray()

    def following(self) -> dict | None:
        """The next message; None at the end, and {} in the place of bytes that are none."""
        length = self.length()
        if length is None:
            return None
        while len(self.held) < length and self.read_on():
            pass
        body = bytes(self.held[:length])
        del self.held[:length]
        message, rest = message_of(body)
        self.held[:0] = rest
        return message if isinstance(message, dict) else {}

    def read_on(self):
        """Takes what the stream has; whether it had anything."""
        piece = self.stream.read1(PIECE)
        self.held += piece
        return bool(piece)

    def length(self):
        """The length that a header says, and 0 where it says none that may be; None at the end."""
        length, is_begun = 0, False
        while (line := self.line()) is not None:
            if not line.strip() and is_begun:
                return length if length <= MOST_BYTES else 0
            found = list(LENGTH.finditer(line))
            if found and found[-1].end() == len(line):
                length = int(found[-1][1])
            is_begun = is_begun or bool(line.strip())
        return None

    def line(self):
        """The next line without its end; None at the end of the stream."""
        while (end := self.held.find(b"\n")) < 0:
            del self.held[:-MOST_HEADER]
            if not self.read_on():
                return None
        line = bytes(self.held[:end])
        del self.held[: end + 1]
        return line


def message_of(body: bytes) -> tuple[object, bytes]:
    """The message of these bytes, and what stands after its end; where it is none, what stands there from a header on."""
    try:
        text = body.decode("utf-8").lstrip()
        message, end = json.JSONDecoder().raw_decode(text)
        return message, text[end:].strip().encode("utf-8")
    except (ValueError, RecursionError):
        header = NAME.search(body)
        return None, body[header.start() :] if header else b""
