"""Makes tokens of the bytes of a file, byte for byte as the definitions of small C do (crates/sig_c/specs/Tokens.antt)."""
import string

WORD = set(string.ascii_letters + string.digits + "_")
RUN = set("!%&*+-/<=>|")
SINGLE = set("(),:;?[]{}")
ESCAPED = set('"\\?')


class NotRead(Exception):
    """The text is none of small C."""


def is_printable(byte: str) -> bool:
    """Whether a byte is one of ASCII that is seen, or a blank."""
    return " " <= byte <= "~"


def is_refused(last: str, byte: str) -> bool:
    """Whether an earlier phase of translation would look at a byte behind another: a backslash, `??` or `/*`."""
    return byte == "\\" or last + byte in ("??", "/*")


class Scanner:
    """What was read: the tokens, and the mode with the bytes of the token that is begun."""

    def __init__(self) -> None:
        self.mode, self.bytes, self.last, self.tokens = "fresh", "", "", []

    def ends(self, kind: str) -> None:
        """The token that is begun ends."""
        self.tokens.append((kind, self.bytes))
        self.mode, self.bytes = "between", ""

    def begin(self, byte: str) -> None:
        """The first byte of a token, or what stands between tokens."""
        if byte == "\n":
            self.mode = "fresh"
        elif byte == " ":
            self.mode = "between"
        elif byte in WORD or byte in RUN:
            self.mode, self.bytes = "word" if byte in WORD else "run", byte
        elif byte in SINGLE:
            self.bytes = byte
            self.ends("sign")
        elif byte == '"':
            self.mode, self.bytes = "string", ""
        else:
            raise NotRead(f"{byte!r} begins no token")

    def fresh(self, byte: str) -> None:
        if byte == "#":
            self.mode, self.bytes, self.last = "directive", "", byte
        else:
            self.begin(byte)

    def between(self, byte: str) -> None:
        self.begin(byte)

    def word(self, byte: str) -> None:
        if byte in WORD:
            self.bytes += byte
        else:
            self.ends("word")
            self.begin(byte)

    def run(self, byte: str) -> None:
        if self.bytes == "/" and byte == "*":
            self.mode, self.bytes, self.last = "comment", "", " "
        elif byte in RUN:
            self.bytes += byte
        else:
            self.ends("sign")
            self.begin(byte)

    def string(self, byte: str) -> None:
        if byte == '"':
            self.ends("string")
        elif byte == "\\":
            self.mode = "escaped"
        elif is_printable(byte) and byte != "?":
            self.bytes += byte
        else:
            raise NotRead(f"{byte!r} in a string")

    def escaped(self, byte: str) -> None:
        if byte not in ESCAPED:
            raise NotRead(f"{byte!r} behind a backslash")
        self.mode, self.bytes = "string", self.bytes + byte

    def comment(self, byte: str) -> None:
        if self.last + byte == "*/":
            self.mode = "between"
        elif (is_printable(byte) or byte == "\n") and not is_refused(self.last, byte):
            self.last = byte
        else:
            raise NotRead(f"{byte!r} in a comment")

    def directive(self, byte: str) -> None:
        if byte == "\n":
            self.ends("directive")
            self.mode = "fresh"
        elif is_printable(byte) and not is_refused(self.last, byte):
            self.bytes, self.last = self.bytes + byte, byte
        else:
            raise NotRead(f"{byte!r} in a directive")


def tokens_of(text: str) -> list:
    """The tokens of a text, each with its kind; its last line ends."""
    scanner = Scanner()
    for byte in text:
        getattr(scanner, scanner.mode)(byte)
    if scanner.mode != "fresh":
        raise NotRead("the last line does not end")
    return scanner.tokens
