"""How long the files are that sigc reads, and the text of one, read or written."""
# The most bytes that sigc reads of a program, and of any other file.
PROGRAM_BYTES, MOST_BYTES = 1_048_576, 67_108_864


def read_text(path, most=MOST_BYTES):
    """A file's text, a byte a character, so that columns are those of sigc; of a longer one a byte more than these, so
    that an endless device has an end here too."""
    with open(path, "rb") as it:
        return it.read(most + 1).decode("latin-1")


def write_text(path, text):
    """Writes a text that has a byte a character."""
    with open(path, "w", encoding="latin-1", newline="") as it:
        it.write(text)
