"""What a script ends with where it cannot go on."""


class Refused(Exception):
    """A line for standard error, and a status."""

    def __init__(self, line, status=1):
        super().__init__(line)
        self.line, self.status = line, status
