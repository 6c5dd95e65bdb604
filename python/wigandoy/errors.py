"""Errors: what misuse and a text that cannot be read raise. A refusal of the stepper is no error but a reply."""

# How much of a line is shown on each side of an error.
AROUND = 100


class Misuse(Exception):
    """The command was asked for what it cannot do: a file that is not there, an argument that says nothing."""


class LibraryMissing(ImportError):
    """The shared library is not in the package, or does not load."""


class NotationError(ValueError):
    """A text that is no term, list of moves or names file: what is wrong, with line, column, the line and a caret."""

    def __init__(self, source, place, message):
        self.source, self.place, self.message = source, place, message
        self.line, self.column = source.position(place)
        super().__init__(self.located())

    def located(self):
        """The message with its place, and the line with a caret below; of a long line the part around it."""
        first = max(0, self.column - 1 - AROUND)
        line = self.source.line(self.line)[first:self.column - 1 + AROUND]
        under = "".join("\t" if c == "\t" else " " for c in line[:self.column - 1 - first])
        return f"{self.source.name}:{self.line}:{self.column}: {self.message}\n    {line}\n    {under}^"
