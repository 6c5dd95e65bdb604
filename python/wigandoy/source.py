"""Source: a text with the name of where it came from, its lines and words, and where a place in it lies."""

import bisect


def number(text, most=65535):
    """The number that decimal digits write; None if the text is none, or if it is over `most`."""
    digits = text.lstrip("0") or "0"
    if not (text.isascii() and text.isdecimal() and len(digits) <= len(str(most))):
        return None
    return int(digits) if int(digits) <= most else None


class Source:
    """A text that errors can point into. Places count characters from 0; lines and columns count from 1."""

    def __init__(self, text, name):
        self.text, self.name = text, name
        self.starts = [0] + [i + 1 for i, c in enumerate(text) if c == "\n"]

    def position(self, place):
        """The line and the column of a place."""
        line = bisect.bisect_right(self.starts, place)
        return line, place - self.starts[line - 1] + 1

    def line(self, number):
        """A line's text, without its end."""
        end = self.starts[number] - 1 if number < len(self.starts) else len(self.text)
        return self.text[self.starts[number - 1]:end].rstrip("\r")

    def lines(self):
        """Each line, with the place where it starts."""
        for number, start in enumerate(self.starts, 1):
            yield start, self.line(number)

    @staticmethod
    def words(start, line):
        """The words of a line up to a comment, each with its place."""
        at = 0
        for word in line.partition("#")[0].split():
            at = line.index(word, at)
            yield start + at, word
            at += len(word)
