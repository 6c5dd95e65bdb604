"""Moves: their six bytes, the words for their kinds, and a list of them as text, one a line."""

import struct
from dataclasses import dataclass

from .errors import NotationError
from .source import Source, number

LENGTH, MOST_BYTES = 6, 60000
STOP, MEETING, EXPIRY, TIME, UNFOLDING, FLOATING = range(6)
KINDS = ("stop", "meeting", "expiry", "time", "unfolding", "floating")
# The calculus has words of its own for them.
ALSO = {"kill": STOP, "communicate": MEETING, "timeout": EXPIRY, "elapse": TIME, "unfold": UNFOLDING, "extrude": FLOATING}


@dataclass(frozen=True, slots=True)
class Move:
    """A proposed move: kind, a and b; bytes(move) are its six bytes."""
    kind: int
    a: int
    b: int = 0

    def __post_init__(self):
        if not (0 <= self.kind < 256 and 0 <= self.a < 65536 and 0 <= self.b < 65536):
            raise ValueError(f"a move's kind has 8 bits, a and b have 16: {self.kind}, {self.a}, {self.b}")

    def __bytes__(self):
        return struct.pack("<BBHH", self.kind, 0, self.a, self.b)

    def __str__(self):
        """The move as a line of a list of moves says it."""
        word = KINDS[self.kind] if self.kind < len(KINDS) else str(self.kind)
        return f"{word} {self.a} {self.b}" if self.kind == MEETING or self.b else f"{word} {self.a}"


def split(moves):
    """The whole moves of a list's bytes, six bytes each, and the bytes of the tail."""
    view = memoryview(moves).cast("B")
    whole = len(view) - len(view) % LENGTH
    return [bytes(view[i:i + LENGTH]) for i in range(0, whole, LENGTH)], bytes(view[whole:])


def words(move):
    """Six bytes as a line of a list of moves; as hexadecimal digits if no such line says them."""
    kind, zero, a, b = struct.unpack("<BBHH", move)
    return move.hex() if zero else str(Move(kind, a, b))


def kind_of(word):
    """The kind that a word or a number from 0 to 255 names, or None."""
    if word in KINDS:
        return KINDS.index(word)
    if word in ALSO:
        return ALSO[word]
    return number(word, 255)


def read(text, name="<moves>"):
    """The bytes of a list of moves. A line has a kind, a and, of a meeting, b; `#` opens a comment.

    The kinds are stop, meeting, expiry, time, unfolding and floating, or their numbers."""
    source = Source(text, name)
    listed = []
    for start, line in source.lines():
        found = list(source.words(start, line))
        if not found:
            continue
        at, word = found[0]
        kind = kind_of(word)
        if kind is None:
            raise NotationError(source, at, f"{word} is no kind of move; they are {', '.join(KINDS)}")
        numbers = []
        for at, word in found[1:]:
            if number(word) is None:
                raise NotationError(source, at, f"a number from 0 to 65535 is wanted here, not {word}")
            numbers.append(number(word))
        if not 1 + (kind == MEETING) <= len(numbers) <= 2:
            wants = "the places of its receive and its message" if kind == MEETING else "one number"
            raise NotationError(source, found[0][0], f"{found[0][1]} has {wants} behind it")
        listed.append(bytes(Move(kind, *numbers)))
    return b"".join(listed)
