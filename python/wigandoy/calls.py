"""Calls: the stepper's operations on bytes-like objects. What the bytes hold is never an error: a reply says what is wrong with them.

Threads may call side by side; a call takes up to 320 KiB of its thread's stack, which `threading.stack_size` must leave it.

A call that writes a table takes memory to write it to, `out`; then the reply's table is a view of it, and all other bytes of it stay as
they were. Without it the reply has a table of its own."""

import operator
import struct
from array import array

from . import library
from .library import Lent
from .moves import LENGTH as MOVE, MOST_BYTES as MOST_MOVES, Move
from .replies import Checked, Joined, Loaded, Opened, Played, Stepped, Tally, refuses
from .tables import LENGTH as RECORD, MOST_BYTES

TABLE = (1, 2, 3, 4, 5, 6, 7)


def _number(value, bits, what):
    """A number that a C function takes; anything else is misuse."""
    number = operator.index(value)
    if not 0 <= number < 1 << bits:
        raise ValueError(f"{what} has {bits} bits: 0 to {(1 << bits) - 1}")
    return number


def _given(out, own, answer, records):
    """The table that was written: a view of lent memory, or bytes of its own; None if it was refused."""
    if answer:
        return None
    if out is None:
        return bytes(memoryview(own)[:RECORD * records])
    return memoryview(out).cast("B")[:RECORD * records]


@refuses(*TABLE)
def check(table):
    """Whether bytes are a well-formed table, and its records."""
    with Lent(table) as lent:
        return Checked(*library.parts(library.loaded().wigandoy_check(*lent)))


@refuses(*TABLE)
def load(table):
    """The load of a table: its stops, messages, receives and waits."""
    with Lent(table) as lent:
        return Loaded(*library.parts(library.loaded().wigandoy_load(*lent)))


@refuses(*TABLE, 10, 11, 12, 13, 14, 15, 16, 17, 18, 20, 21)
def step(table, move, out=None):
    """One move on a table: the six bytes of it, or a `Move`."""
    move = bytes(move) if isinstance(move, Move) else move
    own = bytearray(MOST_BYTES) if out is None else out
    with Lent(table, move, written=(own,)) as lent:
        reply = library.parts(library.loaded().wigandoy_step(*lent))
    return Stepped(*reply, _given(out, own, reply[0], reply[2]))


@refuses(*TABLE, 23, 24, 21)
def ticks(table, earlier, later, out=None):
    """The time between two readings of a controller's clock of 32 bits, which rolls over. Where no tick has passed the table is
    handed on as it came."""
    earlier, later = _number(earlier, 32, "a reading"), _number(later, 32, "a reading")
    own = bytearray(MOST_BYTES) if out is None else out
    with Lent(table, written=(own,)) as lent:
        reply = library.parts(library.loaded().wigandoy_ticks(*lent[:2], earlier, later, *lent[2:]))
    return Stepped(*reply, _given(out, own, reply[0], reply[2]))


@refuses(*TABLE, 25, 11, 26, 21)
def joint(table, stops, out=None):
    """One to eight stops, listed by their places, fired as one step."""
    listed = array("H", [_number(stop, 16, "a place") for stop in stops])
    own = bytearray(MOST_BYTES) if out is None else out
    tally = library.tally()
    with Lent(table, listed, written=(own,)) as lent:
        reply = library.parts(library.loaded().wigandoy_joint(*lent[:3], len(listed), *lent[4:], tally))
    return Joined(*reply, _given(out, own, reply[0], reply[2]), Tally(*tally))


@refuses(*TABLE, 19, 21)
def play(table, moves, out=None, replies=None):
    """A list of moves on a table, six bytes each; each is judged on the table that the accepted ones before it left, and a refused one
    changes nothing. `out` must hold 32,768 bytes and `replies`, if it is lent, 6 for each move."""
    with Lent(moves) as lent:
        tail = lent[1] % MOVE
        whole = lent[1] - tail
    own = bytearray(MOST_BYTES) if out is None else out
    answers = bytearray(min(whole, MOST_MOVES)) if replies is None else replies
    tally = library.tally()
    with Lent(table, moves, written=(own, answers)) as lent:
        reply = library.parts(library.loaded().wigandoy_play(*lent, tally))
    given = () if reply[0] else struct.iter_unpack("<3H", memoryview(answers).cast("B")[:whole])
    return Played(*reply, _given(out, own, reply[0], reply[2]), tuple(Checked(*each) for each in given), Tally(*tally), tail)


@refuses(*TABLE, 22)
def open_moves(table, out=None):
    """Every move that a step would accept now, time apart: stops, meetings, expiries, unfoldings and floatings, each by a, then by b.
    Lent memory takes six bytes for each; 22 can only be where it is lent."""
    own = bytearray(MOST_BYTES) if out is None else out
    answer, place, count = _listed(table, own)
    if out is None and answer == 22:
        own = bytearray(MOVE * place)
        answer, place, count = _listed(table, own)
    if answer:
        return Opened(answer, place, None)
    found = struct.iter_unpack("<BxHH", memoryview(own).cast("B")[:MOVE * count])
    return Opened(answer, place, tuple(Move(*each) for each in found))


def _listed(table, out):
    with Lent(table, written=(out,)) as lent:
        return library.parts(library.loaded().wigandoy_open(*lent))


@refuses(30, 31, 32, 20, 21)
def orc(script, partner, operation, out=None):
    """An Orc script as a table; partner and operation are the endpoint that its results are sent to."""
    partner, operation = _number(partner, 16, "the partner"), _number(operation, 16, "the operation")
    own = bytearray(MOST_BYTES) if out is None else out
    with Lent(script, written=(own,)) as lent:
        reply = library.parts(library.loaded().wigandoy_orc(*lent[:2], partner, operation, *lent[2:]))
    return Stepped(*reply, _given(out, own, reply[0], reply[2]))
