"""Wigandoy: the proved stepper for COWS tables, from Python.

    >>> import wigandoy
    >>> night = wigandoy.read("[x]p.o?<x>.0 | p.o!<v>")
    >>> reply = wigandoy.step(night.table, wigandoy.Move(1, 2, 4))
    >>> reply.number, reply.name, reply.place
    (13, 'apart', 2)

`check`, `step`, `play`, `load`, `open_moves`, `ticks`, `joint` and `orc` call the library on bytes-like objects and answer anything they
hold. `read` and `term` go from the text of a term to a table and back, `listing` shows a table a line a record, and `explain` says in
words why something was refused. `python3 -m wigandoy` is the command."""

from . import explain
from .atoms import Names, read_names
from .calls import check, joint, load, open_moves, orc, play, step, ticks
from .errors import LibraryMissing, NotationError
from .moves import Move, read as read_moves
from .printing import listing, term
from .reading import Reading, read
from .replies import ANSWERS, Answer, Checked, Joined, Loaded, Opened, Played, Stepped, Tally

__all__ = ["ANSWERS", "Answer", "Checked", "Joined", "LibraryMissing", "Loaded", "Move", "Names", "NotationError", "Opened", "Played",
           "Reading", "Stepped", "Tally", "check", "explain", "joint", "listing", "load", "open_moves", "orc", "play", "read",
           "read_moves", "read_names", "step", "term", "ticks"]
