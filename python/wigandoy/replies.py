"""Replies: the answers of the stepper by number, name and meaning, and the small records that the calls return."""

from dataclasses import dataclass

from .moves import Move

# For each answer its name, what it says, and what its place is; the order is that of the numbers.
ANSWERS = {
    0: ("accepted", "accepted", "0"),
    1: ("bad_length", "no bytes, over 32,768, or not a multiple of 16", "0"),
    2: ("bad_record", "a record with an unknown kind, a count over 4, an atom of the wrong set, a used slot of 0, "
        "an unused field not zero, or a pattern variable twice", "the record"),
    3: ("bad_shape", "the term ends before the records do, or the records end first", "the first one over, or their number"),
    4: ("too_deep", "depth over 256", "the first such record"),
    5: ("no_guard", "a choice's child that is no nil, receive, wait or choice", "the child"),
    6: ("out_of_scope", "a variable or label used outside every delimitation of it", "the record of the use"),
    7: ("clash", "a second delimitation of an atom, or a delimited value used outside", "that record"),
    10: ("no_move", "not 6 bytes, a kind over 5, byte 1 not zero, or an unused b not zero", "0"),
    11: ("absent", "no live record of the kind wanted", "a if it is at fault, else b; of joint stops the first listed such"),
    12: ("differs", "a message that does not fit the receive",
         "what differs: 0 an unset variable, 1 the endpoint, 2 the count, 3 to 6 the first such slot of one to four"),
    13: ("apart", "a delimitation does not enclose as asked", "a"),
    14: ("held_back", "a ready stop holds a scope of a party back", "the first such delimitation"),
    15: ("looser", "a ready receive that fits binds fewer variables", "the first"),
    16: ("unripe", "the wait's interval is not 0", "a"),
    17: ("no_time", "a time of 0", "0"),
    18: ("stuck", "a label, or no fitting record above, or the root", "a"),
    19: ("list_too_long", "over 10,000 moves: over 60,000 bytes", "0"),
    20: ("too_large", "the result has over 2,048 records or a depth over 256", "0"),
    21: ("no_room", "the output is too short", "0"),
    22: ("list_too_short", "the list is shorter than 6 bytes for each open move", "their number"),
    23: ("gone_back", "2,147,483,648 ticks or more: the clock has gone back", "0"),
    24: ("too_many_ticks", "over 65,535 ticks", "0"),
    25: ("wrong_number", "no stop, or over 8", "0"),
    26: ("scopes_clash", "a stop whose scope lies inside, holds or is that of another listed one", "the first listed such"),
    30: ("bad_script", "no bytes, over 512 records, or not a multiple of 8; a result endpoint that is no pair of values; "
         "or a record with an unknown kind, byte 1 or an unused field not zero, or an atom of the wrong set", "0, or the record"),
    31: ("bad_nesting", "the expression ends before the records do, or the records end first, or a depth over 64",
         "the first one over, their number, or the first such record"),
    32: ("bad_binding", "a variable used outside its scope, or bound a second time", "that record"),
}


def refuses(*numbers):
    """Puts the refusals of a call, with their meaning and their place, into its doc string."""
    def documented(call):
        lines = [f"    {n:>2} {ANSWERS[n][0]}: {ANSWERS[n][1]}. Place: {ANSWERS[n][2]}." for n in numbers]
        call.__doc__ = "\n".join([call.__doc__.rstrip(), "", "    Refusals, the first that applies:", *lines, ""])
        return call
    return documented


@dataclass(frozen=True, slots=True)
class Answer:
    """What every reply begins with: the answer's number, 0 if it was accepted, and the place of a refusal."""
    number: int
    place: int

    @property
    def accepted(self):
        return self.number == 0

    @property
    def name(self):
        """The answer as a word, such as looser."""
        return ANSWERS[self.number][0]

    @property
    def meaning(self):
        """What the answer says of any table; `wigandoy.explain` says it of this one."""
        return ANSWERS[self.number][1]


@dataclass(frozen=True, slots=True)
class Checked(Answer):
    """Of a check the table's records; of a move in a list those of the table then kept."""
    records: int


@dataclass(frozen=True, slots=True)
class Loaded(Answer):
    """The load of a table: its stops, messages, receives and waits."""
    load: int


@dataclass(frozen=True, slots=True)
class Stepped(Answer):
    """The table that a step, ticks or a script gives; None if it was refused."""
    records: int
    table: bytes | memoryview | None


@dataclass(frozen=True, slots=True)
class Tally:
    """What accepted moves did, in numbers; `copied` is the load that unfoldings copied."""
    meetings: int
    stops: int
    expiries: int
    copied: int


@dataclass(frozen=True, slots=True)
class Joined(Stepped):
    """The table that a joint step gives, and its tally."""
    tally: Tally


@dataclass(frozen=True, slots=True)
class Played(Stepped):
    """A list of moves played: the last table, the reply to each move, the tally, and the bytes of a tail that is no move."""
    replies: tuple[Checked, ...]
    tally: Tally
    tail: int


@dataclass(frozen=True, slots=True)
class Opened(Answer):
    """The moves that can be made now, time apart; None if the table was refused or the list too short."""
    moves: tuple[Move, ...] | None
