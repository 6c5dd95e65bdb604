"""Night: a list of moves told move by move: records and load after each, what each kind did, which bodies were copied, and why what was
refused was refused."""

import functools
import time
from dataclasses import asdict, dataclass, field

from . import calls, explain, moves, printing, tables
from .atoms import Names
from .replies import Checked, Tally


@dataclass(frozen=True, slots=True)
class Event:
    """A move of the list, the reply to it, and the load then left."""
    number: int
    move: bytes
    reply: Checked
    load: int

    @property
    def kind(self):
        """The word for the kind, or its number if there is none."""
        return moves.KINDS[self.move[0]] if self.move[0] < len(moves.KINDS) else f"kind {self.move[0]}"


@dataclass(slots=True)
class Deeds:
    """What the moves of one kind did: how many were accepted and refused, and by how much records and load changed."""
    accepted: int = 0
    refused: int = 0
    records: int = 0
    load: int = 0


@dataclass(slots=True)
class Copies:
    """A body as text, how often it was copied, and what that added."""
    body: str
    times: int = 0
    load: int = 0
    records: int = 0


@dataclass(slots=True)
class Night:
    """A list of moves, told."""
    start: tuple
    end: tuple
    tally: Tally
    tail: int
    events: list = field(default_factory=list)
    kinds: dict = field(default_factory=dict)
    bodies: dict = field(default_factory=dict)
    refusals: list = field(default_factory=list)

    def add(self, event, records, load):
        """Adds a move, by which records and load changed by so much."""
        self.events.append(event)
        deeds = self.kinds.setdefault(event.kind, Deeds())
        deeds.accepted += event.reply.accepted
        deeds.refused += not event.reply.accepted
        deeds.records += records
        deeds.load += load

    @property
    def spent(self):
        """The left side of demand 3: what the accepted moves used up, and the load left."""
        return 2 * self.tally.meetings + self.tally.stops + self.tally.expiries + self.end[1]

    @property
    def given(self):
        """Its right side: the load at the start and the load that was copied."""
        return self.start[1] + self.tally.copied

    @property
    def copies(self):
        """The bodies, those that copied the most load first."""
        return sorted(self.bodies.values(), key=lambda c: (-c.load, -c.records, c.body))

    def curves(self):
        """The records and the load before the first move and after each."""
        return {"records": [self.start[0], *(event.reply.records for event in self.events)],
                "load": [self.start[1], *(event.load for event in self.events)]}

    def summary(self):
        """The night as --json has it."""
        tally = self.tally
        return {"kinds": {kind: asdict(deeds) for kind, deeds in self.kinds.items()}, "bodies": [asdict(each) for each in self.copies],
                "refusals": [{"number": number, "explanation": why} for number, why in self.refusals],
                "proposed": len(self.events), "refused": len(self.refusals), "tail": self.tail,
                "records": {"start": self.start[0], "end": self.end[0]}, "load": {"start": self.start[1], "end": self.end[1]},
                "meetings": tally.meetings, "stops": tally.stops, "expiries": tally.expiries, "copied": tally.copied}


def progress(stream, least=1000, every=0.5):
    """Shows on a stream how far a long list is; a short one shows nothing."""
    last = time.monotonic()

    def show(done, all_of_them):
        nonlocal last
        if all_of_them >= least and (done == all_of_them or time.monotonic() - last >= every):
            last = time.monotonic()
            stream.write(f"\r{done} of {all_of_them} moves" + ("\n" if done == all_of_them else ""))
            stream.flush()
    return show


@dataclass(frozen=True, slots=True)
class Turn:
    """A move of a list: the table that it is judged on, with the names of its atoms, the reply to it, and the table then kept."""
    number: int
    move: bytes
    before: "Shaped"
    names: Names
    reply: Checked
    table: bytes


class Shaped:
    """A table whose shape is looked at only when it is asked for, and then once."""

    def __init__(self, table):
        self.bytes = table

    @functools.cached_property
    def shape(self):
        return tables.Table(self.bytes)


def turns(table, listed, replies, names):
    """The moves of a list, with the replies of its play, turn by turn. An unfolding may take an atom again that has gone from the table;
    from then on its name is no longer used."""
    before = Shaped(table)
    for number, (move, reply) in enumerate(zip(listed, replies), 1):
        after = before
        if reply.accepted:
            after = Shaped(calls.step(before.bytes, move).table)
        yield Turn(number, move, before, names, reply, after.bytes)
        names = names_after(names, move, before.bytes, after.bytes)
        before = after


def names_after(names, move, before, after):
    """The names that still hold after a move that led from one table to another."""
    if move[0] != moves.UNFOLDING or before == after:
        return names
    return names.without(_delimited_in_copy(before, after, _place(move)))


def names_at_end(table, listed, replies, names):
    """The names that still hold after a list of moves."""
    for turn in turns(table, listed, replies, names):
        names = names_after(turn.names, turn.move, turn.before.bytes, turn.table)
    return names


def _place(move):
    return int.from_bytes(move[2:4], "little")


def _delimited_in_copy(before, after, place):
    """The atoms that are delimited in the copy that an unfolding made."""
    body = (len(after) - len(before)) // tables.LENGTH - 1
    copy = tables.records(after[tables.LENGTH * (place + 1):tables.LENGTH * (place + 1 + body)])
    return {record.first for record in copy if record.kind == tables.DELIMITATION}


def _copied(night, whole, place, names):
    """Counts an unfolding by its body; copies that differ in the atoms they delimit are one body, as the first is spelled."""
    alike = whole.same_but_for_names(place + 1)
    if alike not in night.bodies:
        night.bodies[alike] = Copies(printing.term(whole, names, place=place + 1))
    body = night.bodies[alike]
    body.times += 1
    body.load += whole.load(place + 1)
    body.records += whole.ends[place] - place


def tell(table, listed, names, progress=lambda done, all_of_them: None):
    """Tells a list of moves on a well-formed table."""
    played, (whole, tail) = calls.play(table, listed), moves.split(listed)
    records, load = len(tables.records(table)), calls.load(table).load
    night = Night((records, load), (played.records, calls.load(played.table).load), played.tally, len(tail))
    for turn in turns(table, whole, played.replies, names):
        accepted, then = turn.reply.accepted, load
        if not accepted:
            night.refusals.append((turn.number, explain.step(turn.reply, turn.before.shape, turn.move, turn.names)))
        else:
            then = calls.load(turn.table).load
            if turn.move[0] == moves.UNFOLDING:
                _copied(night, turn.before.shape, _place(turn.move), turn.names)
        night.add(Event(turn.number, turn.move, turn.reply, then), turn.reply.records - records, then - load)
        records, load = turn.reply.records, then
        progress(turn.number, len(whole))
    return night
