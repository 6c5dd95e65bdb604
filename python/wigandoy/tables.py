"""Tables: the records of document 01, and for a table of the right shape what stands above, inside and around each of them."""

import struct
from typing import NamedTuple

LENGTH = 16
MOST_RECORDS, MOST_BYTES, MOST_DEPTH = 2048, 32768, 256
NIL, STOP, MESSAGE, RECEIVE, WAIT, CHOICE, PARALLEL, PROTECTION, DELIMITATION, REPLICATION = range(10)
KINDS = ("nil", "stop", "message", "receive", "wait", "choice", "parallel", "protection", "delimitation", "replication")
CHILDREN = (0, 0, 0, 1, 1, 2, 2, 1, 1, 1)
LOAD = (STOP, MESSAGE, RECEIVE, WAIT)
LIVE = (CHOICE, PARALLEL, PROTECTION, DELIMITATION)
READY = (*LIVE, REPLICATION)
_RECORD = struct.Struct("<BBHH4HH")


class Record(NamedTuple):
    """A record's fields. `slots` has four atoms, of which the first `count` are used."""
    kind: int
    count: int = 0
    first: int = 0
    second: int = 0
    slots: tuple = (0, 0, 0, 0)
    interval: int = 0

    @property
    def contents(self):
        """The atoms of the tuple: what a message sends, the pattern of a receive."""
        return self.slots[:self.count]

    @property
    def endpoint(self):
        return self.first, self.second

    def uses(self):
        """The atoms that the record uses, in the order of its fields; a delimitation uses none."""
        if self.kind == STOP:
            return (self.first,)
        return (*self.endpoint, *self.contents) if self.kind in (MESSAGE, RECEIVE) else ()

    def __bytes__(self):
        return _RECORD.pack(self.kind, self.count, self.first, self.second, *self.slots, self.interval)


def records(table):
    """The records of a table's bytes, whatever they hold; a part of a record at the end is left out."""
    view = memoryview(table).cast("B")
    whole = view[:len(view) - len(view) % LENGTH]
    return [Record(kind, count, first, second, tuple(slots), interval)
            for kind, count, first, second, *slots, interval in _RECORD.iter_unpack(whole)]


class Nesting:
    """Records in prefix order, by the number of children that each wants: the place above each (-1 above the first; None above what is
    over), where the term at each ends, and at last the places that still want children, each with how many."""

    def __init__(self, wanted):
        self.above, self.ends, self.wanting = [], list(range(1, len(wanted) + 1)), []
        for place, children in enumerate(wanted):
            self.above.append(self.wanting[-1][0] if self.wanting else -1 if place == 0 else None)
            self.wanting.append([place, children])
            while self.wanting and self.wanting[-1][1] == 0:
                self.ends[self.wanting.pop()[0]] = place + 1
                if self.wanting:
                    self.wanting[-1][1] -= 1


class Table:
    """A table that is one term in prefix order (none of refusals 1 to 3), with the place above each record, the end of each
    term, the depths, and which records are live or ready."""

    def __init__(self, table):
        self.records = records(table)
        nesting = Nesting([CHILDREN[record.kind] for record in self.records])
        self.above, self.ends = nesting.above, nesting.ends
        self.depths, self.live, self.ready = [1], [True], [True]
        for above in self.above[1:]:
            self.depths.append(self.depths[above] + 1)
            self.live.append(self.live[above] and self.records[above].kind in LIVE)
            self.ready.append(self.ready[above] and self.records[above].kind in READY)

    def __len__(self):
        return len(self.records)

    def __bytes__(self):
        return b"".join(map(bytes, self.records))

    def way(self, place):
        """The places above a record, the nearest first."""
        while self.above[place] >= 0:
            place = self.above[place]
            yield place

    def scope(self, place, atom):
        """The delimitation of an atom that encloses a record, or None."""
        return next((above for above in self.way(place) if self.delimits(above, atom)), None)

    def delimits(self, place, atom):
        return self.records[place].kind == DELIMITATION and self.records[place].first == atom

    def delimitation(self, atom):
        """The first delimitation of an atom, or None."""
        return next((place for place in range(len(self)) if self.delimits(place, atom)), None)

    def inside(self, place, outer):
        """Whether a record stands inside the term at another."""
        return outer < place < self.ends[outer]

    def load(self, place=0):
        """The load of the term at a place."""
        return sum(record.kind in LOAD for record in self.records[place:self.ends[place]])

    def same_but_for_names(self, place):
        """The term at a place with the atoms that it delimits numbered in their order: alike for copies of one body."""
        within = self.records[place:self.ends[place]]
        order = {record.first: -1 - i for i, record in enumerate(r for r in within if r.kind == DELIMITATION)}
        return tuple(record._replace(first=order.get(record.first, record.first), second=order.get(record.second, record.second),
                                     slots=tuple(order.get(atom, atom) for atom in record.slots)) for record in within)

    def height(self, place=0):
        """How deep the term at a place is, 1 for a record alone."""
        return max(self.depths[place:self.ends[place]]) - self.depths[place] + 1


def whole(table):
    """A table's bytes as a `Table`, unless it is one already."""
    return table if isinstance(table, Table) else Table(table)
