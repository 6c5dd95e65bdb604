"""Generate: random well-formed tables, moves and scripts for the tests."""

import random

from wigandoy import calls
from wigandoy.moves import Move
from wigandoy.tables import (CHOICE, DELIMITATION, MESSAGE, MOST_DEPTH, NIL, PARALLEL, PROTECTION, RECEIVE, REPLICATION, STOP, WAIT,
                             Record, Table)

class Terms:
    """Terms of at most so many records over few atoms, so that much meets; every record is in scope."""

    def __init__(self, rng):
        self.rng, self.records, self.next = rng, [], {"value": 6, "variable": 32768, "label": 49152}
        self.endpoint, self.count = (rng.choice((1, 2)), rng.choice((1, 2))), rng.choice((0, 1, 1, 2, 4))

    def usual(self, usual, others):
        """A table's own choice, most of the time."""
        return usual if self.rng.random() < 0.8 else self.rng.choice(others)

    def fresh(self, kind):
        self.next[kind] += self.rng.choice((1, 1, 1, 2, 30))
        return self.next[kind] - 1

    def value(self, scope):
        return self.rng.choice((4, 4, 5, *scope["value"]))

    def contents(self, scope, variables):
        rng, count = self.rng, self.usual(self.count, range(5))
        found = []
        for _ in range(count):
            free = [x for x in scope["variable"] if x not in found] if variables else []
            found.append(rng.choice(free) if free and rng.random() < 0.5 else self.value(scope))
        return count, (*found, 0, 0, 0, 0)[:4]

    def leaf(self, scope, guard):
        rng = self.rng
        if guard or rng.random() < 0.2:
            return Record(NIL)
        if scope["label"] and rng.random() < 0.2:
            return Record(STOP, first=rng.choice(scope["label"]))
        count, slots = self.contents(scope, rng.random() < 0.15)
        partner, operation = self.usual(self.endpoint, ((1, 2), (3, 1)))
        partner = rng.choice(scope["variable"]) if scope["variable"] and rng.random() < 0.1 else partner
        return Record(MESSAGE, count, partner, operation, slots)

    def put(self, budget, depth, scope, guard=False):
        """Adds a term."""
        rng = self.rng
        if budget < 2 or depth == MOST_DEPTH:
            self.records.append(self.leaf(scope, guard))
            return
        two = [CHOICE] if guard else [CHOICE, PARALLEL, PARALLEL, PARALLEL]
        one = [RECEIVE, RECEIVE, WAIT] if guard else [RECEIVE, WAIT, PROTECTION, DELIMITATION, DELIMITATION, REPLICATION]
        if depth < 6 and budget > 4 and not guard:
            two, one = [PARALLEL], [DELIMITATION] * 4 + [PROTECTION]
        elif budget == 2 and rng.random() < 0.6:
            one = [RECEIVE]
        kind = rng.choice(two if budget > 2 and rng.random() < 0.6 else one)
        if kind in (CHOICE, PARALLEL):
            self.records.append(Record(kind))
            left = rng.randint(1, budget - 2)
            self.put(left, depth + 1, scope, kind == CHOICE)
            self.put(budget - 1 - left, depth + 1, scope, kind == CHOICE)
            return
        if kind == DELIMITATION:
            of = rng.choice(("value", "variable", "variable", "variable", "label"))
            atom = self.fresh(of)
            self.records.append(Record(kind, first=atom))
            scope = {**scope, of: (*scope[of], atom)}
        elif kind == RECEIVE:
            count, slots = self.contents(scope, True)
            self.records.append(Record(kind, count, *self.usual(self.endpoint, ((1, 2), (3, 1))), slots))
        else:
            self.records.append(Record(kind, interval=rng.choice((0, 0, 1, 4, 65535)) if kind == WAIT else 0))
        self.put(budget - 1, depth + 1, scope)


def table(rng, most):
    """A well-formed table of at most so many records."""
    terms = Terms(rng)
    terms.put(rng.randint(1, most), 1, {"value": (), "variable": (), "label": ()})
    return b"".join(map(bytes, terms.records))


def full_table(seed):
    """A table of 2,048 records and depth 256: a spine of all kinds that may stand above another, and random terms beside it."""
    rng, terms = random.Random(seed), Terms(random.Random(seed))
    scope = {"value": (), "variable": (), "label": ()}
    beside, left = [], 2048 - 256
    for depth in range(1, 256):
        if left and rng.random() < 0.5:
            terms.records.append(Record(PARALLEL))
            beside.append((depth + 1, scope))
            left -= 1
        elif rng.random() < 0.6:
            of = rng.choice(("value", "variable", "label"))
            terms.records.append(Record(DELIMITATION, first=terms.fresh(of)))
            scope = {**scope, of: (*scope[of], terms.records[-1].first)}
        else:
            terms.records.append(Record(rng.choice((PROTECTION, REPLICATION, WAIT))))
    terms.records.append(Record(NIL))
    for waiting in range(len(beside), 0, -1):
        depth, scope = beside[waiting - 1]
        before = len(terms.records)
        terms.put(1 + left // waiting, max(depth, 200), scope)
        left -= len(terms.records) - before - 1
    return b"".join(map(bytes, terms.records))


def move(rng, table):
    """A move that is likely to be accepted or to come near."""
    if rng.random() < 0.05:
        return bytes(rng.randrange(8) for _ in range(6))
    if rng.random() < 0.05:
        return bytes(Move(3, rng.choice((0, 1, 4))))
    found = calls.open_moves(table).moves
    if found and rng.random() < 0.5:
        return bytes(rng.choice(found))
    whole, kind = Table(table), rng.choice((0, 1, 1, 1, 1, 1, 2, 4, 5))
    a = one_of(rng, whole, lambda record: record.kind == (STOP, RECEIVE, WAIT, NIL, REPLICATION, DELIMITATION)[kind])
    if kind != 1 or a == len(whole):
        return bytes(Move(kind, a))
    wanted = whole.records[a]
    near = rng.random() < 0.8
    return bytes(Move(kind, a, one_of(rng, whole, lambda record: record.kind == MESSAGE and (not near or record[1:4] == wanted[1:4]))))


def one_of(rng, table, wanted):
    """The place of a live record that is wanted; any place where there is none, and at times."""
    alive = [at for at, record in enumerate(table.records) if table.live[at] and wanted(record)]
    return rng.choice(alive) if alive and rng.random() < 0.9 else rng.randrange(len(table) + 1)


def moves(rng, table, count):
    """A list of moves, each likely on the table that the ones before it left."""
    listed = []
    for _ in range(count):
        listed.append(move(rng, table))
        reply = calls.step(table, listed[-1])
        table = reply.table if reply.accepted else table
    return b"".join(listed)


def script(rng, most):
    """The bytes of a script, mostly well formed."""
    out = []

    def put(budget, scope):
        kind = rng.choice((0, 1, 1)) if budget < 3 else rng.choice((2, 3, 4))
        if kind < 2:
            atom = 0 if kind == 0 else rng.choice((7, 8, *scope))
            out.append((kind, 0, atom, *((3, 4) if kind else (0, 0))))
            return
        x = 32768 + len(out)
        out.append((kind, 0, 0 if kind == 3 else x, 0, 0))
        left = rng.randint(1, budget - 2)
        put(left, (*scope, x) if kind == 4 else scope)
        put(budget - 1 - left, (*scope, x) if kind == 2 else scope)

    put(rng.randint(1, most), ())
    return b"".join(bytes((k, z)) + b"".join(w.to_bytes(2, "little") for w in rest) for k, z, *rest in out)


def damaged(rng, content):
    """Bytes with two records changed for each other, or a few bytes changed, or cut."""
    found = bytearray(content)
    if len(found) > 32 and rng.random() < 0.5:
        one, other = (16 * rng.randrange(len(found) // 16) for _ in range(2))
        found[one:one + 16], found[other:other + 16] = found[other:other + 16], found[one:one + 16]
        return bytes(found)
    for _ in range(rng.randint(1, 3)):
        if found:
            found[rng.randrange(len(found))] = rng.choice((0, 1, 2, 3, 5, 9, 10, 128, 192, rng.randrange(256)))
    return bytes(found[:rng.randint(0, len(found))] if rng.random() < 0.2 else found)
