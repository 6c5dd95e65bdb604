"""Explain: why something was refused, in words that name the records. Each function takes what the call took and its reply, and
returns a sentence such as

    15 at 6: the receive dome.moon?<tonight> at 6 is ready, fits the same message and binds fewer variables

The number and the place are the stepper's; the words are found by looking at the table again. An accepted reply has none: None."""

import functools
import struct

from . import calls, scripts, tables
from .atoms import LABEL, VALUE, VARIABLE, names_of, set_of
from .moves import EXPIRY, FLOATING, KINDS, MEETING, STOP, TIME, UNFOLDING, LENGTH as MOVE, MOST_BYTES as MOST_MOVES
from .printing import activity, phrase
from .tables import Table

SLOTS = ("one", "two", "three", "four")


def explained(function):
    """Makes a sentence of the words that a function finds for a refusal."""
    @functools.wraps(function)
    def sentence(reply, *given, **named):
        return None if reply.accepted else f"{reply.number} at {reply.place}: {function(reply, *given, **named)}"
    return sentence


# The table's author: 1 to 7.

@explained
def table(reply, table, names=None):
    """Why a table is refused, 1 to 7."""
    return _TABLE[reply.number](reply.place, table, names_of(names))


def _length(place, table, names):
    length = memoryview(table).nbytes
    if length == 0:
        return "there are no bytes, and a table has a record at least"
    if length > tables.MOST_BYTES:
        return f"{length:,} bytes are over {tables.MOST_BYTES:,}, which is {tables.MOST_RECORDS:,} records"
    return f"{length:,} bytes are no whole number of records, which have {tables.LENGTH} each"


_FIELDS = {tables.STOP: ("first",), tables.MESSAGE: ("first", "second", "tuple"), tables.RECEIVE: ("first", "second", "tuple"),
           tables.WAIT: ("interval",), tables.DELIMITATION: ("first",)}
_SETS = {(tables.STOP, "first"): (LABEL,), (tables.RECEIVE, "first"): (VALUE,), (tables.RECEIVE, "second"): (VALUE,),
         (tables.DELIMITATION, "first"): (VALUE, VARIABLE, LABEL)}


def _atoms_of(record):
    """The atoms that a record uses, each with its field and what that is called."""
    used = _FIELDS.get(record.kind, ())
    found = [(field, f"the {field} atom", getattr(record, field)) for field in ("first", "second") if field in used]
    return found + [("tuple", f"slot {SLOTS[i]}", atom) for i, atom in enumerate(record.contents) if "tuple" in used]


def _unused(record):
    """What a record does not use and is not zero."""
    used = _FIELDS.get(record.kind, ())
    for field in ("first", "second", "interval"):
        if field not in used and getattr(record, field):
            return f"the {'interval' if field == 'interval' else field + ' atom'}"
    if "tuple" not in used and record.count:
        return "the tuple count"
    slots = enumerate(record.slots)
    return next((f"slot {SLOTS[i]}" for i, atom in slots if atom and ("tuple" not in used or i >= record.count)), None)


def _record(place, table, names):
    record = tables.records(table)[place]
    if record.kind >= len(tables.KINDS):
        return f"the record has the unknown kind {record.kind}"
    name = f"a {tables.KINDS[record.kind]}"
    if record.count > 4:
        return f"the record, {name}, has a tuple count of {record.count}, and 4 is the most"
    for field, what, atom in _atoms_of(record):
        wanted = _SETS.get((record.kind, field), (VALUE, VARIABLE))
        if set_of(atom) not in wanted:
            is_now = "0, which is no atom" if atom == 0 else f"{names.spell(atom)}, a {set_of(atom)}"
            return f"{what} of the record, {name}, is {is_now}; it must be a {' or a '.join(wanted)}"
    unused = _unused(record)
    if unused:
        return f"{name} does not use {unused} of its record, and that is not zero"
    twice = next(a for i, a in enumerate(record.contents) if a in record.contents[:i] and set_of(a) == VARIABLE)
    return f"the pattern of the receive {activity(record, names)} has the variable {names.spell(twice)} twice"


def _shape(place, table, names):
    found = tables.records(table)[:place]
    wanting = tables.Nesting([tables.CHILDREN[record.kind] for record in found]).wanting
    if not wanting:
        return f"the term ends with the record at {place - 1}, and the record at {place} is one over"
    above, lacks = wanting[-1]
    kind = found[above].kind
    return f"the records end, and the {tables.KINDS[kind]} at {above} lacks {'its children' if lacks == 2 else 'a child'}"


def _deep(place, table, names):
    whole = Table(table)
    alone = all(whole.records[above].kind == tables.PARALLEL for above in whole.way(place))
    return (f"{phrase(whole, place, names)} has depth {whole.depths[place]}, and {tables.MOST_DEPTH} is the most"
            + ("; every | makes what stands behind it deeper, unless brackets part them into groups" if alone else ""))


def _guard(place, table, names):
    whole = Table(table)
    return (f"{phrase(whole, place, names)} is a child of {phrase(whole, whole.above[place], names)}, "
            "which chooses between nils, receives, waits and choices only")


def _outside(whole, place, atom, names):
    """An atom that a record uses outside its delimitation."""
    delimited = whole.delimitation(atom)
    return (f"{names.spell(atom)} in {phrase(whole, place, names)} is a {set_of(atom)} outside every delimitation of it: "
            + ("it has none" if delimited is None else f"the first is at {delimited}"))


def _scope(place, table, names):
    whole = Table(table)
    atom = next(a for a in whole.records[place].uses() if set_of(a) != VALUE and whole.scope(place, a) is None)
    return _outside(whole, place, atom, names)


def _clash(place, table, names):
    whole = Table(table)
    record = whole.records[place]
    if record.kind == tables.DELIMITATION:
        return f"{phrase(whole, place, names)} is the second of its atom; the first is at {whole.delimitation(record.first)}"
    atom = next(a for a in record.uses() if whole.delimitation(a) is not None and whole.scope(place, a) is None)
    return _outside(whole, place, atom, names)


_TABLE = {1: _length, 2: _record, 3: _shape, 4: _deep, 5: _guard, 6: _scope, 7: _clash}


# The proposer of a move, and the lender of the output: 10 to 21.

@explained
def step(reply, table, move, names=None, room=tables.MOST_BYTES):
    """Why a step is refused: the table's refusals, and 10 to 21. `room` is the length of the output that was lent."""
    names = names_of(names)
    if reply.number in _TABLE:
        return _TABLE[reply.number](reply.place, table, names)
    move = bytes(move)
    if reply.number == 10:
        return _no_move(move)
    if reply.number == 21:
        return _no_room(calls.step(bytes(table), move).records, room)
    kind, _, a, b = struct.unpack("<BBHH", move)
    return _MOVE[reply.number](tables.whole(table), kind, a, b, reply.place, names)


def _no_room(records, room):
    return f"the output has {room:,} bytes, and the result takes {tables.LENGTH * records:,}"


def _no_move(move):
    if len(move) != MOVE:
        return f"a move has 6 bytes, and this has {len(move)}"
    kind, zero, _, b = struct.unpack("<BBHH", move)
    if kind >= len(KINDS):
        return f"there is no kind {kind} of move: they are 0 to 5"
    if zero:
        return f"the second byte of a move is 0, and this is {zero}"
    return f"only a meeting has a b, and in this {KINDS[kind]} it is {b}"


# The kind of record that each kind of move wants at a.
_WANTED = {STOP: tables.STOP, MEETING: tables.RECEIVE, EXPIRY: tables.WAIT, UNFOLDING: tables.REPLICATION, FLOATING: tables.DELIMITATION}


def _not_there(table, place, wanted, names):
    """Why no live record of a kind stands at a place; None if one does."""
    if place >= len(table):
        return f"there is no record at {place}: the table has {len(table)}"
    record = table.records[place]
    if record.kind != wanted:
        return f"{phrase(table, place, names)} is no {tables.KINDS[wanted]}"
    if table.live[place]:
        return None
    barrier = next(above for above in table.way(place) if table.live[above] and table.records[above].kind not in tables.LIVE)
    within = "inside" if table.records[barrier].kind == tables.REPLICATION else "behind"
    return f"{phrase(table, place, names)} is not live: it stands {within} {phrase(table, barrier, names)}"


def _absent(table, kind, a, b, place, names):
    return _not_there(table, a, _WANTED[kind], names) or _not_there(table, b, tables.MESSAGE, names)


def _differs(table, kind, a, b, place, names):
    receive, message = table.records[a], table.records[b]
    said = f"{phrase(table, b, names)} does not fit {phrase(table, a, names)}: "
    if place == 0:
        unset = next(atom for atom in message.uses() if set_of(atom) == VARIABLE)
        return f"{said}its variable {names.spell(unset)} is not set"
    if place == 1:
        return f"{said}another endpoint"
    if place == 2:
        return f"{said}{message.count} sent, and {receive.count} wanted"
    sent, wanted = message.contents[place - 3], receive.contents[place - 3]
    return f"{said}in slot {SLOTS[place - 3]} {names.spell(sent)} is sent, and {names.spell(wanted)} wanted"


def _apart(table, kind, a, b, place, names):
    receive, message = table.records[a], table.records[b]
    bound = [(x, v) for x, v in zip(receive.contents, message.contents) if set_of(x) == VARIABLE]
    for x, _ in bound:
        scope = table.scope(a, x)
        if not table.inside(b, scope):
            return (f"{phrase(table, scope, names)}, whose variable {phrase(table, a, names)} binds, "
                    f"does not enclose {phrase(table, b, names)}")
    for x, v in bound:
        scope, value = table.scope(a, x), table.scope(b, v)
        if value is not None and not table.inside(scope, value):
            return (f"{phrase(table, value, names)}, whose value {phrase(table, b, names)} sends, "
                    f"does not enclose {phrase(table, scope, names)}")


def _held(table, kind, a, b, place, names):
    party = a if table.inside(a, place) else b
    label = table.records[place].first
    stop = next(at for at in range(place, table.ends[place])
                if table.records[at].kind == tables.STOP and table.records[at].first == label and table.ready[at])
    return f"{phrase(table, stop, names)} is ready, and its {activity(table.records[place], names)} at {place} encloses {phrase(table, party, names)}"


def _looser(table, kind, a, b, place, names):
    return f"{phrase(table, place, names)} is ready, fits the same message and binds fewer variables"


def _unripe(table, kind, a, b, place, names):
    return f"{phrase(table, a, names)} cannot expire before it is down to 0"


def _no_time(table, kind, a, b, place, names):
    return "a time of 0 is no time"


def _stuck(table, kind, a, b, place, names):
    """Above a live delimitation stands a parallel, a protection or a delimitation, so the root is the only other cause."""
    if set_of(table.records[a].first) == LABEL:
        return f"{phrase(table, a, names)} is that of a label, which does not float"
    return f"{phrase(table, a, names)} is the root, and there is nothing to float over"


def _large(table, kind, a, b, place, names):
    if kind == UNFOLDING:
        body = table.ends[a] - a - 1
        if len(table) + body + 1 > tables.MOST_RECORDS:
            return (f"unfolding {phrase(table, a, names)} adds {body + 1} records; "
                    f"that makes {len(table) + body + 1:,}, and {tables.MOST_RECORDS:,} is the most")
        return (f"unfolding {phrase(table, a, names)} makes a depth of {table.depths[a] + table.height(a)}, "
                f"and {tables.MOST_DEPTH} is the most")
    above = table.above[a]
    return (f"when {phrase(table, a, names)} floats over {phrase(table, above, names)}, that comes to stand inside it "
            f"and the depth passes {tables.MOST_DEPTH}")


_MOVE = {11: _absent, 12: _differs, 13: _apart, 14: _held, 15: _looser, 16: _unripe, 17: _no_time, 18: _stuck, 20: _large}


def move(table, move, names=None):
    """What a move that can be made does, in words."""
    table, names = tables.whole(table), names_of(names)
    if move.kind == TIME:
        return f"time goes on by {move.a}"
    party = phrase(table, move.a, names)
    if move.kind == MEETING:
        return f"{phrase(table, move.b, names)} meets {party}"
    if move.kind == FLOATING:
        return f"{party} floats over {phrase(table, table.above[move.a], names)}"
    return f"{party} {('fires', '', 'expires', '', 'unfolds')[move.kind]}"


# The whole of a list, the list of open moves, a clock, joint stops.

@explained
def play(reply, table, moves, names=None, room=tables.MOST_BYTES, space=0):
    """Why a play is refused as a whole: the table's refusals, 19 and 21."""
    if reply.number in _TABLE:
        return _TABLE[reply.number](reply.place, table, names_of(names))
    length = memoryview(moves).nbytes
    if reply.number == 19:
        return f"{length:,} bytes of moves are over {MOST_MOVES:,}, which is {MOST_MOVES // MOVE:,} moves"
    if room < tables.MOST_BYTES:
        return f"the output has {room:,} bytes, and a play takes {tables.MOST_BYTES:,}"
    return f"the replies have {space:,} bytes, and six for each move are {length - length % MOVE:,}"


@explained
def open_moves(reply, table, names=None, room=0):
    """Why a list of open moves is refused: the table's refusals and 22."""
    if reply.number in _TABLE:
        return _TABLE[reply.number](reply.place, table, names_of(names))
    return f"the list has {room:,} bytes, and what is open takes {MOVE * reply.place:,}, six for each move"


@explained
def ticks(reply, table, earlier, later, names=None, room=tables.MOST_BYTES):
    """Why ticks are refused: the table's refusals, 23, 24 and 21."""
    if reply.number in _TABLE:
        return _TABLE[reply.number](reply.place, table, names_of(names))
    if reply.number == 21:
        return _no_room(len(tables.records(table)), room)
    passed = (later - earlier) % (1 << 32)
    if reply.number == 23:
        return f"from {earlier} to {later} it is {passed:,} ticks: the clock has gone back"
    return f"from {earlier} to {later} it is {passed:,} ticks, and 65,535 is the most that one time move lets pass"


@explained
def joint(reply, table, stops, names=None, room=tables.MOST_BYTES):
    """Why joint stops are refused: the table's refusals, 25, 11, 26 and 21."""
    names, stops = names_of(names), list(stops)
    if reply.number in _TABLE:
        return _TABLE[reply.number](reply.place, table, names)
    if reply.number == 25:
        return f"{f'{len(stops)} stops are' if stops else 'no stop is'} listed, and a joint step has one to eight"
    if reply.number == 21:
        return _no_room(calls.joint(table, stops).records, room)
    whole = Table(table)
    if reply.number == 11:
        return _not_there(whole, reply.place, tables.STOP, names)
    return _scopes(whole, stops, reply.place, names)


def _scopes(table, stops, place, names):
    """With which listed stop the one at a place clashes."""
    if stops.count(place) > 1:
        return f"{phrase(table, place, names)} is listed twice"
    scopes = {stop: table.scope(stop, table.records[stop].first) for stop in stops}
    mine = scopes[place]
    other = next(stop for stop in stops if stop != place and (scopes[stop] == mine or table.inside(mine, scopes[stop])
                                                              or table.inside(scopes[stop], mine)))
    theirs = scopes[other]
    how = "is" if theirs == mine else "lies inside" if table.inside(mine, theirs) else "holds"
    return (f"the scope of {phrase(table, place, names)}, which begins at {mine}, {how} that of "
            f"{phrase(table, other, names)}, which begins at {theirs}")


# The author of an Orc script: 30 to 32, then 20 and 21.

@explained
def orc(reply, script, partner, operation, names=None, room=tables.MOST_BYTES):
    """Why a script is refused: 30 to 32, 20 and 21."""
    if reply.number == 20:
        return "the script's table has over 2,048 records or a depth over 256"
    if reply.number == 21:
        return _no_room(calls.orc(script, partner, operation).records, room)
    return scripts.words(reply.number, reply.place, script, partner, operation, names_of(names))
