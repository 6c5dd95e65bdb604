"""Scripts: the records of an Orc script, and what is wrong with one."""

import struct
from typing import NamedTuple

from .atoms import VALUE, VARIABLE, set_of
from .tables import Nesting

LENGTH, MOST_RECORDS, MOST_DEPTH = 8, 512, 64
CALL, SEQUENCE, WHERE = 1, 2, 4
KINDS = ("nothing", "site call", "sequence", "parallel", "where")
PARTS = (0, 0, 2, 2, 2)


class Entry(NamedTuple):
    """A record of a script."""
    kind: int
    zero: int
    atom: int
    partner: int
    operation: int


def entries(script):
    """The records of a script's bytes, whatever they hold."""
    view = memoryview(script).cast("B")
    return [Entry(*each) for each in struct.iter_unpack("<BBHHH", view[:len(view) - len(view) % LENGTH])]


def words(number, place, script, partner, operation, names):
    """Why a script is refused with 30, 31 or 32."""
    found = entries(script)
    if number == 31:
        return _nesting(found, place)
    if number == 32:
        return _binding(found, place, names)
    length = memoryview(script).nbytes
    if length == 0:
        return "there are no bytes, and a script has a record at least"
    if length > LENGTH * MOST_RECORDS:
        return f"{length:,} bytes are over {LENGTH * MOST_RECORDS:,}, which is {MOST_RECORDS} records"
    if length % LENGTH:
        return f"{length:,} bytes are no whole number of records, which have {LENGTH} each"
    for what, atom in (("partner", partner), ("operation", operation)):
        if set_of(atom) != VALUE:
            return f"the {what} of the result endpoint is {_spelled(atom, names)}, and must be a value"
    return _entry(found[place], names)


def _spelled(atom, names):
    return f"{names.spell(atom)}, a {set_of(atom)}" if atom else "0, which is no atom"


def _entry(entry, names):
    if entry.kind >= len(KINDS):
        return f"the record has the unknown kind {entry.kind}"
    name = f"the record, a {KINDS[entry.kind]},"
    if entry.zero:
        return f"the second byte of {name} is {entry.zero}, and must be 0"
    wanted = {CALL: (VALUE, VARIABLE), SEQUENCE: (VARIABLE,), WHERE: (VARIABLE,)}.get(entry.kind)
    if wanted is None and entry.atom or entry.kind != CALL and (entry.partner or entry.operation):
        return f"{name} has a field that it does not use and that is not zero"
    if wanted and set_of(entry.atom) not in wanted:
        return f"the atom of {name} is {_spelled(entry.atom, names)}, and must be a {' or a '.join(wanted)}"
    what, atom = ("partner", entry.partner) if set_of(entry.partner) != VALUE else ("operation", entry.operation)
    return f"the {what} of {name} is {_spelled(atom, names)}, and must be a value"


def _nesting(found, place):
    if place == len(found):
        return "the records end before the expression does"
    nesting = Nesting([PARTS[entry.kind] for entry in found])
    if nesting.above[place] is None:
        return f"the expression ends with the record at {place - 1}, and the record at {place} is one over"
    return f"the {KINDS[found[place].kind]} at {place} has depth {MOST_DEPTH + 1}, and {MOST_DEPTH} is the most"


def _binding(found, place, names):
    entry, binders = found[place], (SEQUENCE, WHERE)
    if entry.kind in binders:
        first = next(at for at, other in enumerate(found) if other.kind in binders and other.atom == entry.atom)
        return f"the {KINDS[entry.kind]} at {place} binds {names.spell(entry.atom)} a second time; the first is at {first}"
    return f"the site call at {place} uses {names.spell(entry.atom)} outside the scope of a sequence or a where that binds it"
