"""Agreement: that the printer and the reader of terms agree on a table."""

import wigandoy
from wigandoy import atoms, reading, tables


def some_names(rng, table):
    """Names for some of a table's atoms."""
    used = {atom for each in tables.records(table) for atom in (*each.uses(), *each.endpoint) if atom}
    names = atoms.Names()
    for atom in sorted(used):
        if rng.random() < 0.5:
            names.add(f"{rng.choice(('n', 'moon', 'é', 'x_', '_'))}{'abcdefghij'[atom % 10]}{atom}a", atom)
    return names


def agree(table, names):
    """A table printed and read is the same bytes, in both forms, by its names and without; and printed again the same text."""
    for signs in (False, True):
        text = wigandoy.term(table, names, signs)
        read = reading.read(text, names)
        assert read.table == table and wigandoy.term(read.table, read.names, signs) == text
        assert reading.read(wigandoy.term(table, signs=signs)).table == table
