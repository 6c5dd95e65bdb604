"""Atoms: the three sets of document 01, the words for atoms without a name, and names for those that have one."""

import re

from .errors import NotationError
from .source import Source, number

VALUE, VARIABLE, LABEL = "value", "variable", "label"
# The first and the last atom of each set, the letter of its words and the number that the first atom's word carries.
SETS = {VALUE: (1, 32767, "v", 1), VARIABLE: (32768, 49151, "x", 0), LABEL: (49152, 65535, "k", 0)}
KEYWORDS = ("kill", "wait")
_WORD = re.compile(r"([vxk])([0-9]+)\Z")
_NAME = re.compile(r"[^\W\d]\w*\Z")


def set_of(atom):
    """The set of an atom from 1 to 65535; None of 0, which is no atom."""
    for name, (first, last, _, _) in SETS.items():
        if first <= atom <= last:
            return name
    return None


def word(atom):
    """The word of an atom: v5 is value 5, x0 the first variable, 32768, and k0 the first label, 49152."""
    first, _, letter, least = SETS[set_of(atom)]
    return f"{letter}{atom - first + least}"


def is_word(text):
    """Whether a text has the form of an atom's word, and so can be no name."""
    return _WORD.match(text) is not None


def atom(text):
    """The atom of a word; a ValueError says why there is none."""
    letter, digits = _WORD.match(text).groups()
    for name, (first, last, initial, least) in SETS.items():
        if initial == letter:
            most = last - first + least
            found = number(digits, most)
            if found is None or found < least or str(found) != digits:
                raise ValueError(f"{text} is no atom: the {name}s are {letter}{least} to {letter}{most}")
            return found - least + first


def is_name(text):
    """Whether a text can name an atom: letters, digits and underscores, no digit first, that are no keyword and no atom's word."""
    return _NAME.match(text) is not None and text not in KEYWORDS and not is_word(text)


class Names:
    """Names of atoms, one for each atom and one atom for each."""

    def __init__(self, atoms=()):
        self.atoms, self.names = {}, {}
        for name, atom in dict(atoms).items():
            self.add(name, atom)

    def add(self, name, atom):
        """Names an atom; a ValueError says why that cannot be."""
        if not is_name(name):
            raise ValueError(f"{name} can be no name: it has other signs than letters and digits, or means something else")
        if set_of(atom) is None:
            raise ValueError(f"{atom} is no atom: they are 1 to 65535")
        if name in self.atoms:
            raise ValueError(f"{name} has an atom already, {word(self.atoms[name])}")
        if atom in self.names:
            raise ValueError(f"{word(atom)} has a name already, {self.names[atom]}")
        self.atoms[name], self.names[atom] = atom, name

    def spell(self, atom):
        """An atom's name, or its word if it has none."""
        return self.names.get(atom) or word(atom)

    def without(self, atoms):
        """These names but for those of some atoms."""
        return Names({name: atom for name, atom in self.atoms.items() if atom not in atoms})

    def text(self):
        """The names as a names file, in the order of the atoms."""
        return "".join(f"{self.names[atom]} {atom}\n" for atom in sorted(self.names))

    def __eq__(self, other):
        return isinstance(other, Names) and self.atoms == other.atoms

    def __repr__(self):
        return f"Names({self.atoms})"


def names_of(names):
    """Names, where a caller may give a dict of them or nothing."""
    return names if isinstance(names, Names) else Names(names or ())


def read_names(text, name="<names>"):
    """The names of a names file: a line has a name and the number of its atom, or its word; `#` opens a comment."""
    source, names = Source(text, name), Names()
    for start, line in source.lines():
        found = list(source.words(start, line))
        if not found:
            continue
        if len(found) != 2:
            raise NotationError(source, found[0][0], "a line has a name and a number")
        (at, given), (then, which) = found
        if number(which) is None and not is_word(which):
            raise NotationError(source, then, f"the number of an atom is wanted here, not {which}")
        try:
            numbered = atom(which) if is_word(which) else number(which)
        except ValueError as wrong:
            raise NotationError(source, then, str(wrong)) from None
        if set_of(numbered) is None:
            raise NotationError(source, then, f"{numbered} is no atom: they are 1 to 65535")
        try:
            names.add(given, numbered)
        except ValueError as wrong:
            raise NotationError(source, at, str(wrong)) from None
    return names
