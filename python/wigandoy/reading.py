"""Reading: from the text of a term to its table.

    0                      nil
    kill(k)                a stop
    p.o!<a, b>             a message                   p·o!⟨a, b⟩
    p.o?<a, x>.s           a receive; a trailing .0 may be left out
    wait 4. s              a wait                      ⊖4.s
    {| s |}                a protection                ⟦s⟧
    [x]s, [x, y]s          a delimitation, or two
    *s                     a replication
    s + t                  a choice
    s | t                  a parallel
    (s)                    as s; # opens a comment to the end of the line

What has one term behind it binds tightest, then choice, then parallel; both group to the right: s | t | u is s | (t | u).

An atom is a name, a word (v5, x0, k0) or the number of a value. A name is one atom throughout. It is a label if it is killed;
a value if it is an endpoint of a receive; a variable if it is delimited and stands in the pattern of a receive; else a value.
Names get the smallest free atoms of their sets in the order in which they appear; free are those that no names file fixes and that
are not written as words or numbers.

Nothing here calls itself, so a term may be as deep as memory lasts; the limits are the stepper's to judge.
"""

import re
from dataclasses import dataclass, field

from . import atoms, tables
from .errors import NotationError
from .source import Source, number
from .tables import Record

_TOKEN = re.compile(r"(?P<space>(?:\s|#[^\n]*)+)|(?P<word>\w+)|(?P<sign>\{\||\|\}|[][()<>.,!?*+|·⟨⟩⟦⟧⊖])")
_SIGNS = {"·": ".", "⟨": "<", "⟩": ">", "⟦": "{|", "⟧": "|}", "⊖": "wait"}
_CLOSING = {"(": ")", "{|": "|}"}
_BINDS = {"|": 1, "+": 2}
_END = ""


@dataclass(slots=True)
class Node:
    """A record to be, with the place in the text where it begins. Its atoms are still texts."""
    place: int
    kind: int
    first: tuple | None = None
    second: tuple | None = None
    contents: tuple = ()
    interval: int = 0
    children: list = field(default_factory=list)


@dataclass(frozen=True, slots=True)
class Reading:
    """What a text says: the table, the names of its atoms, and where each record begins in the text."""
    table: bytes
    names: atoms.Names
    source: Source
    places: tuple

    def error(self, place, message):
        """An error that points to a record."""
        return NotationError(self.source, self.places[place] if place < len(self.places) else len(self.source.text.rstrip()), message)


class _Tokens:
    """The tokens of a text, one looked at at a time: its sign or word, and its place."""

    def __init__(self, source):
        self.source, self.at, self.sign, self.place, self.is_word = source, 0, _END, 0, False
        self.take()

    def take(self):
        """Goes on to the next token, and returns the one before."""
        before = self.sign, self.place
        text, found = self.source.text, _TOKEN.match(self.source.text, self.at)
        while found and found.lastgroup == "space":
            self.at = found.end()
            found = _TOKEN.match(text, self.at)
        self.place = self.at
        if found is None and self.at < len(text):
            raise self.error(f"{text[self.at]!r} is no sign of the notation")
        self.sign = _SIGNS.get(found[0], found[0]) if found else _END
        self.is_word = found is not None and found.lastgroup == "word" and found[0] not in atoms.KEYWORDS
        self.at = found.end() if found else self.at
        return before

    def error(self, message, place=None):
        return NotationError(self.source, self.place if place is None else place, message)

    def want(self, sign, what):
        """Goes on past a sign that must stand here."""
        if self.sign != sign:
            raise self.error(f"{sign} is wanted here{what}{self.instead()}")
        self.take()

    def instead(self):
        return ", and the text ends" if self.sign == _END else f", not {self.sign}"

    def atom(self, what):
        """An atom's text and its place."""
        if not self.is_word:
            raise self.error(f"{what} is wanted here{self.instead()}")
        return self.take()

    def number(self, what, most):
        """A number up to `most`."""
        found = number(self.sign, most)
        if found is None:
            raise self.error(f"{what}, a number from 0 to {most}, is wanted here{self.instead()}")
        self.take()
        return found


def _atoms_between(tokens, closing, what, most):
    """Atoms with commas between them, up to a closing sign."""
    found = []
    while tokens.sign != closing:
        if found and tokens.sign != ",":
            raise tokens.error(f"a comma or {closing} is wanted here{tokens.instead()}")
        if found:
            tokens.take()
        if len(found) == most:
            raise tokens.error(f"there are at most {most} atoms here")
        found.append(tokens.atom(what))
    tokens.take()
    return tuple(found)


def _activity(tokens):
    """A message, or a receive without what comes behind it."""
    first = tokens.atom("a term")
    tokens.want(".", " between partner and operation")
    second = tokens.atom("an operation")
    if tokens.sign not in ("!", "?"):
        raise tokens.error(f"! for a message or ? for a receive is wanted here{tokens.instead()}")
    kind = tables.MESSAGE if tokens.take()[0] == "!" else tables.RECEIVE
    tokens.want("<", " to open the tuple")
    return Node(first[1], kind, first, second, _atoms_between(tokens, ">", "an atom", 4))


def _goes_on(tokens, node, pending):
    """A receive or a wait: what comes behind its dot is still to be read; without a dot it is nil, and the term is whole."""
    if tokens.sign == ".":
        tokens.take()
        pending.append(("prefix", node))
        return None
    node.children.append(Node(node.place, tables.NIL))
    return node


def _begin(tokens, pending):
    """Reads from where a term must begin to the end of a whole term, which is returned, or to where the next must begin."""
    sign, place = tokens.sign, tokens.place
    if sign == "0":
        tokens.take()
        return Node(place, tables.NIL)
    if sign == "kill":
        tokens.take()
        tokens.want("(", " behind kill")
        label = tokens.atom("a label")
        tokens.want(")", " behind the label")
        return Node(place, tables.STOP, label)
    if sign == "wait":
        tokens.take()
        node = Node(place, tables.WAIT, interval=tokens.number("an interval", 65535))
        return _goes_on(tokens, node, pending)
    if sign == "*":
        tokens.take()
        pending.append(("prefix", Node(place, tables.REPLICATION)))
    elif sign == "[":
        tokens.take()
        found = _atoms_between(tokens, "]", "the atom that is delimited", tables.MOST_RECORDS)
        if not found:
            raise tokens.error("a delimitation has an atom", place)
        for i, atom in enumerate(found):
            pending.append(("prefix", Node(atom[1] if i else place, tables.DELIMITATION, atom)))
    elif sign in _CLOSING:
        tokens.take()
        pending.append((sign, place))
    else:
        node = _activity(tokens)
        return node if node.kind == tables.MESSAGE else _goes_on(tokens, node, pending)
    return None


def _under_prefixes(node, pending):
    """A whole term put behind the prefixes that wait for it."""
    while pending and pending[-1][0] == "prefix":
        above = pending.pop()[1]
        above.children.append(node)
        node = above
    return node


def _joined(node, pending, least):
    """A whole term joined with the terms before it, by the signs between them that bind at least as tightly as `least`."""
    while pending and pending[-1][0] in _BINDS and _BINDS[pending[-1][0]] >= least:
        sign, place, left = pending.pop()
        node = Node(place, tables.PARALLEL if sign == "|" else tables.CHOICE, children=[left, node])
    return node


def _closed(tokens, node, pending):
    """A whole term with the bracket closed that it stands in."""
    node = _joined(node, pending, 1)
    if not pending or _CLOSING[pending[-1][0]] != tokens.sign:
        opened = "" if not pending else f"; {pending[-1][0]} is still open"
        raise tokens.error(f"{tokens.sign} closes nothing here{opened}")
    opening, place = pending.pop()
    tokens.take()
    return node if opening == "(" else Node(place, tables.PROTECTION, children=[node])


def _term(tokens):
    """The term of a whole text."""
    pending, node = [], None
    while True:
        while node is None:
            node = _begin(tokens, pending)
        node = _under_prefixes(node, pending)
        if tokens.sign in _BINDS:
            node = _joined(node, pending, _BINDS[tokens.sign] + 1)
            pending.append((tokens.sign, tokens.place, node))
            tokens.take()
            node = None
        elif tokens.sign in _CLOSING.values():
            node = _closed(tokens, node, pending)
        elif tokens.sign == _END:
            node = _joined(node, pending, 1)
            if pending:
                raise tokens.error(f"{pending[-1][0]} is not closed", pending[-1][1])
            return node
        else:
            raise tokens.error(f"| or + or the end is wanted here, not {tokens.sign}")


def _prefix_order(root):
    """The nodes of a term, each before its children, the left one first."""
    order, left = [], [root]
    while left:
        node = left.pop()
        order.append(node)
        left.extend(reversed(node.children))
    return order


def _uses(nodes):
    """Every atom that is written: what its use asks for, its text and its place, in the order of the text."""
    found = []
    for node in nodes:
        if node.kind == tables.STOP:
            found.append(("killed", *node.first))
        elif node.kind == tables.DELIMITATION:
            found.append(("delimited", *node.first))
        elif node.kind in (tables.MESSAGE, tables.RECEIVE):
            end, inner = ("endpoint", "pattern") if node.kind == tables.RECEIVE else ("sent", "sent")
            found += [(end, *node.first), (end, *node.second), *((inner, *atom) for atom in node.contents)]
    return sorted(found, key=lambda use: use[2])


# What a use asks for: the sets that an atom may be of there.
_ASKS = {"killed": (atoms.LABEL,), "endpoint": (atoms.VALUE,), "sent": (atoms.VALUE, atoms.VARIABLE),
         "pattern": (atoms.VALUE, atoms.VARIABLE), "delimited": (atoms.VALUE, atoms.VARIABLE, atoms.LABEL)}
_HERE = {"killed": "a label is wanted here", "endpoint": "a value is wanted here, in the endpoint of a receive",
         "sent": "a value or a variable is wanted here", "pattern": "a value or a variable is wanted here"}


def _set_asked(uses):
    """The set of a name, by all its uses."""
    if "killed" in uses:
        return atoms.LABEL
    if "endpoint" not in uses and "delimited" in uses and "pattern" in uses:
        return atoms.VARIABLE
    return atoms.VALUE


def _written(source, text, place):
    """The atom that a word or a number writes."""
    if text.isdecimal():
        if not number(text, 32767):
            raise NotationError(source, place, f"{text} is no value: they are 1 to 32767")
        return number(text)
    try:
        return atoms.atom(text)
    except ValueError as wrong:
        raise NotationError(source, place, str(wrong)) from None


def _assigned(source, uses, fixed):
    """The atom of each text, and the names with those that were fixed."""
    taken, asked, found = set(fixed.names), {}, {}
    for use, text, place in uses:
        if text.isdecimal() or atoms.is_word(text):
            found[text] = _written(source, text, place)
            taken.add(found[text])
        elif not atoms.is_name(text):
            raise NotationError(source, place, f"{text} is no name")
        else:
            asked.setdefault(text, set()).add(use)
    names = atoms.Names(fixed.atoms)
    after = {name: first for name, (first, _, _, _) in atoms.SETS.items()}
    for text, its in asked.items():
        if text not in names.atoms:
            chosen = _set_asked(its)
            while after[chosen] in taken:
                after[chosen] += 1
            if atoms.set_of(after[chosen]) != chosen:
                raise NotationError(source, len(source.text.rstrip()), f"there are more names of {chosen}s than {chosen}s")
            names.add(text, after[chosen])
            taken.add(after[chosen])
        found[text] = names.atoms[text]
    for use, text, place in uses:
        if atoms.set_of(found[text]) not in _ASKS[use]:
            raise NotationError(source, place, f"{_HERE[use]}, and {text} is a {atoms.set_of(found[text])}")
    return found, names


def read(text, names=None, name="<text>"):
    """Reads the text of a term, with names that are fixed beforehand. The table need not be well formed: see `wigandoy.check`."""
    source = Source(text, name)
    nodes = _prefix_order(_term(_Tokens(source)))
    found, names = _assigned(source, _uses(nodes), atoms.names_of(names))

    def atom(written):
        return found[written[0]] if written else 0

    table = b"".join(
        bytes(Record(node.kind, len(node.contents), atom(node.first), atom(node.second),
                     (*map(atom, node.contents), 0, 0, 0, 0)[:4], node.interval))
        for node in nodes)
    return Reading(table, names, source, tuple(node.place for node in nodes))
