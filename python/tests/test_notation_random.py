"""The notation on random tables and texts: printer and reader agree both ways, and any text is read or refused."""

import pytest

import generate
import wigandoy
from agreement import agree, some_names
from wigandoy import atoms, reading, tables
from wigandoy.tables import Record

hypothesis = pytest.importorskip("hypothesis")
given, settings, st = hypothesis.given, hypothesis.settings, hypothesis.strategies


def loosely(rng, text):
    """The same text with comments, ends of lines and brackets that change nothing."""
    out = []
    for part in text.split(" "):
        out += [part, rng.choice((" ", "  ", "\n", "\t", " # so\n"))]
    return "(" + "".join(out) + ")"


@settings(max_examples=300, deadline=None)
@given(st.randoms(use_true_random=False))
def test_printer_and_reader_agree(rng):
    table = generate.table(rng, 25)
    assert wigandoy.check(table).accepted
    agree(table, some_names(rng, table))


@settings(max_examples=150, deadline=None)
@given(st.randoms(use_true_random=False))
def test_space_comments_and_brackets_change_nothing(rng):
    table = generate.table(rng, 20)
    assert reading.read(loosely(rng, wigandoy.term(table))).table == table


@settings(max_examples=500, deadline=None)
@given(st.lists(st.sampled_from(["0", "kill", "(", ")", "{|", "|}", "[", "]", "p", "o", "x", "x0", "v1", "5", ".", "!", "?", "<", ">", ",", "|",
                                 "+", "*", "wait", " ", "\n", "⟦", "⟧", "⊖", "·", "⟨", "⟩"]), max_size=25))
def test_any_text_is_read_or_refused(parts):
    try:
        read = reading.read("".join(parts))
    except wigandoy.NotationError as wrong:
        assert 1 <= wrong.line and 1 <= wrong.column
        return
    assert len(read.places) == len(read.table) // 16
    if wigandoy.check(read.table).accepted:
        agree(read.table, read.names)


@settings(max_examples=200, deadline=None)
@given(st.text(max_size=30))
def test_any_characters_are_read_or_refused(text):
    for call in (reading.read, wigandoy.read_names, wigandoy.read_moves):
        try:
            call(text)
        except wigandoy.NotationError as wrong:
            str(wrong)


@settings(max_examples=300, deadline=None)
@given(st.from_regex(r"[^\W\d]\w{0,3}", fullmatch=True).filter(atoms.is_name), st.sampled_from((1, 5, 32768, 49152)))
def test_any_name_is_read_as_its_atom(name, atom):
    names = atoms.Names({name: atom})
    assert wigandoy.read_names(names.text()) == names
    agree(bytes(Record(tables.DELIMITATION, first=atom)) + bytes(Record(tables.NIL)), names)
