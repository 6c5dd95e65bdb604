"""The notation: what texts say, that printer and reader agree on large tables, names, moves, and errors."""

import random
import struct

import pytest

import generate
import wigandoy
from agreement import agree, some_names
from wigandoy import reading, tables
from wigandoy.tables import Record

NIL = bytes(Record(0))


def record(*fields, **named):
    return bytes(Record(*fields, **named))


@pytest.mark.parametrize("text, expected", [
    ("0", NIL),
    ("kill(k3)", record(1, first=49155)),
    ("v1.v2!<>", record(2, 0, 1, 2)),
    ("7.8!<5, x1>", record(2, 2, 7, 8, (5, 32769, 0, 0))),
    ("1.2?<3>", record(3, 1, 1, 2, (3, 0, 0, 0)) + NIL),
    ("1.2?<3>.0", record(3, 1, 1, 2, (3, 0, 0, 0)) + NIL),
    ("1·2?⟨3⟩.kill(k0)", record(3, 1, 1, 2, (3, 0, 0, 0)) + record(1, first=49152)),
    ("wait 4", record(4, interval=4) + NIL),
    ("⊖4.1.2!<>", record(4, interval=4) + record(2, 0, 1, 2)),
    ("wait 0. wait 65535. 0", record(4) + record(4, interval=65535) + NIL),
    ("0 + 0", record(5) + NIL * 2),
    ("0 | 0 | 0", record(6) + NIL + record(6) + NIL * 2),
    ("(0 | 0) | 0", record(6) * 2 + NIL * 3),
    ("0 + 0 + 0", record(5) + NIL + record(5) + NIL * 2),
    ("0 | 0 + 0", record(6) + NIL + record(5) + NIL * 2),
    ("0 + 0 | 0", record(6) + record(5) + NIL * 3),
    ("*0 | 0", record(6) + record(9) + NIL * 2),
    ("*(0 | 0)", record(9) + record(6) + NIL * 2),
    ("[v9][x9][k9]0", record(8, first=9) + record(8, first=32777) + record(8, first=49161) + NIL),
    ("[v9, x9]0 | 0", record(6) + record(8, first=9) + record(8, first=32777) + NIL * 2),
    ("{|0|}", record(7) + NIL),
    ("{| 0 | 0 |}", record(7) + record(6) + NIL * 2),
    ("⟦*⟦0⟧⟧", record(7) + record(9) + record(7) + NIL),
    ("wait 1. 0 + 1.2?<>. 0 | 0", record(6) + record(5) + record(4, interval=1) + NIL + record(3, 0, 1, 2) + NIL + NIL),
    ("# a night\n0 # of nothing\n", NIL),
])
def test_texts(text, expected):
    assert reading.read(text).table == expected


@pytest.mark.parametrize("text, names", [
    ("[x]p.o?<x>.0 | p.o!<v>", {"x": 32768, "p": 1, "o": 2, "v": 3}),
    ("[k](kill(k) | p.o!<>)", {"k": 49152, "p": 1, "o": 2}),
    ("[n]p.o!<n>", {"n": 1, "p": 2, "o": 3}),
    ("[n]n.o?<n>.0", {"n": 1, "o": 2}),
    ("p.o?<v>.0", {"p": 1, "o": 2, "v": 3}),
    ("[x][y](p.o?<y, x>.x.y!<>)", {"x": 32768, "y": 32769, "p": 1, "o": 2}),
    ("p.o!<v2, 3>", {"p": 1, "o": 4}),
    ("[x](p.o?<x>.p.o!<x0>)", {"x": 32769, "p": 1, "o": 2}),
    ("[été]p.ö?<été>", {"été": 32768, "p": 1, "ö": 2}),
])
def test_names_get_the_atoms_that_their_use_asks_for(text, names):
    assert reading.read(text).names.atoms == names


def test_fixed_names():
    fixed = wigandoy.read_names("# the dome\ndome 17\nmoon x3\n\np 2 # a partner\n")
    assert fixed.atoms == {"dome": 17, "moon": 32771, "p": 2}
    read = reading.read("[moon](p.dome?<moon> | q.r!<s>)", fixed)
    assert read.names.atoms == {**fixed.atoms, "q": 1, "r": 3, "s": 4}
    assert wigandoy.read_names(read.names.text()) == read.names
    assert fixed.atoms == {"dome": 17, "moon": 32771, "p": 2}


@pytest.mark.parametrize("text, line, column, message", [
    ("dome", 1, 1, "a line has a name and a number"), ("dome 1\ndome 2", 2, 1, "has an atom already"),
    ("a 1\n b 1", 2, 2, "has a name already, a"), ("a 0", 1, 3, "is no atom"), ("a 65536", 1, 3, "the number of an atom"),
    ("v5 5", 1, 1, "can be no name"), ("kill 5", 1, 1, "can be no name"), ("a-b 5", 1, 1, "can be no name"), ("a·b 5", 1, 1, "can be no name"), ("a x99999", 1, 3, "is no atom")])
def test_wrong_names_files(text, line, column, message):
    with pytest.raises(wigandoy.NotationError, match=message) as caught:
        wigandoy.read_names(text)
    assert (caught.value.line, caught.value.column) == (line, column)


@pytest.mark.parametrize("text, line, column, message", [
    ("", 1, 1, "a term is wanted here, and the text ends"),
    ("# only a comment", 1, 17, "a term is wanted"),
    ("0 0", 1, 3, r"\| or \+ or the end is wanted here, not 0"),
    ("0 |\n  ", 2, 3, "a term is wanted"),
    ("(0", 1, 1, r"\( is not closed"),
    ("{| (0 |}", 1, 7, r"closes nothing here; \( is still open"),
    ("0)", 1, 2, "closes nothing here"),
    ("p", 1, 2, "between partner and operation"),
    ("p.", 1, 3, "an operation is wanted"),
    ("p.o", 1, 4, "! for a message"),
    ("p.o!v", 1, 5, "< is wanted here to open the tuple, not v"),
    ("p.o!<a b>", 1, 8, "a comma or > is wanted"),
    ("p.o!<a,>", 1, 8, "an atom is wanted"),
    ("p.o!<1,2,3,4,5>", 1, 14, "at most 4"),
    ("kill k", 1, 6, r"\( is wanted here behind kill"),
    ("kill(0)", 1, 6, "0 is no value"),
    ("kill(5)", 1, 6, "a label is wanted here, and 5 is a value"),
    ("[k](kill(k) |\n   k.o?<>)", 2, 4, "a value is wanted here, in the endpoint of a receive, and k is a label"),
    ("[k](kill(k) | p.o!<k>)", 1, 20, "a value or a variable is wanted here, and k is a label"),
    ("x0.o?<>", 1, 1, "and x0 is a variable"),
    ("v0.o!<>", 1, 1, "the values are v1 to v32767"), ("[x16384]0", 1, 2, "the variables are x0 to x16383"),
    ("[k01]0", 1, 2, "is no atom"), ("32768.1!<>", 1, 1, "is no value"), ("[]0", 1, 1, "a delimitation has an atom"),
    ("wait x. 0", 1, 6, "an interval"), ("wait 65536. 0", 1, 6, "an interval"), ("wait 99999", 1, 6, "an interval"),
    ("p.wait!<>", 1, 3, "an operation is wanted"), ("a;b", 1, 2, "';' is no sign"), ("é!", 1, 2, "between partner"),
    ("²", 1, 2, "between partner"),
    ("\t[x](p.o?<x> |\n\t\tp.q)", 2, 6, "! for a message")])
def test_wrong_texts(text, line, column, message):
    with pytest.raises(wigandoy.NotationError, match=message) as caught:
        reading.read(text, name="night.cows")
    wrong = caught.value
    assert (wrong.line, wrong.column) == (line, column)
    first, shown, caret = str(wrong).split("\n")
    assert first.startswith(f"night.cows:{line}:{column}: ") and shown == "    " + text.split("\n")[line - 1]
    assert caret.replace("\t", " ") == " " * (4 + column - 1) + "^"


@pytest.mark.parametrize("seed", range(25))
def test_printer_and_reader_agree_on_large_tables(seed):
    rng = random.Random(seed)
    table = generate.table(rng, 2048)
    agree(table, some_names(rng, table))


@pytest.mark.parametrize("seed", range(8))
def test_printer_and_reader_agree_at_the_limits(seed):
    table = generate.full_table(seed)
    assert wigandoy.check(table).records == 2048 and max(tables.Table(table).depths) == 256
    agree(table, some_names(random.Random(seed), table))


def test_deeper_than_a_table():
    assert reading.read("(" * 100_000 + "0" + ")" * 100_000).table == NIL
    deep = reading.read("*" * 50_000 + "0")
    assert wigandoy.check(deep.table).number == 1 and wigandoy.term(deep.table) == "*" * 50_000 + "0"


def test_moves_as_text():
    listed = wigandoy.read_moves("meeting 2 4 # first\n\nfloating 1\n3 65535\nkill 0\nexpiry 1 2\n9 1\n")
    assert [tuple(m) for m in struct.iter_unpack("<BBHH", listed)] == [
        (1, 0, 2, 4), (5, 0, 1, 0), (3, 0, 65535, 0), (0, 0, 0, 0), (2, 0, 1, 2), (9, 0, 1, 0)]
    split, tail = wigandoy.moves.split(listed + b"abc")
    assert tail == b"abc" and wigandoy.read_moves("\n".join(map(wigandoy.moves.words, split))) == listed


@pytest.mark.parametrize("text, line, column, message", [
    ("fly 1", 1, 1, "is no kind of move"), ("time 1\n stop x", 2, 7, "a number from 0"), ("meeting 1", 1, 1, "its receive and its message"),
    ("stop", 1, 1, "one number"), ("time 65536", 1, 6, "a number from 0"), ("stop 1 2 3", 1, 1, "one number")])
def test_wrong_moves(text, line, column, message):
    with pytest.raises(wigandoy.NotationError, match=message) as caught:
        wigandoy.read_moves(text)
    assert (caught.value.line, caught.value.column) == (line, column)


def test_long_digits_and_long_lines():
    with pytest.raises(wigandoy.NotationError, match="an interval") as caught:
        reading.read("wait " + "9" * 9999)
    assert len(str(caught.value).split("\n")[1]) < 300
    with pytest.raises(wigandoy.NotationError, match="or the end") as caught:
        reading.read("0 | " * 50_000 + "0 0")
    shown, caret = str(caught.value).split("\n")[1:]
    assert shown[caret.index("^")] == "0" and len(shown) < 300


def test_ends_of_lines_and_a_mark_at_the_start(tmp_path):
    (tmp_path / "night.cows").write_bytes("\ufeff[x]p.o?<x>.0 |\r\n  p.o!<v>\r\n".encode())
    assert wigandoy.files.table(tmp_path / "night.cows", wigandoy.Names())[0] == reading.read("[x]p.o?<x>.0 | p.o!<v>").table
    with pytest.raises(wigandoy.NotationError) as caught:
        reading.read("0 |\r\n0 0\r\n")
    assert str(caught.value).split("\n")[1:] == ["    0 0", "      ^"]


def test_names_may_be_a_dict():
    assert reading.read("p.o!<>", {"p": 7}).table == reading.read("7.1!<>").table
    assert wigandoy.term(reading.read("7.1!<>").table, {"p": 7}) == "p.v1!<>"
