"""The nights of document 01, as it says they go; 2026-04 changed N9's time."""

import pytest

import wigandoy
from wigandoy import calls

# For each night its records, and of each move answer, place and the records then kept; then the last term, as the paper has it.
NIGHTS = {
    "N1": (5, [(0, 0, 3)], "0 | 0"),
    "N2": (8, [(15, 6, 8), (0, 0, 7)], "[x](0 | (p.o?<x>.0 | 0))"),
    "N3": (9, [(15, 7, 9), (11, 7, 9)], "[x](p.o!<v> | (p.o?<x>.0 | *p.o?<v>.0))"),
    "N4": (7, [(0, 0, 7)], "[k](0 | ({|p.o!<v>|} | 0))"),
    "N5": (5, [(0, 0, 5)], "[k]{|0 | 0|}"),
    "N6": (7, [(14, 1, 7)], "[k](kill(k) | p.o?<v>.0) | p.o!<v>"),
    "N7": (7, [(0, 0, 6)], "[k]kill(k) | (0 | 0)"),
    "N8": (5, [(13, 2, 5), (0, 0, 5), (0, 0, 3)], "0 | 0"),
    "N9": (2, [(16, 0, 2), (0, 0, 2), (0, 0, 2), (0, 0, 1)], "0"),
    "N10": (11, [(15, 9, 11), (14, 6, 11)], "[x](p.o!<v> | (p.o?<x>.0 | [k](kill(k) | p.o?<v>.0)))"),
    "N11": (3, [(0, 0, 6)], "[4]1.2!<4> | *[3]1.2!<3>"),
    "N12": (6, [(13, 3, 6), (0, 0, 6), (0, 0, 4)], "[n](0 | 0)"),
}


@pytest.mark.parametrize("name", NIGHTS)
def test_night(nights, name):
    records, answers, last = NIGHTS[name]
    night = wigandoy.read((nights / f"{name}.cows").read_text())
    assert calls.check(night.table).records == records
    played = calls.play(night.table, wigandoy.read_moves((nights / f"{name}.moves").read_text()))
    assert [(r.number, r.place, r.records) for r in played.replies] == answers
    assert played.table == wigandoy.read(last, night.names).table


def test_every_night_is_here(nights):
    assert {path.stem for path in nights.glob("N*.cows")} == set(NIGHTS)
