"""Explanations: every refusal at least once, word for word, and any refusal of random tables, moves and scripts."""

import random

import pytest

import generate
import truth
import wigandoy
from wigandoy import calls, explain, replies, tables
from wigandoy.moves import Move
from wigandoy.tables import Record


def table_of(text):
    read = wigandoy.read(text)
    return read.table, read.names


def step(text, *move, room=None):
    """The explanation of a step on a term."""
    table, names = table_of(text)
    move = move[0] if isinstance(move[0], bytes) else bytes(Move(*move))
    reply = calls.step(table, move) if room is None else calls.step(table, move, bytearray(room))
    return explain.step(reply, table, move, names, **({} if room is None else {"room": room}))


def check(content, names=None):
    return explain.table(calls.check(content), content, names)


def check_text(text):
    return check(*table_of(text))


def records(*found):
    return check(b"".join(map(bytes, found)))


def play(moves, room=32768, space=60000):
    reply = calls.play(bytes(16), moves, bytearray(room), bytearray(space))
    return explain.play(reply, bytes(16), moves, room=room, space=space)


def joint(text, stops, room=32768):
    table, names = table_of(text)
    return explain.joint(calls.joint(table, stops, bytearray(room)), table, stops, names, room=room)


def ticks(earlier, later, room=32768):
    table = wigandoy.read("wait 1. 0").table
    return explain.ticks(calls.ticks(table, earlier, later, bytearray(room)), table, earlier, later, room=room)


def opened(text, room):
    table, names = table_of(text)
    return explain.open_moves(calls.open_moves(table, bytearray(room)), table, names, room=room)


def script(*entries, partner=1, operation=2, room=32768):
    content = b"".join(bytes((kind, zero)) + b"".join(n.to_bytes(2, "little") for n in rest) for kind, zero, *rest in entries)
    return explain.orc(calls.orc(content, partner, operation, bytearray(room)), content, partner, operation, room=room)


def deep_right(depth):
    """A script of wheres, each the right part of the one above."""
    return [e for i in range(depth) for e in ((4, 0, 32768 + i, 0, 0), CALL)] + [CALL]


NIL = Record(0)
CALL = (1, 0, 5, 6, 7)
BLOCKS = "[k](kill(k) | [j](kill(j) | p.o!<>)) | [i]kill(i)"

EVERY = [
    (lambda: check(b""), "1 at 0: there are no bytes, and a table has a record at least"),
    (lambda: check(bytes(17)), "1 at 0: 17 bytes are no whole number of records, which have 16 each"),
    (lambda: check(bytes(32784)), "1 at 0: 32,784 bytes are over 32,768, which is 2,048 records"),
    (lambda: records(Record(77)), "2 at 0: the record has the unknown kind 77"),
    (lambda: records(Record(2, 5, 1, 2)), "2 at 0: the record, a message, has a tuple count of 5, and 4 is the most"),
    (lambda: records(Record(1)), "2 at 0: the first atom of the record, a stop, is 0, which is no atom; it must be a label"),
    (lambda: records(Record(3, 0, 1, 32768), NIL),
     "2 at 0: the second atom of the record, a receive, is x0, a variable; it must be a value"),
    (lambda: records(Record(2, 2, 1, 2, (1, 49152, 0, 0))),
     "2 at 0: slot two of the record, a message, is k0, a label; it must be a value or a variable"),
    (lambda: records(NIL._replace(interval=3)), "2 at 0: a nil does not use the interval of its record, and that is not zero"),
    (lambda: records(NIL._replace(count=1)), "2 at 0: a nil does not use the tuple count of its record, and that is not zero"),
    (lambda: records(Record(4, first=3), NIL), "2 at 0: a wait does not use the first atom of its record, and that is not zero"),
    (lambda: records(Record(2, 1, 1, 2, (3, 4, 0, 0))), "2 at 0: a message does not use slot two of its record, and that is not zero"),
    (lambda: records(Record(3, 2, 1, 2, (32768, 32768, 0, 0)), NIL),
     "2 at 0: the pattern of the receive v1.v2?<x0, x0> has the variable x0 twice"),
    (lambda: records(NIL, NIL), "3 at 1: the term ends with the record at 0, and the record at 1 is one over"),
    (lambda: records(Record(6), Record(9)), "3 at 2: the records end, and the replication at 1 lacks a child"),
    (lambda: records(Record(6)), "3 at 1: the records end, and the parallel at 0 lacks its children"),
    (lambda: check_text("*" * 256 + "0"), "4 at 256: the nil at 256 has depth 257, and 256 is the most"),
    (lambda: check_text(" | ".join(["0"] * 257)), "4 at 511: the nil at 511 has depth 257, and 256 is the most; every | makes what stands "
     "behind it deeper, unless brackets part them into groups"),
    (lambda: check_text("0 + p.o!<>"),
     "5 at 2: the message p.o!<> at 2 is a child of the choice at 0, which chooses between nils, receives, waits and choices only"),
    (lambda: check_text("p.o!<x0>"), "6 at 0: x0 in the message p.o!<x0> at 0 is a variable outside every delimitation of it: it has none"),
    (lambda: check_text("[k]0 | kill(k)"), "6 at 3: k in the stop kill(k) at 3 is a label outside every delimitation of it: the first is at 1"),
    (lambda: check_text("[n]0 | [n]0"), "7 at 3: the delimitation [n] at 3 is the second of its atom; the first is at 1"),
    (lambda: check_text("[n]0 | p.o!<n>"), "7 at 3: n in the message p.o!<n> at 3 is a value outside every delimitation of it: the first is at 1"),
    (lambda: step("0", b"12345"), "10 at 0: a move has 6 bytes, and this has 5"),
    (lambda: step("0", 9, 0), "10 at 0: there is no kind 9 of move: they are 0 to 5"),
    (lambda: step("0", b"\0\7\0\0\0\0"), "10 at 0: the second byte of a move is 0, and this is 7"),
    (lambda: step("0", 2, 0, 4), "10 at 0: only a meeting has a b, and in this expiry it is 4"),
    (lambda: step("0", 0, 3), "11 at 3: there is no record at 3: the table has 1"),
    (lambda: step("p.o?<>.wait 0", 2, 0), "11 at 0: the receive p.o?<> at 0 is no wait"),
    (lambda: step("p.o?<>.wait 0", 2, 1), "11 at 1: the wait of 0 at 1 is not live: it stands behind the receive p.o?<> at 0"),
    (lambda: step("*wait 0", 2, 1), "11 at 1: the wait of 0 at 1 is not live: it stands inside the replication at 0"),
    (lambda: step("p.o?<> | 0", 1, 1, 3), "11 at 3: the nil at 3 is no message"),
    (lambda: step("[x](p.o?<x> | p.o!<x>)", 1, 2, 4),
     "12 at 0: the message p.o!<x> at 4 does not fit the receive p.o?<x> at 2: its variable x is not set"),
    (lambda: step("p.o?<> | q.o!<>", 1, 1, 3), "12 at 1: the message q.o!<> at 3 does not fit the receive p.o?<> at 1: another endpoint"),
    (lambda: step("p.o?<> | p.o!<p>", 1, 1, 3), "12 at 2: the message p.o!<p> at 3 does not fit the receive p.o?<> at 1: 1 sent, and 0 wanted"),
    (lambda: step("p.o?<a, b> | p.o!<a, c>", 1, 1, 3),
     "12 at 4: the message p.o!<a, c> at 3 does not fit the receive p.o?<a, b> at 1: in slot two c is sent, and b wanted"),
    (lambda: step("[x]p.o?<x> | p.o!<v>", 1, 2, 4),
     "13 at 2: the delimitation [x] at 1, whose variable the receive p.o?<x> at 2 binds, does not enclose the message p.o!<v> at 4"),
    (lambda: step("[x][n](p.o?<x> | p.o!<n>)", 1, 3, 5),
     "13 at 3: the delimitation [n] at 1, whose value the message p.o!<n> at 5 sends, does not enclose the delimitation [x] at 0"),
    (lambda: step("[k](kill(k) | p.o?<v>) | p.o!<v>", 1, 4, 6),
     "14 at 1: the stop kill(k) at 3 is ready, and its [k] at 1 encloses the receive p.o?<v> at 4"),
    (lambda: step("[k](*kill(k) | p.o!<v>) | p.o?<v>", 1, 6, 5),
     "14 at 1: the stop kill(k) at 4 is ready, and its [k] at 1 encloses the message p.o!<v> at 5"),
    (lambda: step("[x](dome.moon!<tonight> | (dome.moon?<x> | dome.moon?<tonight>))", 1, 4, 2),
     "15 at 6: the receive dome.moon?<tonight> at 6 is ready, fits the same message and binds fewer variables"),
    (lambda: step("wait 4", 2, 0), "16 at 0: the wait of 4 at 0 cannot expire before it is down to 0"),
    (lambda: step("wait 4", 3, 0), "17 at 0: a time of 0 is no time"),
    (lambda: step("0 | [k0]0", 5, 2), "18 at 2: the delimitation [k0] at 2 is that of a label, which does not float"),
    (lambda: step("[x0]0", 5, 0), "18 at 0: the delimitation [x0] at 0 is the root, and there is nothing to float over"),
    (lambda: step("[x0]0 + 0", 5, 1), "5 at 1: the delimitation [x0] at 1 is a child of the choice at 0, which chooses between nils, "
     "receives, waits and choices only"),
    (lambda: play(bytes(60001)), "19 at 0: 60,001 bytes of moves are over 60,000, which is 10,000 moves"),
    (lambda: step(" | ".join(["*(" + " | ".join(["p.o!<>"] * 128) + ")"] * 7), 4, 1),
     "20 at 0: unfolding the replication at 1 adds 256 records; that makes 2,054, and 2,048 is the most"),
    (lambda: step("*" + "[v9]" + "{|" * 253 + "0" + "|}" * 253, 4, 0), "20 at 0: unfolding the replication at 0 makes a depth of 257, and 256 is the most"),
    (lambda: step("[v9]0 | " + "*" * 254 + "0", 5, 1), "20 at 0: when the delimitation [v9] at 1 floats over the parallel at 0, that comes "
     "to stand inside it and the depth passes 256"),
    (lambda: step("wait 4", 3, 1, room=31), "21 at 0: the output has 31 bytes, and the result takes 32"),
    (lambda: play(bytes(60), room=32767), "21 at 0: the output has 32,767 bytes, and a play takes 32,768"),
    (lambda: play(bytes(62), space=59), "21 at 0: the replies have 59 bytes, and six for each move are 60"),
    (lambda: opened("*0 | *0", 6), "22 at 2: the list has 6 bytes, and what is open takes 12, six for each move"),
    (lambda: ticks(4, 3), "23 at 0: from 4 to 3 it is 4,294,967,295 ticks: the clock has gone back"),
    (lambda: ticks(4, 70004), "24 at 0: from 4 to 70004 it is 70,000 ticks, and 65,535 is the most that one time move lets pass"),
    (lambda: ticks(4, 5, room=31), "21 at 0: the output has 31 bytes, and the result takes 32"),
    (lambda: joint(BLOCKS, []), "25 at 0: no stop is listed, and a joint step has one to eight"),
    (lambda: joint(BLOCKS, [3] * 9), "25 at 0: 9 stops are listed, and a joint step has one to eight"),
    (lambda: joint(BLOCKS, [3, 7]), "11 at 7: the message p.o!<> at 7 is no stop"),
    (lambda: joint(BLOCKS, [6, 3]), "26 at 6: the scope of the stop kill(j) at 6, which begins at 4, lies inside that of the stop kill(k) at 3, "
     "which begins at 1"),
    (lambda: joint(BLOCKS, [9, 3, 6]), "26 at 3: the scope of the stop kill(k) at 3, which begins at 1, holds that of the stop kill(j) at 6, "
     "which begins at 4"),
    (lambda: joint("[k](kill(k) | kill(k))", [2, 3]),
     "26 at 2: the scope of the stop kill(k) at 2, which begins at 0, is that of the stop kill(k) at 3, which begins at 0"),
    (lambda: joint(BLOCKS, [9, 9]), "26 at 9: the stop kill(i) at 9 is listed twice"),
    (lambda: joint(BLOCKS, [9], room=15), "21 at 0: the output has 15 bytes, and the result takes 160"),
    (lambda: script(), "30 at 0: there are no bytes, and a script has a record at least"),
    (lambda: script(*[CALL] * 513), "30 at 0: 4,104 bytes are over 4,096, which is 512 records"),
    (lambda: explain.orc(calls.orc(bytes(9), 1, 2), bytes(9), 1, 2), "30 at 0: 9 bytes are no whole number of records, which have 8 each"),
    (lambda: script(CALL, partner=32768), "30 at 0: the partner of the result endpoint is x0, a variable, and must be a value"),
    (lambda: script(CALL, operation=0), "30 at 0: the operation of the result endpoint is 0, which is no atom, and must be a value"),
    (lambda: script((9, 0, 0, 0, 0)), "30 at 0: the record has the unknown kind 9"),
    (lambda: script((1, 3, 5, 6, 7)), "30 at 0: the second byte of the record, a site call, is 3, and must be 0"),
    (lambda: script((3, 0, 5, 0, 0), CALL, CALL), "30 at 0: the record, a parallel, has a field that it does not use and that is not zero"),
    (lambda: script((2, 0, 5, 0, 0), CALL, CALL), "30 at 0: the atom of the record, a sequence, is v5, a value, and must be a variable"),
    (lambda: script((1, 0, 5, 49152, 7)), "30 at 0: the partner of the record, a site call, is k0, a label, and must be a value"),
    (lambda: script(CALL, CALL), "31 at 1: the expression ends with the record at 0, and the record at 1 is one over"),
    (lambda: script((3, 0, 0, 0, 0), CALL), "31 at 2: the records end before the expression does"),
    (lambda: script(*[(3, 0, 0, 0, 0)] * 64, *[CALL] * 65), "31 at 64: the site call at 64 has depth 65, and 64 is the most"),
    (lambda: script((1, 0, 32768, 6, 7)), "32 at 0: the site call at 0 uses x0 outside the scope of a sequence or a where that binds it"),
    (lambda: script((3, 0, 0, 0, 0), (2, 0, 32768, 0, 0), CALL, CALL, (4, 0, 32768, 0, 0), CALL, CALL),
     "32 at 4: the where at 4 binds x0 a second time; the first is at 1"),
    (lambda: script(*deep_right(63)), "20 at 0: the script's table has over 2,048 records or a depth over 256"),
    (lambda: script(CALL, room=15), "21 at 0: the output has 15 bytes, and the result takes 16"),
]


@pytest.mark.parametrize("words, expected", EVERY, ids=[expected.split(":")[0] for _, expected in EVERY])
def test_word_for_word(words, expected):
    assert words() == expected


def test_every_refusal_is_explained():
    seen = {int(expected.split(" ")[0]) for _, expected in EVERY}
    assert seen == set(replies.ANSWERS) - {0}


def test_an_accepted_reply_has_no_explanation():
    assert explain.table(calls.check(bytes(16)), bytes(16)) is None


def begins(words, reply):
    assert words.startswith(f"{reply.number} at {reply.place}: ") and "None" not in words


def test_any_refused_move_is_explained():
    rng, seen = random.Random(4), set()
    for _ in range(2000):
        table = generate.table(rng, rng.choice((12, 25, 60)))
        for _ in range(15):
            move = generate.move(rng, table)
            reply = calls.step(table, move)
            if reply.accepted:
                table = reply.table
            else:
                seen.add(reply.number)
                truth.holds(table, move, reply, explain.step(reply, table, move))
    assert {10, 11, 12, 13, 14, 15, 16, 17, 18} <= seen


@pytest.mark.parametrize("text, move", [
    (" | ".join(["*(" + " | ".join(["1.2!<>"] * 128) + ")"] * 7), Move(4, 1)), ("*" + "[v9]" + "{|" * 253 + "0" + "|}" * 253, Move(4, 0)),
    ("[v9]0 | " + "*" * 254 + "0", Move(5, 1)), ("0 | " + "*" * 250 + "0 | [x0]0", None)])
def test_what_is_too_large(text, move):
    table = wigandoy.read(text).table
    for each in [move] if move else [m for a in range(len(table) // 16) for m in (Move(4, a), Move(5, a))]:
        reply = calls.step(table, each)
        if reply.number == 20:
            truth.holds(table, bytes(each), reply, explain.step(reply, table, each))
        assert move is None or reply.number == 20


def test_a_false_sentence_is_found():
    """The test itself is tried: sentences that are not so."""
    table = wigandoy.read("[k0]([x0](1.2?<x0>.0 | *kill(k0)) | 1.2!<3>) | 1.2?<4>.0").table
    move = bytes(Move(1, 5, 9))
    reply = calls.step(table, move)
    assert reply.number == 13
    truth.holds(table, move, reply, explain.step(reply, table, move))
    said = "13 at 5: the delimitation [{}] at {}, whose variable the receive v1.v2?<{}> at 5 binds, does not enclose the {}"
    truth.holds(table, move, reply, said.format("x0", 3, "x0", "message v1.v2!<v3> at 9"))
    for false in (("x0", 3, "x0", "nil at 6"), ("k0", 1, "x0", "message v1.v2!<v3> at 9"), ("x0", 3, "x1", "message v1.v2!<v3> at 9"),
                  ("x0", 3, "x0", "message v1.v2!<v4> at 9")):
        with pytest.raises(AssertionError):
            truth.holds(table, move, reply, said.format(*false))


@pytest.mark.parametrize("seed", range(4))
def test_any_damaged_table_is_explained(seed):
    rng, seen = random.Random(seed), set()
    for _ in range(3000):
        content = generate.damaged(rng, generate.table(rng, rng.choice((3, 8, 30))))
        reply = calls.check(content)
        if not reply.accepted:
            seen.add(reply.number)
            begins(explain.table(reply, content), reply)
    assert {1, 2, 3, 5, 6, 7} <= seen


def test_any_damaged_script_is_explained():
    rng, seen = random.Random(5), set()
    for _ in range(3000):
        content = generate.damaged(rng, generate.script(rng, 20))
        partner = rng.choice((1, 1, 1, 1, 0, 32768))
        reply = calls.orc(content, partner, 2)
        if not reply.accepted:
            seen.add(reply.number)
            begins(explain.orc(reply, content, partner, 2), reply)
    assert {30, 31, 32} <= seen


def test_any_refused_joint_step_is_explained():
    rng, seen = random.Random(6), set()
    for _ in range(3000):
        table = generate.table(rng, 25)
        kills = [at for at, each in enumerate(tables.records(table)) if each.kind == tables.STOP] or [0]
        stops = [rng.choice(kills) if rng.random() < 0.9 else rng.randrange(30) for _ in range(rng.randrange(4))]
        reply = calls.joint(table, stops)
        if not reply.accepted:
            seen.add(reply.number)
            begins(explain.joint(reply, table, stops), reply)
    assert {11, 25, 26} <= seen


def test_open_moves_in_words():
    table, names = table_of("[x](p.o?<x> | p.o!<v>) | [k](kill(k) | (wait 0 | (*p.o!<> | [n]0)))")
    whole = tables.Table(table)
    assert [explain.move(whole, move, names) for move in calls.open_moves(table).moves] == [
        "the stop kill(k) at 8 fires", "the message p.o!<v> at 5 meets the receive p.o?<x> at 3", "the wait of 0 at 10 expires",
        "the replication at 13 unfolds", "the delimitation [x] at 1 floats over the parallel at 0",
        "the delimitation [n] at 15 floats over the parallel at 12"]
    assert explain.move(whole, Move(3, 5)) == "time goes on by 5"
