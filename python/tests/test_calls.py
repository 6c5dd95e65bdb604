"""The calls: what they answer, what they leave alone, what is misuse, and threads."""

import array
import mmap
import random
import re
import subprocess
import sys
import threading
import tracemalloc
from pathlib import Path

import pytest

import generate
import wigandoy
from wigandoy import calls, errors, library, moves, replies, scripts, tables

ROOT = Path(__file__).resolve().parents[2]
N8 = wigandoy.read("[x]p.o?<x>.0 | p.o!<v>").table
MEETING, FLOATING = bytes(wigandoy.Move(1, 2, 4)), bytes(wigandoy.Move(5, 1))
CALLS = {"check": calls.check, "load": calls.load, "step": calls.step, "ticks": calls.ticks, "joint": calls.joint, "play": calls.play,
         "open": calls.open_moves, "orc": calls.orc}


def header():
    return (ROOT / "include" / "wigandoy.h").read_text()


def test_answers_are_those_of_the_header():
    numbered = {int(n): name.lower() for name, n in re.findall(r"WIGANDOY_([A-Z_]+) = (\d+)", header().partition("The places of 12")[0])}
    assert numbered == {number: name for number, (name, _, _) in replies.ANSWERS.items()}


def test_kinds_are_those_of_the_header():
    listed = [len(names.split(",")) for names in re.findall(r"enum \{\s*(WIGANDOY_[A-Z_,\s]+?)\s*\};", header())]
    assert listed == [len(tables.KINDS), len(moves.KINDS), len(scripts.KINDS)]


def test_functions_are_those_of_the_header():
    assert set(re.findall(r"uint64_t wigandoy_([a-z]+)\(", header())) == set(library.FUNCTIONS) == set(CALLS)


def test_doc_strings_have_the_refusals_of_the_header():
    """The header lists the refusals of each call in words, as `Refusals 1 to 7, 25, 11, 26 and 21`."""
    asked = {"check": "1 to 7", "load": "1 to 7", "step": "1 to 7, 10 to 18, 20 and 21", "ticks": "1 to 7, 23, 24 and 21",
             "joint": "1 to 7, 25, 11, 26 and 21", "play": "1 to 7, 19 and\n * 21", "open": "1 to 7 and 22", "orc": "30, 31, 32, 20 and 21"}
    for name, words in asked.items():
        assert re.search(rf"[Rr]efusals (of the whole: )?{re.escape(words)}", header()), name
        wanted = []
        for part in re.split(r", | and\s+\*? ?", words):
            first, _, last = part.partition(" to ")
            wanted += range(int(first), int(last or first) + 1)
        assert [int(n) for n in re.findall(r"^ +(\d+) [a-z_]+:", CALLS[name].__doc__, re.M)] == wanted, name


def test_n8():
    reply = calls.step(N8, MEETING)
    assert (reply.number, reply.name, reply.place, reply.table, reply.accepted) == (13, "apart", 2, None, False)
    played = calls.play(N8, MEETING + FLOATING + MEETING + b"end")
    assert [(r.number, r.place, r.records) for r in played.replies] == [(13, 2, 5), (0, 0, 5), (0, 0, 3)]
    assert (played.records, len(played.table), played.tail, played.tally) == (3, 48, 3, wigandoy.Tally(1, 0, 0, 0))
    assert calls.open_moves(N8).moves == (wigandoy.Move(5, 1),)
    assert calls.load(N8).load == 2 and calls.check(N8).records == 5


def test_ticks_joint_and_orc():
    wait = wigandoy.read("wait 12. 0").table
    assert calls.ticks(wait, 4294967290, 4).table == wigandoy.read("wait 2. 0").table
    assert calls.ticks(wait, 7, 7).table == wait
    assert [calls.ticks(wait, 4, later).number for later in (3, 70004)] == [23, 24]
    blocks = wigandoy.read("[k](kill(k) | p.o!<>) | [j](kill(j) | {|q.o!<>|})").table
    joined = calls.joint(blocks, [3, 7])
    assert joined.table == wigandoy.read("[k0](0 | 0) | [k1](0 | {|3.2!<>|})").table and joined.tally.stops == 2
    assert calls.orc(bytes((1, 0, 5, 0, 6, 0, 7, 0)), 1, 2).table == wigandoy.read("6.7!<5, 1, 2>").table


@pytest.mark.parametrize("form", [bytes, bytearray, memoryview, lambda b: array.array("B", b), lambda b: memoryview(b"x" + b)[1:],
                                  lambda b: memoryview(bytearray(b)).toreadonly(), lambda b: array.array("H", b)])
def test_any_bytes_like_object(form):
    assert calls.check(form(N8)) == calls.check(N8)
    assert calls.step(form(N8), form(FLOATING)) == calls.step(N8, FLOATING)
    assert calls.play(form(N8), form(MEETING)) == calls.play(N8, MEETING)


def test_mapped_file(tmp_path):
    (tmp_path / "table.bin").write_bytes(N8)
    with open(tmp_path / "table.bin", "rb") as file, mmap.mmap(file.fileno(), 0, access=mmap.ACCESS_READ) as mapped:
        assert calls.check(mapped).records == 5


def test_numbers_of_any_kind():
    class Number:
        def __index__(self):
            return 7
    wait = wigandoy.read("wait 12. 0").table
    assert calls.ticks(wait, Number(), 9) == calls.ticks(wait, 7, 9) and calls.joint(wait, [Number()]).number == 11


def test_moves_have_their_bits():
    for wrong in ((256, 0), (-1, 0), (1, 65536), (1, 0, -1)):
        with pytest.raises(ValueError):
            wigandoy.Move(*wrong)


def test_input_is_not_copied():
    large = bytes(50_000_000)
    tracemalloc.start()
    assert calls.check(large).number == 1 and calls.step(large, large).number == 1 and calls.play(N8, large).number == 19
    peak = tracemalloc.get_traced_memory()[1]
    tracemalloc.stop()
    assert peak < 1_000_000


def test_lent_output():
    out = bytearray(b"\xaa" * 100)
    reply = calls.step(N8, FLOATING, out)
    assert bytes(reply.table) == calls.step(N8, FLOATING).table == bytes(out[:80]) and out[80:] == b"\xaa" * 20
    before = bytes(out)
    for refused in (calls.step(N8, MEETING, out), calls.step(b"", MEETING, out), calls.ticks(N8, 1, 0, out), calls.joint(N8, [], out),
                    calls.orc(b"", 1, 2, out), calls.play(N8, FLOATING, out), calls.step(N8, FLOATING, memoryview(out)[:79])):
        assert not refused.accepted and refused.table is None and bytes(out) == before
    small = bytearray(5)
    assert (calls.open_moves(N8, small).number, calls.open_moves(N8, small).place, bytes(small)) == (22, 1, bytes(5))
    assert calls.play(N8, FLOATING, bytearray(32768), bytearray(5)).number == 21


def test_many_open_moves():
    table = wigandoy.read(" | ".join(["1.2?<>.0"] * 100 + ["1.2!<>"] * 101)).table
    assert len(calls.open_moves(table).moves) == 100 * 101


@pytest.mark.parametrize("call", [
    lambda: calls.check("text"), lambda: calls.check(None), lambda: calls.check(5), lambda: calls.check([1, 2]),
    lambda: calls.step(N8, "text"), lambda: calls.step(N8, MEETING, b"read only" * 10), lambda: calls.load(memoryview(N8)[::2]),
    lambda: calls.play(N8, MEETING, bytearray(32768), b"read only"), lambda: calls.ticks(N8, -1, 0), lambda: calls.ticks(N8, 0, 1 << 32),
    lambda: calls.ticks(N8, "1", 2), lambda: calls.joint(N8, [65536]), lambda: calls.joint(N8, ["1"]), lambda: calls.joint(N8, 3),
    lambda: calls.orc(b"", 1.5, 2), lambda: calls.orc(b"", 70000, 2), lambda: calls.open_moves(N8, "out")])
def test_misuse_raises(call):
    with pytest.raises((TypeError, ValueError, BufferError)):
        call()


def test_overlap_raises():
    memory = bytearray(N8 + bytes(100))
    with pytest.raises(ValueError, match="overlaps"):
        calls.step(memoryview(memory)[:80], FLOATING, memoryview(memory)[40:])
    with pytest.raises(ValueError, match="overlaps"):
        calls.play(N8, FLOATING, *[bytearray(32768)] * 2)
    assert calls.step(memoryview(memory)[:80], FLOATING, memoryview(memory)[80:]).accepted
    memory.extend(b"nothing is still lent")


def test_bytes_of_any_kind_are_answered():
    rng = random.Random(1)
    for _ in range(3000):
        content = rng.choice((lambda: rng.randbytes(rng.randrange(100)), lambda: generate.damaged(rng, generate.table(rng, 12)),
                              lambda: bytes(rng.randrange(4)) * rng.randrange(40)))()
        assert calls.check(content).number in range(8)
        assert calls.load(content).number in range(8)
        assert calls.step(content, rng.randbytes(rng.randrange(8))).number in replies.ANSWERS
        assert calls.play(content, rng.randbytes(rng.randrange(40))).number in replies.ANSWERS
        assert calls.open_moves(content).number in range(8)
        assert calls.ticks(content, rng.getrandbits(32), rng.getrandbits(32)).number in replies.ANSWERS
        assert calls.joint(content, [rng.randrange(20) for _ in range(rng.randrange(10))]).number in replies.ANSWERS
        assert calls.orc(content, rng.getrandbits(16), rng.getrandbits(16)).number in replies.ANSWERS


def test_play_is_its_steps_and_demand_three():
    rng = random.Random(2)
    for _ in range(60):
        table = start = generate.table(rng, 60)
        listed = generate.moves(rng, table, 40)
        played = calls.play(table, listed)
        for i, reply in enumerate(played.replies):
            single = calls.step(table, listed[6 * i:6 * i + 6])
            assert (single.number, single.place) == (reply.number, reply.place)
            table = single.table if single.accepted else table
            assert len(table) == 16 * reply.records
        assert played.table == table
        tally = played.tally
        assert 2 * tally.meetings + tally.stops + tally.expiries + calls.load(table).load <= calls.load(start).load + tally.copied


def test_open_moves_are_what_steps_accept():
    rng = random.Random(3)
    for _ in range(40):
        table = generate.table(rng, 14)
        count = len(table) // 16
        every = [wigandoy.Move(0, a) for a in range(count)] + [wigandoy.Move(1, a, b) for a in range(count) for b in range(count)]
        every += [wigandoy.Move(kind, a) for kind in (2, 4, 5) for a in range(count)]
        assert calls.open_moves(table).moves == tuple(move for move in every if calls.step(table, move).accepted)


def test_threads():
    jobs = []
    for seed in range(8):
        rng = random.Random(seed)
        table = generate.table(rng, 400)
        jobs.append((table, generate.moves(rng, table, 30)))
    alone = [calls.play(*job) for job in jobs]
    wrong = []

    def work(mine):
        for turn in range(200):
            each = (mine + turn) % len(jobs)
            if calls.play(*jobs[each]) != alone[each]:
                wrong.append(each)

    threads = [threading.Thread(target=work, args=(i,)) for i in range(8)]
    for thread in threads:
        thread.start()
    for thread in threads:
        thread.join()
    assert not wrong


def test_library_missing(monkeypatch, tmp_path):
    library.loaded.cache_clear()
    monkeypatch.setattr(library, "FILE", tmp_path / "libwigandoy.so")
    with pytest.raises(errors.LibraryMissing, match="python/build"):
        calls.check(b"")
    library.FILE.write_bytes(b"no library")
    with pytest.raises(errors.LibraryMissing, match="does not load"):
        calls.check(b"")
    monkeypatch.undo()
    assert calls.check(b"").number == 1


def test_core_needs_python_alone():
    code = "import wigandoy.command; assert wigandoy.check(wigandoy.read('0').table).accepted"
    done = subprocess.run([sys.executable, "-S", "-E", "-c", code], cwd=ROOT / "python", capture_output=True, text=True)
    assert done.returncode == 0, done.stderr
