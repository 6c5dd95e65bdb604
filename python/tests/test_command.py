"""The command: its lines, its exit status, --json, and messages on misuse."""

import json
import random
import subprocess
import sys
from pathlib import Path

import pytest

import generate
import wigandoy
from wigandoy import calls, command, library

ROOT = Path(__file__).resolve().parents[2]


@pytest.fixture
def run(capsys):
    """Runs the command; returns its status, output and errors."""
    def running(*words):
        try:
            status = command.main([str(word) for word in words])
        except SystemExit as ended:
            status = ended.code
        out = capsys.readouterr()
        return status, out.out, out.err
    return running


def test_play_prints_the_program_lines(run, nights):
    lines = (ROOT / "tests" / "n8.txt").read_text()
    assert run("play", nights / "N8.cows", nights / "N8.moves") == (1, lines, "")


def test_make_is_the_programs_table(run, nights, tmp_path):
    """The files of the program play, from the night as text."""
    (tmp_path / "names").write_text("p 1\no 2\nv 5\n")
    assert run("make", nights / "N8.cows", "-o", tmp_path / "table.bin", "--names", tmp_path / "names") == (0, "5 records, load 2\n", "")
    assert run("make", nights / "N8.moves", "-o", tmp_path / "moves.bin") == (0, "3 moves\n", "")
    for name in ("table.bin", "moves.bin"):
        assert (tmp_path / name).read_bytes() == (ROOT / "crates" / "play" / "data" / name).read_bytes()


def test_saved_names_show_the_same(run, nights, tmp_path):
    table, names = tmp_path / "table.bin", tmp_path / "names"
    assert run("make", nights / "N8.cows", "-o", table, "--save-names", names)[0] == 0
    assert names.read_text() == "p 1\no 2\nv 3\nx 32768\n"
    shown = "0  live   |\n1  live     [x]\n2  live       p.o?<x>.\n3               0\n4  live     p.o!<v>\n"
    assert run("show", table, "--names", names) == run("show", nights / "N8.cows") == (0, shown, "")
    assert run("show", table, "--names", names, "--term") == (0, "[x]p.o?<x>.0 | p.o!<v>\n", "")
    assert run("show", table, "--term", "--signs") == (0, "[x0]v1·v2?⟨x0⟩.0 | v1·v2!⟨v3⟩\n", "")


def test_check(run, nights, tmp_path):
    assert run("check", nights / "N4.cows") == (0, "table 0 0 7\n", "")
    wrong = tmp_path / "table.bin"
    wrong.write_bytes(bytes(32))
    assert run("check", wrong) == (1, "table 3 1\n", "")
    why = "3 at 1: the term ends with the record at 0, and the record at 1 is one over"
    assert run("check", wrong, "--explain") == (1, f"table 3 1\n  {why}\n", "")
    assert run("show", wrong) == run("check", wrong, "--explain")
    for words in (("step", wrong, "time", 1), ("open", wrong), ("play", wrong, nights / "N8.moves")):
        assert run(*words) == (1, "table 3 1\n", "")
    status, out, _ = run("check", wrong, "--json")
    assert status == 1 and json.loads(out) == {"table": {"answer": 3, "name": "bad_shape", "place": 1, "explanation": why}}


def test_a_term_that_is_refused_is_pointed_to(run, tmp_path):
    text, table = tmp_path / "night.cows", tmp_path / "table.bin"
    text.write_text("[k](kill(k)\n   | [k]0)\n")
    status, out, errors = run("make", text, "-o", table)
    assert (status, out, table.exists()) == (1, "", False)
    assert errors == (f"{text}:2:6: 7 at 3: the delimitation [k] at 3 is the second of its atom; the first is at 0\n"
                      "       | [k]0)\n         ^\n")


def test_step(run, nights, tmp_path):
    night, after = nights / "N8.cows", tmp_path / "next.bin"
    assert run("step", night, "meeting", 2, 4) == (1, "1 1 13 2 5\n", "")
    assert run("step", night, "floating", 1, "-o", after) == (0, "1 5 0 0 5\n", "")
    assert run("step", after, "communicate", 2, 4) == (0, "1 1 0 0 3\n", "")
    assert run("step", night, 3, 0, "--explain") == (1, "1 3 17 0 5\n  17 at 0: a time of 0 is no time\n", "")
    status, out, _ = run("step", night, "kill", 0, 7, "--json")
    assert status == 1 and json.loads(out) == {
        "number": 1, "kind": 0, "move": "stop 0 7", "answer": 10, "name": "no_move", "place": 0, "records": 5,
        "explanation": "10 at 0: only a meeting has a b, and in this stop it is 7"}


def test_open(run, nights):
    assert run("open", nights / "N8.cows") == (0, "5 1 0\n", "")
    assert run("open", nights / "N8.cows", "--explain")[1] == "5 1 0\n  the delimitation [x] at 1 floats over the parallel at 0\n"
    assert json.loads(run("open", nights / "N9.cows", "--json")[1]) == {"moves": []}


def test_play(run, nights, tmp_path):
    moves, last = tmp_path / "moves.bin", tmp_path / "last.bin"
    moves.write_bytes(bytes(wigandoy.Move(5, 1)) + b"tail!")
    assert run("play", nights / "N8.cows", moves, "-o", last) == (0, "1 5 0 0 5\ntail 5\ntotal 0 0 0 2\n", "")
    assert last.read_bytes() == calls.step(wigandoy.read("[x]p.o?<x>.0 | p.o!<v>").table, wigandoy.Move(5, 1)).table
    moves.write_bytes(bytes(60001))
    assert run("play", nights / "N8.cows", moves) == (1, "moves 19 0\n", "")
    assert run("play", nights / "N8.cows", moves, "--explain")[1].startswith("moves 19 0\n  19 at 0: 60,001 bytes")
    status, out, _ = run("play", nights / "N2.cows", nights / "N2.moves", "--json")
    told = json.loads(out)
    assert status == 1 and told["total"] == {"meetings": 1, "stops": 0, "expiries": 0, "load": 1, "copied": 0, "records": 7}
    assert [(m["answer"], m["place"], m["records"]) for m in told["moves"]] == [(15, 6, 8), (0, 0, 7)]
    assert told["moves"][0]["explanation"].startswith("15 at 6: the receive p.o?<v> at 6 is ready")


def test_random_plays_are_the_replies(run, tmp_path):
    rng = random.Random(7)
    for _ in range(25):
        table = generate.table(rng, 40)
        listed = generate.moves(rng, table, 30) + bytes(rng.randrange(6))
        for name, content in (("t", table), ("m", listed)):
            (tmp_path / name).write_bytes(content)
        reply = calls.play(table, listed)
        lines = [f"{i + 1} {listed[6 * i]} {r.number} {r.place} {r.records}" for i, r in enumerate(reply.replies)]
        lines += [f"tail {reply.tail}"] * bool(reply.tail)
        lines.append(f"total {reply.tally.meetings} {reply.tally.stops} {reply.tally.expiries} {calls.load(reply.table).load}")
        status, out, _ = run("play", tmp_path / "t", tmp_path / "m")
        assert out.splitlines() == lines and status == any(r.number for r in reply.replies)
        explained = [line for line in run("play", tmp_path / "t", tmp_path / "m", "--explain")[1].splitlines() if not line.startswith("  ")]
        assert explained == lines


def test_damaged_files(run, tmp_path):
    rng = random.Random(8)
    for _ in range(150):
        table = generate.table(rng, 12)
        (tmp_path / "t").write_bytes(generate.damaged(rng, table))
        (tmp_path / "m").write_bytes(generate.damaged(rng, generate.moves(rng, table, 5)))
        for words in (("check",), ("show",), ("open", "--explain"), ("play", tmp_path / "m", "--explain"), ("step", "stop", 0, "--explain")):
            status, out, errors = run(words[0], tmp_path / "t", *words[1:])
            assert status in (0, 1) and errors == "" and (out or status == 0)


@pytest.mark.parametrize("words, message", [
    ((), "required"), (("fly",), "invalid choice"), (("make", "{n}/N8.cows"), "required: -o"), (("show", "{t}/none.bin"), "cannot be read"),
    (("make", "{t}/none.cows", "-o", "{t}/x"), "cannot be read"), (("make", "{n}/N8.cows", "-o", "{t}/no/where"), "cannot be written"),
    (("step", "{n}/N8.cows", "fly", "1"), "is no kind of move"), (("step", "{n}/N8.cows", "meeting", "2"), "its receive and its message"),
    (("make", "{n}/N8.moves", "-o", "{t}/x", "--save-names", "{t}/y"), "has no names"), (("step", "{n}/N8.cows", "stop", "x"), "is no number"),
    (("show", "{n}/N8.cows", "--names", "{t}/none"), "cannot be read"), (("make", "{t}/bytes.cows", "-o", "{t}/x"), "no text in UTF-8"),
    (("make", "{t}/wrong.cows", "-o", "{t}/x"), "wrong.cows:1:3: "), (("play", "{n}/N8.cows", "{t}/wrong.moves"), "wrong.moves:1:1: "),
    (("show", "{n}/N8.cows", "--names", "{t}/wrong.names"), "wrong.names:1:1: ")])
def test_misuse(run, nights, tmp_path, words, message):
    (tmp_path / "bytes.cows").write_bytes(b"\xff\xfe")
    (tmp_path / "wrong.cows").write_text("0 0")
    (tmp_path / "wrong.moves").write_text("fly 1")
    (tmp_path / "wrong.names").write_text("kill 1")
    status, out, errors = run(*(word.format(n=nights, t=tmp_path) for word in words))
    assert (status, out) == (2, "") and message in errors and "Traceback" not in errors


def test_library_missing(run, nights, monkeypatch, tmp_path):
    library.loaded.cache_clear()
    monkeypatch.setattr(library, "FILE", tmp_path / "libwigandoy.so")
    status, out, errors = run("check", nights / "N8.cows")
    monkeypatch.undo()
    assert (status, out) == (2, "") and "Build it with python/build" in errors


def test_matplotlib_missing(run, nights, monkeypatch, tmp_path):
    monkeypatch.setitem(sys.modules, "matplotlib", None)
    status, out, errors = run("report", nights / "N8.cows", nights / "N8.moves", "-o", tmp_path / "night.html")
    assert (status, out) == (2, "") and f"a report needs matplotlib, which {sys.executable} does not have" in errors and not (tmp_path / "night.html").exists()


def test_files_are_written_whatever_becomes_of_the_output(tmp_path):
    (tmp_path / "w.cows").write_text("wait 60000. 0")
    (tmp_path / "w.moves").write_text("time 1\n" * 9999 + "stop 0\n")
    words = f"{sys.executable} -m wigandoy play {tmp_path}/w.cows {tmp_path}/w.moves -o {tmp_path}/last.bin"
    done = subprocess.run(["bash", "-c", f"{words} | head -n 1; exit ${{PIPESTATUS[0]}}"], cwd=ROOT / "python", capture_output=True, text=True)
    assert (done.returncode, done.stdout, done.stderr) == (1, "1 3 0 0 2\n", "")
    assert (tmp_path / "last.bin").read_bytes() == wigandoy.read("wait 50001. 0").table


@pytest.mark.parametrize("end", [">&-", "> /dev/full"])
def test_an_output_that_cannot_be_written(nights, end):
    done = subprocess.run(f"{sys.executable} -m wigandoy show {nights}/N8.cows {end}", shell=True, cwd=ROOT / "python", capture_output=True, text=True)
    assert done.returncode in (0, 2) and "Traceback" not in done.stderr


def test_an_output_without_the_signs(nights):
    done = subprocess.run([sys.executable, "-m", "wigandoy", "show", "--signs", nights / "N8.cows"], cwd=ROOT / "python", capture_output=True,
                          text=True, env={"PYTHONIOENCODING": "latin-1", "PATH": ""})
    assert done.returncode == 2 and done.stderr.startswith("the answer cannot be printed")


def test_what_is_read_is_not_written_over(run, nights, tmp_path):
    for name in ("N8.cows", "N8.moves"):
        (tmp_path / name).write_bytes((nights / name).read_bytes())
    term, listed = tmp_path / "N8.cows", tmp_path / "N8.moves"
    for words in (("make", term, "-o", term), ("play", term, listed, "-o", listed), ("make", listed, "-o", tmp_path / "x.cows"),
                  ("step", term, "floating", 1, "-o", tmp_path / "next.cows"), ("make", term, "-o", tmp_path / "t", "--save-names", term)):
        status, out, errors = run(*words)
        assert (status, out) == (2, "") and errors
    assert term.read_bytes() == (nights / "N8.cows").read_bytes() and listed.read_bytes() == (nights / "N8.moves").read_bytes()


def test_names_that_still_hold(run, nights, tmp_path):
    """An unfolding takes an atom again that has gone: its name is no longer written."""
    last, names = tmp_path / "last.bin", tmp_path / "last.names"
    run("play", nights / "telescopes.cows", nights / "telescopes.moves", "-o", last, "--save-names", names)
    assert "dark" not in names.read_text() and "who" in names.read_text()
    shown = run("show", last, "--names", names)[1]
    assert "[x0]" in shown and "dark" not in shown
    before = wigandoy.read("[x]p.o?<x>.0 | *[y]p.o?<y>.0", {"x": 32770, "y": 32769, "z": 32768})
    (tmp_path / "t.bin").write_bytes(before.table)
    (tmp_path / "t.names").write_text(before.names.text())
    run("step", tmp_path / "t.bin", "unfolding", 4, "-o", last, "--names", tmp_path / "t.names", "--save-names", names)
    assert set(wigandoy.read_names(names.read_text()).atoms) == {"x", "y", "p", "o"}


def test_json_of_what_is_wrong(run, nights, tmp_path):
    (tmp_path / "w.cows").write_text("0 |\n 0 0")
    status, out, errors = run("make", tmp_path / "w.cows", "-o", tmp_path / "t", "--json")
    told = json.loads(out)
    assert (status, errors, told["line"], told["column"]) == (2, "", 2, 4) and told["error"].startswith("| or +")
    (tmp_path / "w.cows").write_text("0 |\n kill(k0)")
    status, out, errors = run("make", tmp_path / "w.cows", "-o", tmp_path / "t", "--json")
    told = json.loads(out)["table"]
    assert (status, errors, told["answer"], told["place"], told["line"], told["column"]) == (1, "", 6, 2, 2, 2)
    assert "error" in json.loads(run("show", tmp_path / "none", "--json")[1])
    (tmp_path / "m").write_bytes(bytes(60001))
    assert json.loads(run("play", nights / "N8.cows", tmp_path / "m", "--json")[1])["list"]["answer"] == 19


def test_json_of_a_table(run, nights):
    told = json.loads(run("show", nights / "N3.cows", "--json")[1])
    assert told["term"] == "[x](p.o!<v> | p.o?<x>.0 | *p.o?<v>.0)"
    assert [(r["live"], r["ready"]) for r in told["records"]] == [(True, True)] * 5 + [(False, False)] + [(True, True), (False, True), (False, False)]
    assert [r["depth"] for r in told["records"]] == [1, 2, 3, 3, 4, 5, 4, 5, 6]


def test_a_list_that_is_too_long_is_not_made(run, tmp_path):
    (tmp_path / "m.moves").write_text("time 1\n" * 10001)
    status, out, _ = run("make", tmp_path / "m.moves", "-o", tmp_path / "m.bin")
    assert status == 1 and out.startswith("moves 19 0\n  19 at 0: 60,006 bytes") and not (tmp_path / "m.bin").exists()


def test_as_a_module_and_into_a_closed_pipe(nights):
    words = [sys.executable, "-m", "wigandoy"]
    done = subprocess.run([*words, "show", nights / "N8.cows"], cwd=ROOT / "python", capture_output=True, text=True)
    assert (done.returncode, done.stderr) == (0, "") and len(done.stdout.splitlines()) == 5
    done = subprocess.run([*words, "--help"], cwd=ROOT / "python", capture_output=True, text=True)
    assert done.returncode == 0 and all(name in done.stdout for name in ("make", "show", "check", "step", "open", "play", "report"))
    closed = subprocess.run(f"{sys.executable} -m wigandoy show {nights / 'N8.cows'} | true", shell=True, cwd=ROOT / "python",
                            capture_output=True, text=True)
    assert closed.stderr == ""


@pytest.mark.parametrize("without, message", [("rt", "rt is not here: the Rattle toolchain"), ("cc", "cc is not here: a C compiler")])
def test_build_without_its_tools(tmp_path, without, message):
    for name in {"rt", "cc"} - {without}:
        (tmp_path / name).write_text("#!/bin/sh\n")
        (tmp_path / name).chmod(0o755)
    done = subprocess.run([sys.executable, ROOT / "python" / "build"], env={"PATH": str(tmp_path)}, capture_output=True, text=True)
    assert done.returncode == 1 and message in done.stderr


def test_install(nights, tmp_path):
    pip = [sys.executable, "-m", "pip", "install", "--quiet", "--no-index", "--no-build-isolation", "--target", tmp_path, ROOT / "python"]
    done = subprocess.run(pip, capture_output=True, text=True)
    if "No module named pip" in done.stderr:
        pytest.skip("pip is not here")
    assert done.returncode == 0, done.stderr
    played = subprocess.run([sys.executable, "-m", "wigandoy", "play", tmp_path / "wigandoy/nights/N8.cows", nights / "N8.moves"],
                            cwd=tmp_path, capture_output=True, text=True)
    assert (played.returncode, played.stdout) == (1, (ROOT / "tests" / "n8.txt").read_text())
