"""The report: its figures are those of the replies, and one file is all of it; in Chromium too."""

import html.parser
import io
import random
import re
import shutil
import struct
import subprocess

import pytest

import generate
import wigandoy
from wigandoy import calls, command, moves, night, page, tables

pytest.importorskip("matplotlib")
CHROMIUM = shutil.which("chromium") or shutil.which("chromium-browser") or shutil.which("google-chrome")


class Cells(html.parser.HTMLParser):
    """The tables of a page by their ids, as rows of texts; its other texts, tags and attributes."""

    def __init__(self, content):
        super().__init__()
        self.tables, self.tags, self.attributes, self.texts, self.current = {}, [], [], {}, None
        self.cell, self.number, self.id = None, False, None
        self.feed(content)

    def handle_starttag(self, tag, attributes):
        self.tags.append(tag)
        self.attributes += attributes
        self.id = dict(attributes).get("id", self.id if tag != "p" else None)
        if tag == "table":
            self.current = self.tables.setdefault(dict(attributes)["id"], [])
        elif tag == "tr":
            self.current.append([])
        elif tag in ("td", "th"):
            self.cell, self.number = "", tag == "td" and dict(attributes).get("class") == "n"

    def handle_data(self, data):
        if self.cell is not None:
            self.cell += data
        elif self.id:
            self.texts[self.id] = self.texts.get(self.id, "") + data

    def handle_endtag(self, tag):
        if tag in ("td", "th"):
            self.current[-1].append(int(self.cell.replace(",", "")) if self.number else self.cell)
            self.cell = None

    def rows(self, name):
        """The rows below the heads."""
        return self.tables.get(name, [])[1:]


def compare(content, table, listed, names=None):
    """The figures of a page with the replies of the library, asked move by move."""
    names, cells, played = names or wigandoy.Names(), Cells(content), calls.play(table, listed)
    start, end = table, played.table
    assert cells.rows("ends") == [["records", len(start) // 16, played.records], ["load", calls.load(start).load, calls.load(end).load]]
    kinds, copied, refused, rows = {}, {}, [], []
    for i, reply in enumerate(played.replies):
        move = listed[6 * i:6 * i + 6]
        single = calls.step(table, move)
        assert (single.number, single.place) == (reply.number, reply.place)
        after = single.table if single.accepted else table
        loads = [calls.load(t).load for t in (table, after)]
        kind = moves.KINDS[move[0]] if move[0] < 6 else f"kind {move[0]}"
        row = kinds.setdefault(kind, [kind, 0, 0, 0, 0])
        row[1 if single.accepted else 2] += 1
        row[3] += (len(after) - len(table)) // 16
        row[4] += loads[1] - loads[0]
        if not single.accepted:
            refused.append([i + 1, moves.words(move), wigandoy.explain.step(single, table, move, names)])
        elif move[0] == moves.UNFOLDING:
            whole, a = tables.Table(table), struct.unpack("<H", move[2:4])[0]
            body = copied.setdefault(spelled_alike(whole, a + 1), [0, 0, 0, wigandoy.term(whole, names, place=a + 1)])
            for k, more in enumerate((loads[1] - loads[0], (len(after) - len(table)) // 16, 1)):
                body[k] += more
            names = names.without({r.first for r in tables.records(after)[a + 1:whole.ends[a]] if r.kind == tables.DELIMITATION})
        rows.append([i + 1, moves.words(move), reply.number, reply.place, reply.records, loads[1]])
        table = after
    assert table == end and cells.rows("moves") == rows and cells.rows("refusals") == refused
    assert sorted(cells.rows("kinds")) == sorted(kinds.values())
    assert sorted(cells.rows("bodies")) == sorted(copied.values())
    drawn(content, [[len(start) // 16, *(row[4] for row in rows)], [calls.load(start).load, *(row[5] for row in rows)]])
    tally = played.tally
    total = {name: number for name, number in cells.rows("total")}
    assert total == {"moves": len(rows), "refused": len(refused), "meetings": tally.meetings, "stops": tally.stops, "expiries": tally.expiries,
                     "load copied by unfoldings": tally.copied, **({"bytes behind the last move": played.tail} if played.tail else {})}
    assert sum(row[0] for row in cells.rows("bodies")) == tally.copied
    spent, given, left = (int(n.replace(",", "")) for n in re.findall(r"[\d,]*\d", cells.texts["balance"]))
    assert (spent, given) == (2 * tally.meetings + tally.stops + tally.expiries + calls.load(end).load, calls.load(start).load + tally.copied)
    assert left == given - spent >= 0


def spelled_alike(table, place):
    """A body as text, in which the atoms that it delimits are spelled in the order in which they stand: alike for all its copies."""
    order = {}
    for record in table.records[place:table.ends[place]]:
        if record.kind == tables.DELIMITATION:
            order[f"{wigandoy.Names().spell(record.first)}"] = f"_{len(order)}"
    return re.sub(r"\w+", lambda word: order.get(word[0], word[0]), wigandoy.term(table, place=place))


def drawn(content, curves):
    """The heights of the curves in the picture, read off their paths by two that are known, are the records and the loads."""
    paths = [re.search(rf'id="curve-{name}".*?<path d="(.*?)"', content, re.S) for name in ("records", "load")]
    points = [[tuple(map(float, point)) for point in re.findall(r"[ML] ?([-\d.]+) ([-\d.]+)", path[1])] for path in paths]
    heights = {}
    for found, wanted in zip(points, curves):
        last = {round(x, 3): y for x, y in found}
        if len(wanted) > 60:
            assert len(found) >= 1
            continue
        assert len(last) == len(wanted)
        for y, height in zip((y for _, y in sorted(last.items())), wanted):
            assert abs(heights.setdefault(height, y) - y) < 0.01
    ordered = sorted(heights.items())
    assert all(y1 > y2 for (_, y1), (_, y2) in zip(ordered, ordered[1:]))


def stands_alone(content):
    """No scripts, and nothing that is fetched."""
    cells = Cells(content)
    assert "script" not in cells.tags and not {"link", "img", "iframe", "object", "embed"} & set(cells.tags)
    for name, value in cells.attributes:
        assert not name.startswith("on")
        if name in ("href", "xlink:href", "src", "action", "data"):
            assert value.startswith("#")
    assert "url(http" not in content and "@import" not in content and "default-src 'none'" in content


def told(table, listed, names=None):
    return page.html(night.tell(table, listed, names or wigandoy.Names()), "table.bin", "moves.bin")


@pytest.mark.parametrize("number", range(1, 13))
def test_nights(nights, number):
    read = wigandoy.read((nights / f"N{number}.cows").read_text())
    listed = wigandoy.read_moves((nights / f"N{number}.moves").read_text())
    content = told(read.table, listed, read.names)
    compare(content, read.table, listed, read.names)
    stands_alone(content)


@pytest.mark.parametrize("seed", range(12))
def test_random_nights(seed):
    rng = random.Random(seed)
    table = generate.table(rng, 120)
    listed = generate.moves(rng, table, rng.choice((0, 5, 60))) + bytes(rng.randrange(6))
    compare(told(table, listed), table, listed)


def test_copies_of_a_copy_are_one_body():
    table = wigandoy.read("*wait 0. *[n](p.o!<n> | q.o!<n>)").table
    listed = b""
    for _ in range(3):
        for wanted, which in ((moves.UNFOLDING, -1), (moves.EXPIRY, -1), (moves.UNFOLDING, 0)):
            move = [m for m in calls.open_moves(table).moves if m.kind == wanted][which]
            listed += bytes(move)
            table = calls.step(table, move).table
    start = wigandoy.read("*wait 0. *[n](p.o!<n> | q.o!<n>)")
    content = told(start.table, listed, start.names)
    compare(content, start.table, listed, start.names)
    assert len(Cells(content).rows("bodies")) == 2


def test_a_setting_of_the_user_changes_nothing(tmp_path, monkeypatch):
    import matplotlib
    before = told(bytes(16), b"")
    with matplotlib.rc_context({"font.size": 30, "axes.facecolor": "black", "text.usetex": True}):
        assert told(bytes(16), b"") == before


def test_nothing_happened():
    content = told(bytes(16), b"")
    compare(content, bytes(16), b"")
    assert all(said in content for said in ("Nothing was refused.", "Nothing was unfolded.", "No move was proposed."))


def test_file_names_are_text():
    content = page.html(night.tell(bytes(16), b"", wigandoy.Names()), "<script>alert(1)</script>", "a&b")
    stands_alone(content)
    assert "&lt;script&gt;" in content and "a&amp;b" in content


def test_the_same_night_gives_the_same_page():
    table, listed = wigandoy.read("*p.o!<>").table, bytes(wigandoy.Move(4, 0))
    assert told(table, listed) == told(table, listed)


def test_a_long_list_shows_progress(tmp_path):
    table, listed = wigandoy.read("wait 60000. 0").table, bytes(wigandoy.Move(3, 1)) * 3000
    stream = io.StringIO()
    night.tell(table, listed, wigandoy.Names(), night.progress(stream, every=0))
    assert "\r1 of 3000 moves" in stream.getvalue() and stream.getvalue().endswith("\r3000 of 3000 moves\n")
    stream = io.StringIO()
    night.tell(table, listed[:60], wigandoy.Names(), night.progress(stream, every=0))
    assert stream.getvalue() == ""


def test_longest_list(tmp_path, capsys):
    (tmp_path / "t.cows").write_text("*[n]p.o!<n> | wait 9. 0")
    (tmp_path / "m.moves").write_text("time 1\nunfolding 1\nexpiry 0\n" * 300 + "time 1\n" * 9100)
    assert command.main(["report", str(tmp_path / "t.cows"), str(tmp_path / "m.moves"), "-o", str(tmp_path / "night.html")]) == 0
    assert "10000 of 10000 moves" in capsys.readouterr().err
    read = wigandoy.read("*[n]p.o!<n> | wait 9. 0")
    compare((tmp_path / "night.html").read_text(), read.table, wigandoy.read_moves((tmp_path / "m.moves").read_text()), read.names)


def chromium(*words):
    return subprocess.run([CHROMIUM, "--headless", "--no-sandbox", "--disable-gpu", "--hide-scrollbars", "--window-size=1040,1500",
                           "--host-resolver-rules=MAP * ~NOTFOUND", *words], capture_output=True, text=True, timeout=120)


@pytest.mark.skipif(CHROMIUM is None, reason="Chromium is not here")
def test_in_chromium(nights, tmp_path):
    listed, page_file, picture = nights / "N8.moves", tmp_path / "night.html", tmp_path / "night.png"
    assert command.main(["report", str(nights / "N8.cows"), str(listed), "-o", str(page_file)]) == 0
    read = wigandoy.read((nights / "N8.cows").read_text())
    shown = chromium("--dump-dom", page_file.as_uri())
    compare(shown.stdout, read.table, wigandoy.read_moves(listed.read_text()), read.names)
    stands_alone(shown.stdout)
    chromium(f"--screenshot={picture}", page_file.as_uri())
    assert picture.read_bytes()[:8] == b"\x89PNG\r\n\x1a\n" and struct.unpack(">II", picture.read_bytes()[16:24]) == (1040, 1500)
