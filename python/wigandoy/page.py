"""Page: a night told as one HTML file, which needs no network and no scripts."""

import html as markup
import io
import sys

from . import moves
from .errors import Misuse

STYLE = """
body { font: 16px/1.5 system-ui, sans-serif; color: #1c2430; background: #fff; max-width: 62rem; margin: 2rem auto; padding: 0 1rem; }
h1 { font-size: 1.6rem; margin-bottom: 0; } h2 { font-size: 1.2rem; margin-top: 2rem; }
p.from { color: #5a6675; margin-top: .2rem; }
table { border-collapse: collapse; margin: .5rem 0; } th, td { padding: .25rem .8rem; text-align: left; border-bottom: 1px solid #d9dee5; }
th { font-weight: 600; } td.n, th.n { text-align: right; font-variant-numeric: tabular-nums; }
code { font: 14px/1.4 ui-monospace, monospace; overflow-wrap: anywhere; } svg { max-width: 100%; height: auto; }
.move { white-space: nowrap; } summary { cursor: pointer; } .beside { display: flex; flex-wrap: wrap; gap: 3rem; align-items: flex-start; }
"""

COLOURS = {"records": "#2b6cb0", "load": "#c05621", "refused": "#9b2c2c"}


def _cell(tag, content):
    """A cell; numbers stand to the right."""
    if isinstance(content, int):
        return f'<{tag} class="n">{content:,}</{tag}>'
    return f"<{tag}>{content}</{tag}>"


def _table(name, heads, rows):
    """A table whose cells are numbers or text that is marked up already. A head that ends in # is that of numbers."""
    head = "".join(f'<th class="n">{h[:-1]}</th>' if h.endswith("#") else f"<th>{h}</th>" for h in heads)
    body = "\n".join("<tr>" + "".join(_cell("td", cell) for cell in row) + "</tr>" for row in rows)
    return f'<table id="{name}">\n<thead><tr>{head}</tr></thead>\n<tbody>\n{body}\n</tbody>\n</table>'


def _code(text):
    return f"<code>{markup.escape(text)}</code>"


def _proposed(move):
    return f'<code class="move">{moves.words(move)}</code>'


def drawing():
    """matplotlib, which only a report needs."""
    try:
        import matplotlib
        import matplotlib.backends.backend_svg
        import matplotlib.figure
    except ImportError as wrong:
        raise Misuse(f"a report needs matplotlib, which {sys.executable} does not have ({wrong}). It is Debian's python3-matplotlib, "
                     "for Debian's own /usr/bin/python3; tests/install in a clone installs it.") from None
    return matplotlib


def picture(night):
    """Records and load over the moves, as SVG; the refused moves are marked below."""
    matplotlib = drawing()
    with matplotlib.rc_context():
        matplotlib.rcdefaults()
        matplotlib.rcParams.update({"svg.hashsalt": "wigandoy", "svg.fonttype": "path"})
        figure = matplotlib.figure.Figure(figsize=(9, 3.6), layout="constrained")
        matplotlib.backends.backend_svg.FigureCanvasSVG(figure)
        axes = figure.add_subplot()
        done = range(len(night.events) + 1)
        for label, heights in night.curves().items():
            axes.step(done, heights, where="post", label=label, color=COLOURS[label], gid=f"curve-{label}", clip_on=False,
                      marker="o" if len(done) <= 50 else None, markersize=4)
        refused = [number for number, _ in night.refusals]
        if refused:
            axes.plot(refused, [0] * len(refused), "x", color=COLOURS["refused"], label="refused", gid="curve-refused", clip_on=False)
        axes.set_xlabel("moves")
        axes.set_ylim(bottom=0)
        axes.set_xlim(-0.05 * max(len(night.events), 1), 1.05 * max(len(night.events), 1))
        axes.locator_params(integer=True)
        axes.legend(loc="upper left", bbox_to_anchor=(1, 1), frameon=False)
        axes.spines[["top", "right"]].set_visible(False)
        out = io.StringIO()
        figure.savefig(out, format="svg", metadata={"Date": None, "Creator": None, "Format": None, "Type": None})
    svg = out.getvalue()
    return svg[svg.index("<svg"):].replace("<svg", '<svg role="img" aria-label="records and load over the moves"', 1)


def _totals(night):
    tally = night.tally
    rows = [("records", night.start[0], night.end[0]), ("load", night.start[1], night.end[1])]
    counts = [("moves", len(night.events)), ("refused", len(night.refusals)), ("meetings", tally.meetings), ("stops", tally.stops),
              ("expiries", tally.expiries), ("load copied by unfoldings", tally.copied)]
    if night.tail:
        counts.append(("bytes behind the last move", night.tail))
    return (f'<div class="beside">\n{_table("ends", ("", "at the start#", "at the end#"), rows)}\n'
            f'{_table("total", ("", "in all#"), counts)}\n</div>')


def _balance(night):
    """Demand 3 in the numbers of this night."""
    return (f'<p id="balance">Twice the meetings, the stops, the expiries and the load left are {night.spent:,}; the load at the start and '
            f"the load copied are {night.given:,}. The difference, {night.given - night.spent:,}, was halted by stops or stood in arms "
            "that were not taken.</p>")


def _kinds(night):
    order = [*moves.KINDS, *sorted(kind for kind in night.kinds if kind not in moves.KINDS)]
    rows = [(kind, d.accepted, d.refused, d.records, d.load) for kind in order if (d := night.kinds.get(kind))]
    if not rows:
        return "<p>No move was proposed.</p>"
    return _table("kinds", ("kind of move", "accepted#", "refused#", "records#", "load#"), rows)


def _bodies(night):
    rows = [(c.load, c.records, c.times, _code(c.body)) for c in night.copies]
    if not rows:
        return "<p>Nothing was unfolded.</p>"
    return _table("bodies", ("load copied#", "records added#", "times#", "body"), rows)


def _refusals(night):
    if not night.refusals:
        return "<p>Nothing was refused.</p>"
    rows = [(number, _proposed(night.events[number - 1].move), markup.escape(why)) for number, why in night.refusals]
    return _table("refusals", ("move#", "proposed", "refused"), rows)


def _moves(night):
    rows = [(e.number, _proposed(e.move), e.reply.number, e.reply.place, e.reply.records, e.load) for e in night.events]
    return _table("moves", ("move#", "proposed", "answer#", "place#", "records#", "load#"), rows)


def html(night, table, listed):
    """The page of a night; `table` and `listed` name the files it came from."""
    return f"""<!DOCTYPE html>
<html lang="en">
<head>
<meta charset="utf-8">
<meta http-equiv="Content-Security-Policy" content="default-src 'none'; style-src 'unsafe-inline'">
<meta name="viewport" content="width=device-width, initial-scale=1">
<title>A night played: {markup.escape(table)}</title>
<style>{STYLE}</style>
</head>
<body>
<h1>A night played</h1>
<p class="from">{_code(table)} with {_code(listed)}</p>
{_totals(night)}
<h2>Records and load over the moves</h2>
{picture(night)}
{_balance(night)}
<h2>What each kind of move did</h2>
<p>By how much the moves of a kind changed the records of the table and its load.</p>
{_kinds(night)}
<h2>Who copied how much</h2>
<p>The unfoldings, by the body that was copied: what makes a table grow.</p>
{_bodies(night)}
<h2>What was refused, and why</h2>
{_refusals(night)}
<h2>Every move</h2>
<details><summary>{len(night.events):,} moves</summary>
{_moves(night)}
</details>
</body>
</html>
"""
