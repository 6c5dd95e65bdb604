"""Printing: from a table to the text of its term, which `reading` reads as the same bytes; and a record as words."""

from . import tables
from .atoms import names_of

# How tightly a kind binds what stands beside it, and what each child must bind at least as tightly as to go without brackets.
_BINDS = {tables.PARALLEL: 1, tables.CHOICE: 2}
_TIGHTEST = 3
_ASKS = {tables.PARALLEL: (2, 1), tables.CHOICE: (3, 2), tables.PROTECTION: (1,)}
_ASCII = {"dot": ".", "open": "<", "close": ">", "protect": ("{| ", " |}"), "wait": "wait ", "behind": ". "}
_SIGNS = {"dot": "·", "open": "⟨", "close": "⟩", "protect": ("⟦", "⟧"), "wait": "⊖", "behind": "."}


def activity(record, names, signs=False):
    """A stop, message, receive, wait or delimitation by itself, without what comes behind it; nil is 0."""
    style = _SIGNS if signs else _ASCII
    if record.kind == tables.NIL:
        return "0"
    if record.kind == tables.STOP:
        return f"kill({names.spell(record.first)})"
    if record.kind == tables.WAIT:
        return f"{style['wait']}{record.interval}"
    if record.kind == tables.DELIMITATION:
        return f"[{names.spell(record.first)}]"
    sign = "!" if record.kind == tables.MESSAGE else "?"
    contents = ", ".join(map(names.spell, record.contents))
    return f"{names.spell(record.first)}{style['dot']}{names.spell(record.second)}{sign}{style['open']}{contents}{style['close']}"


def _parts(record, names, signs):
    """The text of a record before, between and behind its children."""
    style = _SIGNS if signs else _ASCII
    if record.kind == tables.CHOICE:
        return "", " + ", ""
    if record.kind == tables.PARALLEL:
        return "", " | ", ""
    if record.kind == tables.PROTECTION:
        return style["protect"]
    if record.kind == tables.REPLICATION:
        return "*", ""
    behind = {tables.RECEIVE: ".", tables.WAIT: style["behind"]}.get(record.kind, "")
    return (activity(record, names, signs) + behind, *[""] * tables.CHILDREN[record.kind])


def term(table, names=None, signs=False, place=0):
    """The term at a place of a `Table`, or of the bytes of a well-formed one, on one line; with the papers' signs if asked for."""
    table, names, out, left = tables.whole(table), names_of(names), [], [(place, 1)]
    while left:
        at, least = left.pop()
        if isinstance(at, str):
            out.append(at)
            continue
        record = table.records[at]
        before, *parts = _parts(record, names, signs)
        if _BINDS.get(record.kind, _TIGHTEST) < least:
            before, parts[-1] = "(" + before, parts[-1] + ")"
        out.append(before)
        child, later = at + 1, []
        for part, asked in zip(parts, _ASKS.get(record.kind, (_TIGHTEST,))):
            later += [(child, asked), (part, 0)]
            child = table.ends[child] if child < len(table) else child
        left.extend(reversed(later))
    return "".join(out)


def line(record, names, signs=False):
    """A record as it stands on a line of its own, above its children."""
    style = _SIGNS if signs else _ASCII
    alone = {tables.CHOICE: "+", tables.PARALLEL: "|", tables.PROTECTION: "".join(style["protect"]).replace("  ", " "), tables.REPLICATION: "*"}
    if record.kind in alone:
        return alone[record.kind]
    return activity(record, names, signs) + ("." if record.kind in (tables.RECEIVE, tables.WAIT) else "")


def phrase(table, place, names):
    """A record as a sentence names it: the receive p.o?<x> at 6."""
    record = table.records[place]
    if record.kind == tables.WAIT:
        return f"the wait of {record.interval} at {place}"
    if record.kind in (tables.NIL, tables.CHOICE, tables.PARALLEL, tables.PROTECTION, tables.REPLICATION):
        return f"the {tables.KINDS[record.kind]} at {place}"
    return f"the {tables.KINDS[record.kind]} {activity(record, names)} at {place}"


def listing(table, names=None, signs=False):
    """A line for each record: its place, whether it is live or only ready, and the record, indented by its depth."""
    table, names = tables.whole(table), names_of(names)
    wide = len(str(len(table) - 1))
    return [f"{place:>{wide}}  {'live' if table.live[place] else 'ready' if table.ready[place] else '':<5}  "
            f"{'  ' * (table.depths[place] - 1)}{line(record, names, signs)}"
            for place, record in enumerate(table.records)]
