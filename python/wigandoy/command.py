"""Command: make, show, check, step, open, play and report. It ends with 0, with 1 if something was refused, and with 2 on misuse."""

import argparse
import json
import os
import sys

from . import calls, explain, files, moves, night, page, printing, tables
from .errors import LibraryMissing, Misuse, NotationError

ACCEPTED, REFUSED, MISUSED = 0, 1, 2


class Out:
    """Where a command's answer goes: lines of text, or with --json one object. All is kept until the command is done, so that its files
    are written whatever becomes of its output."""

    def __init__(self, as_json):
        self.as_json, self.lines, self.errors, self.object = as_json, [], [], {}

    def line(self, text):
        self.lines.append(text)

    def error(self, text):
        self.errors.append(str(text))

    def put(self, **fields):
        self.object.update(fields)

    def end(self):
        """Prints the answer."""
        if self.as_json:
            print(json.dumps(self.object, ensure_ascii=False, indent=1))
        else:
            for text in self.lines:
                print(text)
            for text in self.errors:
                print(text, file=sys.stderr)
        if sys.stdout is not None:
            sys.stdout.flush()


def answered(reply, **more):
    """A reply as --json has it."""
    return {"answer": reply.number, "name": reply.name, "place": reply.place, **more}


def refused(out, words, key, line, reply, why):
    """The answer to what is refused as a whole."""
    out.put(**{key: answered(reply, explanation=why)})
    out.line(f"{line} {reply.number} {reply.place}")
    if words:
        out.line(f"  {why}")
    return REFUSED


def refused_table(out, table, names, words):
    """The answer to a table that is refused, or None."""
    reply = calls.check(table)
    return None if reply.accepted else refused(out, words, "table", "table", reply, explain.table(reply, table, names))


def refused_list(out, reply, table, listed, words):
    """The answer to a play that is refused as a whole, or None."""
    return None if reply.accepted else refused(out, words, "list", "moves", reply, explain.play(reply, table, listed))


def make(given, out):
    """A term's table, or a list's moves, from their texts."""
    if files.is_list(given.text):
        return make_list(given, out)
    read = files.term(given.text, files.names(given.names))
    reply = calls.check(read.table)
    if not reply.accepted:
        why = explain.table(reply, read.table, read.names)
        where = read.error(reply.place, why)
        out.put(table=answered(reply, explanation=why, line=where.line, column=where.column))
        out.error(where)
        return REFUSED
    load = calls.load(read.table).load
    files.write(given.output, read.table, given)
    files.write_names(given.save_names, read.names, given)
    out.put(records=reply.records, load=load, names=read.names.atoms)
    out.line(f"{reply.records} records, load {load}")
    return ACCEPTED


def make_list(given, out):
    """A list's moves from their text."""
    if given.names or given.save_names:
        raise Misuse("a list of moves has no names")
    made = files.list_of_moves(given.text)
    if answer := refused_list(out, calls.play(bytes(tables.LENGTH), made), b"", made, True):
        return answer
    files.write(given.output, made, given)
    out.put(proposed=len(made) // moves.LENGTH)
    out.line(f"{len(made) // moves.LENGTH} moves")
    return ACCEPTED


def show(given, out):
    """A table, a line a record, or its term."""
    table, names = files.table(given.table, files.names(given.names))
    if answer := refused_table(out, table, names, True):
        return answer
    whole = tables.Table(table)
    if out.as_json:
        rows = zip(whole.records, whole.depths, whole.live, whole.ready)
        out.put(term=printing.term(whole, names, given.signs), records=[
            {"place": place, "kind": tables.KINDS[record.kind], "depth": depth, "live": live, "ready": ready,
             "text": printing.line(record, names, given.signs)} for place, (record, depth, live, ready) in enumerate(rows)])
    for line in [printing.term(whole, names, given.signs)] if given.term else printing.listing(whole, names, given.signs):
        out.line(line)
    return ACCEPTED


def check(given, out):
    """Whether a table is well formed."""
    table, names = files.table(given.table, files.names(given.names))
    if answer := refused_table(out, table, names, given.explain):
        return answer
    reply = calls.check(table)
    out.put(table=answered(reply, records=reply.records, load=calls.load(table).load))
    out.line(f"table 0 0 {reply.records}")
    return ACCEPTED


def row(number, move, reply, records, why):
    """A move of a list as --json has it."""
    found = {"number": number, "kind": move[0], "move": moves.words(move), **answered(reply, records=records)}
    return {**found, "explanation": why} if why else found


def proposed(given):
    """The move that a step's arguments say."""
    kind = moves.kind_of(given.kind)
    if kind is None:
        raise Misuse(f"{given.kind} is no kind of move; they are {', '.join(moves.KINDS)}")
    if kind == moves.MEETING and given.b is None:
        raise Misuse("a meeting has the places of its receive and its message behind it")
    return bytes(moves.Move(kind, given.a, given.b or 0))


def step(given, out):
    """One move on a table."""
    move = proposed(given)
    table, names = files.table(given.table, files.names(given.names))
    if answer := refused_table(out, table, names, given.explain):
        return answer
    reply = calls.step(table, move)
    records = reply.records or len(tables.records(table))
    why = explain.step(reply, table, move, names)
    if reply.accepted:
        files.write(given.output, reply.table, given)
        files.write_names(given.save_names, night.names_after(names, move, table, reply.table), given)
    out.put(**row(1, move, reply, records, why))
    out.line(f"1 {move[0]} {reply.number} {reply.place} {records}")
    if why and given.explain:
        out.line(f"  {why}")
    return ACCEPTED if reply.accepted else REFUSED


def open_moves(given, out):
    """Every move that can be made now."""
    table, names = files.table(given.table, files.names(given.names))
    if answer := refused_table(out, table, names, given.explain):
        return answer
    whole, found, told = tables.Table(table), calls.open_moves(table).moves, []
    for move in found:
        out.line(f"{move.kind} {move.a} {move.b}")
        if given.explain or out.as_json:
            words = explain.move(whole, move, names)
            out.line(f"  {words}")
            told.append({"kind": move.kind, "a": move.a, "b": move.b, "move": str(move), "words": words})
    out.put(moves=told)
    return ACCEPTED


def explanations(table, listed, replies, names):
    """Why each refused move of a list was refused, by the number of the move."""
    return {turn.number: explain.step(turn.reply, turn.before.shape, turn.move, turn.names)
            for turn in night.turns(table, listed, replies, names) if not turn.reply.accepted}


def play(given, out):
    """A list of moves on a table, as the program play prints it."""
    table, names = files.table(given.table, files.names(given.names))
    listed = files.list_of_moves(given.moves)
    reply = calls.play(table, listed)
    if answer := refused_table(out, table, names, given.explain) or refused_list(out, reply, table, listed, given.explain):
        return answer
    whole, tail = moves.split(listed)
    files.write(given.output, reply.table, given)
    if given.save_names:
        files.write_names(given.save_names, night.names_at_end(table, whole, reply.replies, names), given)
    why = explanations(table, whole, reply.replies, names) if given.explain or out.as_json else {}
    tally, left, rows = reply.tally, calls.load(reply.table).load, []
    for number, (move, each) in enumerate(zip(whole, reply.replies), 1):
        rows.append(row(number, move, each, each.records, why.get(number)))
        out.line(f"{number} {move[0]} {each.number} {each.place} {each.records}")
        if number in why:
            out.line(f"  {why[number]}")
    if tail:
        out.line(f"tail {len(tail)}")
    out.line(f"total {tally.meetings} {tally.stops} {tally.expiries} {left}")
    out.put(moves=rows, tail=len(tail), total={"meetings": tally.meetings, "stops": tally.stops, "expiries": tally.expiries, "load": left,
                                               "copied": tally.copied, "records": reply.records})
    return ACCEPTED if all(each.accepted for each in reply.replies) else REFUSED


def report(given, out):
    """A night as one HTML file; it ends with 0 if the file was written, whatever was refused in the night."""
    page.drawing()
    table, names = files.table(given.table, files.names(given.names))
    listed = files.list_of_moves(given.moves)
    reply = calls.play(table, listed)
    if answer := refused_table(out, table, names, True) or refused_list(out, reply, table, listed, True):
        return answer
    told = night.tell(table, listed, names, night.progress(sys.stderr))
    files.write(given.output, page.html(told, given.table, given.moves), given)
    out.put(**told.summary())
    out.line(f"{given.output}: {len(told.events)} moves, {len(told.refusals)} refused")
    return ACCEPTED


def number(word):
    """An argument of 16 bits."""
    found = moves.number(word)
    if found is None:
        raise argparse.ArgumentTypeError(f"{word} is no number from 0 to 65535")
    return found


HELP = {"text": "a term (.cows) or a list of moves (.moves) as text", "table": "the bytes of a table, or its term as text (.cows)",
        "moves": "the bytes of a list of moves, or the list as text (.moves)",
        "kind": f"the kind of the move: {', '.join(moves.KINDS)}; or its number"}


def arguments():
    """What the command understands."""
    parser = argparse.ArgumentParser(
        prog="python3 -m wigandoy", description="Tables and nights of the stepper. A table in a file ending in .cows is a term as text, "
        "moves in a file ending in .moves are a list as text; other files have the bytes.",
        epilog="Exit status: 0; 1 if a table, a list or a move was refused (not of report, which tells of refused moves); 2 on misuse.")
    commands = parser.add_subparsers(dest="command", required=True)

    def command(function, name, *positional):
        found = commands.add_parser(name, help=function.__doc__.partition(";")[0].rstrip("."), description=function.__doc__)
        for argument in positional:
            found.add_argument(argument, help=HELP[argument])
        found.add_argument("--names", metavar="F", help="a file of names: a name and the number of its atom a line")
        found.add_argument("--json", action="store_true", help="answer with one JSON object")
        found.set_defaults(function=function)
        return found

    made = command(make, "make", "text")
    made.add_argument("-o", "--output", required=True, help="the file of bytes to write")
    shown = command(show, "show", "table")
    shown.add_argument("--signs", action="store_true", help="the papers' signs")
    shown.add_argument("--term", action="store_true", help="the term on one line, which make reads")
    checked = command(check, "check", "table")
    stepped = command(step, "step", "table", "kind")
    stepped.add_argument("a", type=number, help="the place of the record that moves, or the time")
    stepped.add_argument("b", type=number, nargs="?", help="of a meeting, the place of the message")
    stepped.add_argument("-o", "--output", help="write the successor to this file")
    opened = command(open_moves, "open", "table")
    played = command(play, "play", "table", "moves")
    played.add_argument("-o", "--output", help="write the last table to this file")
    reported = command(report, "report", "table", "moves")
    reported.add_argument("-o", "--output", required=True, help="the HTML file to write")
    for each in (made, stepped, played):
        each.add_argument("--save-names", metavar="F", help="write the names of the atoms of the table that is left to this file")
    for each in (checked, stepped, opened, played):
        each.add_argument("--explain", action="store_true", help="say it in words too")
    return parser


def run(given):
    """The exit status of a command, and its answer."""
    out = Out(given.json)
    try:
        return given.function(given, out), out
    except NotationError as wrong:
        out.put(error=wrong.message, file=wrong.source.name, line=wrong.line, column=wrong.column)
        problem = wrong
    except (Misuse, LibraryMissing) as wrong:
        out.put(error=str(wrong))
        problem = wrong
    out.lines = []
    out.error(problem)
    return MISUSED, out


def main(words=None):
    """Runs the command, and returns its exit status."""
    status, out = run(arguments().parse_args(words))
    try:
        out.end()
    except BrokenPipeError:
        os.dup2(os.open(os.devnull, os.O_WRONLY), sys.stdout.fileno())
    except (OSError, UnicodeError) as wrong:
        print(f"the answer cannot be printed: {wrong}", file=sys.stderr)
        return MISUSED
    return status
