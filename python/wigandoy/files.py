"""Files: what the command reads and writes. A table whose name ends in .cows, and moves in a file ending in .moves, are texts; all other
files have the bytes."""

from pathlib import Path

from . import atoms, moves, reading
from .errors import Misuse


def _bytes(path):
    try:
        return Path(path).read_bytes()
    except OSError as wrong:
        raise Misuse(f"{path} cannot be read: {wrong.strerror}") from None


def text(path):
    """A file's text."""
    try:
        return _bytes(path).decode("utf-8-sig")
    except UnicodeDecodeError as wrong:
        raise Misuse(f"{path} is no text in UTF-8: byte {wrong.start} is none") from None


def names(path):
    """The names of a names file; none if no file is given."""
    return atoms.read_names(text(path), str(path)) if path else atoms.Names()


def is_term(path):
    return Path(path).suffix == ".cows"


def is_list(path):
    return Path(path).suffix == ".moves"


def term(path, names):
    """The reading of a term's text."""
    return reading.read(text(path), names, str(path))


def table(path, fixed):
    """A table's bytes, and the names of its atoms."""
    if is_term(path):
        read = term(path, fixed)
        return read.table, read.names
    return _bytes(path), fixed


def list_of_moves(path):
    """The bytes of a list of moves."""
    return moves.read(text(path), str(path)) if is_list(path) else _bytes(path)


def write(path, content, given):
    """Writes bytes, or text, to a file, if one is named: not over a file that the command reads, and no bytes under the name of a text."""
    if path is None:
        return
    read = [getattr(given, name, None) for name in ("text", "table", "moves", "names")]
    if any(other and Path(other).exists() and Path(path).exists() and Path(path).samefile(other) for other in read):
        raise Misuse(f"{path} is read by this command and not written over")
    if not isinstance(content, str) and (is_term(path) or is_list(path)):
        raise Misuse(f"{path} would be read as a text, and bytes are to be written: name it otherwise")
    try:
        Path(path).write_bytes(content.encode() if isinstance(content, str) else content)
    except OSError as wrong:
        raise Misuse(f"{path} cannot be written: {wrong.strerror}") from None


def write_names(path, names, given):
    """Writes a names file, if one is named."""
    write(path, names.text(), given)
