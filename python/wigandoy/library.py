"""Library: the stepper's C functions, and memory lent to them.

Nothing is kept between calls and Python's lock is released while one runs, so threads may call side by side; a call takes at most
320 KiB of its thread's stack. Memory that a call reads is not copied and should not be changed by another thread meanwhile."""

import ctypes
import functools
from pathlib import Path

from .errors import LibraryMissing

FILE = Path(__file__).with_name("libwigandoy.so")
_BYTES, _SIZE, _WORD = ctypes.c_void_p, ctypes.c_size_t, ctypes.c_uint16
_TALLY = ctypes.c_uint32 * 4
# The arguments of each function of include/wigandoy.h; bytes are a pointer and a length.
FUNCTIONS = {
    "check": (_BYTES, _SIZE),
    "load": (_BYTES, _SIZE),
    "step": (_BYTES, _SIZE) * 3,
    "ticks": (_BYTES, _SIZE, ctypes.c_uint32, ctypes.c_uint32, _BYTES, _SIZE),
    "joint": (_BYTES, _SIZE, _BYTES, _SIZE, _BYTES, _SIZE, _TALLY),
    "play": ((_BYTES, _SIZE) * 4) + (_TALLY,),
    "open": (_BYTES, _SIZE) * 2,
    "orc": (_BYTES, _SIZE, _WORD, _WORD, _BYTES, _SIZE),
}


@functools.cache
def loaded():
    """The shared library, loaded once."""
    if not FILE.exists():
        raise LibraryMissing(f"{FILE.name} is not in the package. Build it with python/build in a clone of the repository, "
                             "which needs rt and a C compiler; a package that is installed has it then.")
    try:
        library = ctypes.CDLL(str(FILE))
        for name, arguments in FUNCTIONS.items():
            function = getattr(library, f"wigandoy_{name}")
            function.argtypes, function.restype = arguments, ctypes.c_uint64
    except (OSError, AttributeError) as wrong:
        raise LibraryMissing(f"{FILE.name} does not load, or is of another version: {wrong}. Build it again with python/build.") from wrong
    return library


class _View(ctypes.Structure):
    """Python's Py_buffer."""
    _fields_ = [("memory", ctypes.c_void_p), ("owner", ctypes.c_void_p), ("length", ctypes.c_ssize_t),
                ("item", ctypes.c_ssize_t), ("readonly", ctypes.c_int), ("dimensions", ctypes.c_int),
                ("format", ctypes.c_char_p), ("shape", ctypes.c_void_p), ("strides", ctypes.c_void_p),
                ("suboffsets", ctypes.c_void_p), ("internal", ctypes.c_void_p)]


_get = ctypes.pythonapi.PyObject_GetBuffer
_get.argtypes, _get.restype = (ctypes.py_object, ctypes.POINTER(_View), ctypes.c_int), ctypes.c_int
_release = ctypes.pythonapi.PyBuffer_Release
_release.argtypes, _release.restype = (ctypes.POINTER(_View),), None
# A pointer is never NULL, not even that of no bytes.
_NOTHING = ctypes.create_string_buffer(1)


class Lent:
    """The memory of bytes-like objects, lent to the library for a call and not copied. What is no such object raises TypeError, and
    what cannot be lent (a view with gaps; to be written, memory that is read-only) BufferError."""

    def __init__(self, *read, written=()):
        self.views = []
        try:
            for thing in read:
                self.lend(thing, 0)
            for thing in written:
                self.lend(thing, 1)
                self.stands_apart(self.views[-1])
        except BaseException:
            self.release()
            raise

    def lend(self, thing, flags):
        view = _View()
        _get(thing, view, flags)
        self.views.append(view)

    def stands_apart(self, view):
        """Memory that is written may overlap no other that is lent."""
        for other in self.views[:-1]:
            if view.length and other.length and view.memory < other.memory + other.length and other.memory < view.memory + view.length:
                raise ValueError("the memory to write to overlaps other memory of the call")

    def release(self):
        for view in self.views:
            _release(view)

    def __enter__(self):
        return [part for view in self.views for part in (view.memory if view.length else ctypes.addressof(_NOTHING), view.length)]

    def __exit__(self, *_):
        self.release()


def tally():
    """Four counts for the library to write."""
    return _TALLY()


def parts(reply):
    """A reply's answer, place and records."""
    return reply & 0xff, reply >> 8 & 0xffffff, reply >> 32
