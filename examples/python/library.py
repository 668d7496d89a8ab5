"""Works a line by the library: library.py LIBRARY PLAN JOURNAL

It makes the calls of a journal, one after another, and prints the journal that comes of them; menglazou.h has the
functions."""

import ctypes
import pathlib
import sys
from ctypes import POINTER, byref, c_char_p, c_size_t, c_uint32, c_uint64, c_void_p

DONE = 0


class Line(ctypes.Structure):
    """A line: closed, as it is made."""

    _fields_ = [("open", c_uint32), ("at", c_void_p)]


class Fault(ctypes.Structure):
    _fields_ = [("line", c_uint32), ("cause", c_uint32)]


class Call(ctypes.Structure):
    _fields_ = [(name, c_uint32) for name in ("box", "moment", "act", "way", "value")]


class Reply(ctypes.Structure):
    _fields_ = [("count", c_uint64)] + [
        (name, c_uint32)
        for name in ("kind", "done", "lever", "row", "place", "train", "shown", "way", "spent", "moment")
    ]


class Entry(ctypes.Structure):
    _fields_ = [("number", c_uint64), ("call", Call), ("reply", Reply)]


def library_at(path):
    """The functions that are called here, with what they take."""
    library = ctypes.CDLL(str(pathlib.Path(path).resolve()))
    line, size = POINTER(Line), POINTER(c_uint64)
    library.menglazou_open.argtypes = [line, c_char_p, c_size_t, POINTER(Fault)]
    library.menglazou_close.argtypes = [line]
    library.menglazou_box.argtypes = [line, c_char_p, c_size_t, POINTER(c_uint32)]
    library.menglazou_perform_text.argtypes = [
        line, c_uint32, c_char_p, c_size_t, POINTER(Entry), POINTER(Fault)]
    library.menglazou_journal.argtypes = [line, size]
    library.menglazou_text.argtypes = [line, c_void_p, c_size_t, size]
    return library


def need(status):
    if status != DONE:
        sys.exit(f"status {status}")


def make_call(library, line, told):
    """Makes the call of an entry, as `3 Oak 09:02 turn down line_clear`."""
    _, name, call = told.split(b" ", 2)
    box, entry, fault = c_uint32(), Entry(), Fault()
    need(library.menglazou_box(line, name, len(name), byref(box)))
    need(library.menglazou_perform_text(line, box, call, len(call), byref(entry), byref(fault)))


def journal_of(library, line):
    """The text of the journal of the calls made so far."""
    size = c_uint64()
    need(library.menglazou_journal(line, byref(size)))
    room = ctypes.create_string_buffer(size.value)
    need(library.menglazou_text(line, room, size, byref(size)))
    return room.raw


def main():
    library = library_at(sys.argv[1])
    plan, journal = (pathlib.Path(it).read_bytes() for it in sys.argv[2:4])
    line, fault = Line(), Fault()
    need(library.menglazou_open(line, plan, len(plan), byref(fault)))
    for told in journal.splitlines():
        call, arrow, _ = told.partition(b" -> ")
        if arrow:
            make_call(library, line, call)
    sys.stdout.buffer.write(journal_of(library, line))
    need(library.menglazou_close(line))


main()
