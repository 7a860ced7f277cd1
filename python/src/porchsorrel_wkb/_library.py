# SPDX-License-Identifier: MIT OR Apache-2.0
"""The library, a shared object beside this file, its structs and functions, and functions of Python's own C interface.
"""
import ctypes
import operator
import pathlib
import sys
from typing import Any, Tuple

from ._enums import Status

_NAME = {"win32": "libwkb.dll", "darwin": "libwkb.dylib"}.get(sys.platform, "libwkb.so")
_PATH = str(pathlib.Path(__file__).with_name(_NAME))
# The library twice: calls by the first keep the interpreter's lock, and calls by the second give it back.
_LOCKED, _UNLOCKED = ctypes.PyDLL(_PATH), ctypes.CDLL(_PATH)
# A pointer is an address, None, a reference to a struct, or bytes.
POINTER, SIZE, NUMBER = ctypes.c_void_p, ctypes.c_size_t, ctypes.c_uint32
WORD = ctypes.c_uint64


class wkb_options(ctypes.Structure):
    _fields_ = [("order", NUMBER), ("form", NUMBER), ("srid", NUMBER)]


class wkb_column(ctypes.Structure):
    _fields_ = [("data", POINTER), ("size", SIZE), ("offsets", POINTER), ("offset_size", SIZE), ("validity", POINTER),
                ("validity_offset", SIZE), ("rows", SIZE)]


class wkb_coordinates(ctypes.Structure):
    _fields_ = [("words", POINTER), ("words_room", SIZE), ("ring_ends", POINTER), ("ring_room", SIZE),
                ("single_ends", POINTER), ("single_room", SIZE), ("row_ends", POINTER), ("coordinates", WORD),
                ("rings", WORD), ("singles", WORD)]


class wkb_levels(ctypes.Structure):
    _fields_ = [("words", POINTER), ("word_count", SIZE), ("ring_ends", POINTER), ("rings", SIZE),
                ("single_ends", POINTER), ("singles", SIZE), ("row_ends", POINTER), ("rows", SIZE),
                ("validity", POINTER), ("validity_offset", SIZE)]


class wkb_dump_options(ctypes.Structure):
    _fields_ = [("items", NUMBER), ("lines", WORD)]


class wkb_dump_header(ctypes.Structure):
    _fields_ = [("size", SIZE), ("srs_id", ctypes.c_int32), ("axes", POINTER), ("envelope", ctypes.c_double * 8)]


class Call:
    """A function of the library: called with the interpreter's lock held, and without it."""

    def __init__(self, name: str, result: Any, *arguments: Any):
        self.locked, self.unlocked = getattr(_LOCKED, name), getattr(_UNLOCKED, name)
        for it in (self.locked, self.unlocked):
            it.restype, it.argtypes = result, arguments


def python_call(name: str, result: Any, *arguments: Any) -> Any:
    """Return a function of Python's own. The types of those in ctypes.pythonapi belong to all packages."""
    return ctypes.PYFUNCTYPE(result, *arguments)((name, ctypes.pythonapi))


class _PyBuffer(ctypes.Structure):
    """CPython's `Py_buffer`: where the bytes are, and what isn't needed here."""

    _fields_ = [("address", POINTER), ("rest", POINTER * 10)]


_get_buffer = python_call("PyObject_GetBuffer", ctypes.c_int, ctypes.py_object, POINTER, ctypes.c_int)
_release_buffer = python_call("PyBuffer_Release", None, POINTER)


def address_of(view: Any) -> int:
    """Return where the bytes of a buffer in one piece are, as long as it isn't released, and has this length."""
    found = _PyBuffer()
    here = ctypes.byref(found)
    _get_buffer(view, here, 0)
    place: int = found.address or 0
    _release_buffer(here)
    return place


class BUFFER:
    """Of an object the memory that it shows, which is there while the call has the object; or None."""

    @classmethod
    def from_param(cls, it: Any) -> Any:
        return POINTER(None if it is None else address_of(it))


CHECK = Call("wkb_check", NUMBER, POINTER, SIZE, POINTER, POINTER)
BOUNDS = Call("wkb_bounds", NUMBER, POINTER, SIZE, POINTER, POINTER)
WRITE = Call("wkb_write", NUMBER, POINTER, SIZE, POINTER, POINTER, SIZE, POINTER, POINTER)
SAME = Call("wkb_same", NUMBER, POINTER, SIZE, POINTER, SIZE, POINTER, POINTER, POINTER)
PARTS = Call("wkb_parts", NUMBER, POINTER, SIZE, POINTER, SIZE, POINTER, POINTER)
COLUMN_CHECK = Call("wkb_column_check", None, POINTER, BUFFER)
COLUMN_BOUNDS = Call("wkb_column_bounds", None, POINTER, BUFFER, BUFFER)
COLUMN_FOUND = Call("wkb_column_found", None, POINTER, BUFFER, BUFFER)
COLUMN_PARTS = Call("wkb_column_parts", SIZE, POINTER, BUFFER, SIZE, BUFFER, BUFFER)
COLUMN_WRITE = Call("wkb_column_write", SIZE, POINTER, POINTER, BUFFER, SIZE, BUFFER, BUFFER)
COLLECT = Call("wkb_collect", NUMBER, POINTER, NUMBER, NUMBER, POINTER, BUFFER, SIZE, POINTER, POINTER, POINTER)
COLUMN_COORDINATES = Call("wkb_column_coordinates", None, POINTER, NUMBER, POINTER, BUFFER)
COLUMN_FROM_COORDINATES = Call("wkb_column_from_coordinates", SIZE, POINTER, NUMBER, NUMBER, POINTER, BUFFER, SIZE,
                               BUFFER, BUFFER)
STATUS_TEXT = Call("wkb_status_text", ctypes.c_char_p, NUMBER)
FAULT_TEXT = Call("wkb_fault_text", SIZE, POINTER, POINTER, SIZE)
VERSION = Call("wkb_version", ctypes.c_uint)
# Those of wkb_dump.h, of its program, and of arrow.c.
PUT = ctypes.PYFUNCTYPE(ctypes.c_int, POINTER, POINTER, SIZE)
DUMP = Call("wkb_dump", ctypes.c_int, POINTER, SIZE, POINTER, PUT, POINTER, POINTER)
OTHER = Call("wkb_dump_other", ctypes.c_char_p, POINTER, POINTER, SIZE)
READ_HEADER = Call("wkb_dump_read_header", ctypes.c_char_p, POINTER, SIZE, POINTER)
PROGRAM = Call("wkb_dump_program", ctypes.c_int, ctypes.c_int, POINTER)
NEW = Call("arrow_new", POINTER, SIZE)
CONTEXT_BY = Call("arrow_context_by", None, POINTER)
# The capacity that the text of a fault fits in.
TEXT_ROOM = 256


def address_of_function(name: str) -> int:
    """Return where a function of the library is."""
    return ctypes.cast(getattr(_LOCKED, name), POINTER).value or 0


def version() -> Tuple[int, int, int]:
    """Return the version of wkb.h that the library has."""
    number = VERSION.locked()
    return number // 1000000, number // 1000 % 1000, number % 1000


def status_text(status: int) -> str:
    """Return what a status says, in one line."""
    text: bytes = STATUS_TEXT.locked(Status(operator.index(status)))
    return text.decode()
