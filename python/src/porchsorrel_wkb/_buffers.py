# SPDX-License-Identifier: MIT OR Apache-2.0
"""Callers' buffers, and memory for results."""
import array
import builtins
import operator
import sys
from typing import TYPE_CHECKING, Any, Dict, List, Optional, Tuple, Union

from ._library import Call, address_of

try:
    import numpy

    has_numpy = True
except ImportError:
    has_numpy = False

# What has min, max and sum of many numbers: Python's own make an object of each.
many: Any = numpy if has_numpy else builtins

# Numbers: numbers in one piece of memory, an array of numpy where it is installed, else of the module array.
# Buffer: anything with the buffer protocol. Arrays of numpy are told by a property, so that nothing else becomes a
# buffer for checkers of types where numpy isn't installed.
if TYPE_CHECKING:
    from typing import Protocol

    from _typeshed import ReadableBuffer

    class _NumpyArray(Protocol):
        @property
        def __array_interface__(self) -> Dict[str, Any]: ...

    Numbers = numpy.ndarray[Any, Any]
    Buffer = Union[ReadableBuffer, _NumpyArray]
else:
    Numbers = Buffer = Any

# The numbers of results by their types in numpy, and as the modules array and struct have them.
CODES = {"u1": "B", "u4": "I", "i4": "i", "i8": "q", "f8": "d"}
# The formats of bytes.
BYTES = "B", "b", "c"
# The bytes of a number of the library's: a double, or an end.
WORD_SIZE = 8
# An input is long from so many bytes on: the lock is given back during a call over it.
LONG = 1 << 14


def view_of(data: Any) -> memoryview:
    """Return the buffer as Python has it. The error for anything else says what makes one."""
    try:
        return memoryview(data)
    except TypeError as error:
        hint = "bytes.fromhex makes bytes of hexadecimal text, numpy.asarray or array.array an array of numbers"
        hint = "its attribute wkb has the bytes" if hasattr(type(data), "wkb") else hint
        raise TypeError(f"{error}: {hint}") from None


def bytes_in(data: Any) -> memoryview:
    """Return the bytes of a buffer; a copy of them where they aren't in one piece."""
    view = view_of(data)
    if view.c_contiguous:
        return view
    with view:
        return memoryview(view.tobytes())


def flat(view: memoryview) -> memoryview:
    """Return the bytes of a view in one piece, one after another. Python casts an empty one of one dimension only."""
    return view.cast("B") if view.nbytes else memoryview(b"")


def code_of(view: memoryview) -> str:
    """Return the format of a buffer without the sign for the machine's own byte order."""
    native = "@=" + ("<" if sys.byteorder == "little" else ">")
    return view.format[1:] if view.format[:1] in native else view.format


def size_of_offsets(offsets: Buffer, given: Optional[int]) -> Tuple[int, int]:
    """Return the bytes of an offset, as given for raw bytes, else by the format of the buffer; and how many these are.
    """
    with view_of(offsets) as view:
        code, size = code_of(view), view.itemsize
        if view.ndim != 1:
            raise TypeError(f"offsets have one dimension, and not {view.ndim}")
        if code in BYTES:
            if given not in (4, 8):
                raise TypeError(f"offsets in raw bytes need offset_size=4 or offset_size=8, and not {given}")
            size = operator.index(given)
        elif size not in {"i": (4,), "l": (4, 8), "q": (8,), "L": (8,), "Q": (8,)}.get(code, ()):
            raise TypeError(f"offsets of format {view.format!r} are not 32-bit or 64-bit numbers of this machine")
        elif given not in (None, size):
            raise TypeError(f"offsets of format {view.format!r} have {size} bytes: no offset_size={given}")
        count, rest = divmod(view.nbytes, size)
    if rest:
        raise ValueError(f"{rest} bytes are after the last offset")
    return size, count


def check_bits(validity: Optional[Buffer]) -> None:
    """Raise an error if the buffer isn't bytes. Each call tests how long it is."""
    if validity is not None:
        with view_of(validity) as view:
            if code_of(view) not in BYTES:
                raise TypeError(f"validity of format {view.format!r} is not bits in bytes")


class Inputs:
    """Callers' buffers, which are held while a `with` lasts, so that none gets another length or place."""

    def __init__(self) -> None:
        self._views: List[memoryview] = []
        self._may_change = False

    def __enter__(self) -> "Inputs":
        return self

    def __exit__(self, *_: Any) -> None:
        for view in self._views:
            view.release()

    def hold(self, view: memoryview) -> memoryview:
        """Return a view, which is held too."""
        self._views.append(view)
        self._may_change = self._may_change or not view.readonly
        return view

    def view(self, data: Any) -> memoryview:
        """Return the bytes of a buffer."""
        return self.hold(bytes_in(data))

    def place(self, data: Any) -> Tuple[int, int]:
        """Return where bytes are, and how many."""
        view = self.view(data)
        return address_of(view), view.nbytes

    def bits(self, validity: Any, count: int) -> Optional[int]:
        """Return where a validity bitmap of so many rows is; None if there is none."""
        if validity is None:
            return None
        place, size = self.place(validity)
        if 8 * size < count:
            raise ValueError(f"{size} bytes of validity hold fewer than {count} bits")
        return place

    def aligned(self, data: Any) -> memoryview:
        """Return numbers of eight bytes; a copy of their bytes where they are at another place."""
        view = self.view(data)
        return self.hold(memoryview(view.tobytes())) if address_of(view) % WORD_SIZE else view

    def choose(self, call: Call, size: int = LONG) -> Any:
        """Return the call that gives the lock back if the input is long, and no other thread may write it."""
        return call.unlocked if size >= LONG and not self._may_change else call.locked


def over(call: Call, data: Any, *more: Any) -> Any:
    """Make a call over the bytes of a buffer, which is held meanwhile."""
    if type(data) is bytes:
        size = len(data)
        return (call.locked if size < LONG else call.unlocked)(data, size, *more)
    with bytes_in(data) as view:
        size = view.nbytes
        return (call.unlocked if size >= LONG and view.readonly else call.locked)(address_of(view), size, *more)


def new_numbers(kind: str, count: int) -> Numbers:
    """Return an array of `count` numbers of this type of numpy's."""
    made: Any = numpy.empty(count, kind) if has_numpy else array.array(CODES[kind], [0]) * count
    return made  # type: ignore[no-any-return]


def numbers_of(kind: str, numbers: Any) -> Numbers:
    """Return an array of these numbers."""
    made: Any = numpy.array(numbers, kind) if has_numpy else array.array(CODES[kind], numbers)
    return made  # type: ignore[no-any-return]


def new_offsets(count: int) -> Numbers:
    """Return an array of offset 0 and `count` ends."""
    offsets = new_numbers("i8", count + 1)
    offsets[0] = 0
    return offsets
