# SPDX-License-Identifier: MIT OR Apache-2.0
"""Columns over Arrow's memory, as other packages hand it out in capsules."""
import ctypes
import itertools
import struct
import sys
from typing import Any, Iterator, NamedTuple, Optional, Protocol, Tuple, Type, TypeVar

from ._library import CONTEXT_BY, NEW, POINTER, address_of_function, python_call
from ._rows import Pieces, object_of, pieces_of


class ArrowArray(Protocol):
    """An array or a batch of records with Arrow's capsule protocol, as pyarrow and nanoarrow have them."""

    def __arrow_c_array__(self, requested_schema: Any = None) -> Tuple[Any, Any]: ...


class ArrowStream(Protocol):
    """Arrays one after another with Arrow's capsule protocol, as a column in chunks or a table has them."""

    def __arrow_c_stream__(self, requested_schema: Any = None) -> Any: ...


_new_capsule = python_call("PyCapsule_New", ctypes.py_object, POINTER, POINTER, POINTER)
_set_context = python_call("PyCapsule_SetContext", ctypes.c_int, ctypes.py_object, POINTER)
_pointer_of = python_call("PyCapsule_GetPointer", POINTER, ctypes.py_object, ctypes.c_char_p)
_show = python_call("PyMemoryView_FromMemory", ctypes.py_object, POINTER, ctypes.c_ssize_t, ctypes.c_int)
_READ_ONLY = 0x100
_FILL = ctypes.CFUNCTYPE(ctypes.c_int, POINTER, POINTER)
_TEXT = ctypes.CFUNCTYPE(ctypes.c_char_p, POINTER)
POINTERS = ctypes.POINTER(POINTER)
Struct = TypeVar("Struct", bound="_Struct")
CONTEXT_BY.locked(ctypes.cast(ctypes.pythonapi.PyCapsule_GetContext, POINTER))


def new_memory(size: int) -> int:
    """Return where so many bytes of zeros are, of the library's allocator."""
    found: Optional[int] = NEW.locked(size)
    if found is None:
        raise MemoryError
    return found


class _Struct(ctypes.Structure):
    """One of Arrow's structs, whose memory lives by its owner."""

    NAME: bytes
    END: int
    owner: Any = None

    def __del__(self) -> None:
        """End the owner here, where no error is on its way: one would reach the release of a producer in Python."""
        self.owner = None

    @classmethod
    def new(cls: Type[Struct]) -> Struct:
        """Return a struct of zeros in a capsule, which releases it at its end, unless it is so already."""
        size = ctypes.sizeof(cls)
        at = new_memory(size + len(cls.NAME) + 1)
        ctypes.memmove(at + size, cls.NAME, len(cls.NAME))
        it = cls.from_address(at)
        it.owner = _new_capsule(at, at + size, cls.END)
        _set_context(it.owner, at)
        return it

    @classmethod
    def in_capsule(cls: Type[Struct], capsule: Any) -> Struct:
        """Return the struct in a capsule."""
        it = cls.from_address(_pointer_of(capsule, cls.NAME))
        it.owner = capsule
        return it

    @classmethod
    def taken(cls: Type[Struct], capsule: Any) -> Struct:
        """Return a struct of the package's own, to which that of a capsule is moved."""
        given, it = cls.in_capsule(capsule), cls.new()
        moved = bytes(given)
        given.release = None  # before the other is there, so that no error leaves two that are released
        ctypes.memmove(ctypes.addressof(it), moved, len(moved))
        return it

    def child(self: Struct, number: int) -> Struct:
        """Return a child, which lives by its parent."""
        place = self.children[number] if 0 <= number < self.n_children and self.children else None
        expect(place is not None, f"array has no child {number}")
        it = type(self).from_address(place)
        it.owner = self
        expect(it.release, "array is released already")
        return it


_CHILDREN = [("children", POINTERS), ("dictionary", POINTER), ("release", POINTER), ("private_data", POINTER)]


class Schema(_Struct):
    """Arrow's `ArrowSchema`. Of a released one nothing is read but that it is."""

    NAME, END = b"arrow_schema", address_of_function("arrow_end_schema")
    _fields_ = [("_format", POINTER), ("_name", POINTER), ("_metadata", POINTER), ("flags", ctypes.c_int64),
                ("n_children", ctypes.c_int64), *_CHILDREN]

    @property
    def format(self) -> Optional[bytes]:
        return ctypes.string_at(self._format) if self.release and self._format else None

    def name(self, most: int) -> str:
        """Return the name, of a longer one so many bytes."""
        if not self.release or not self._name:
            return ""
        text = (ctypes.c_char * most).from_address(self._name)
        return b"".join(itertools.takewhile(b"\0".__ne__, text)).decode(errors="replace")

    def value_of(self, key: bytes) -> Optional[bytes]:
        """Return the value of a key in its metadata, where no text before it is too long."""
        at, found = self._metadata if self.release else None, None
        if not at:
            return None
        for number in range(2 * ctypes.c_int32.from_address(at).value):
            at += 4
            size = ctypes.c_int32.from_address(at).value
            if not 0 <= size <= MOST_METADATA:
                return None
            if number % 2 and found == key:
                return ctypes.string_at(at + 4, size)
            found = ctypes.string_at(at + 4, size) if size == len(key) else None
            at += size
        return None

    def extension(self) -> bytes:
        """Return the name of a type that is an extension of Arrow's, else nothing."""
        return self.value_of(NAME_KEY) or b""

    def metadata(self) -> Optional[bytes]:
        """Return what a type of GeoArrow says of its rows, such as their CRS; None of another type."""
        if not self.extension().startswith((b"geoarrow.", b"ogc.wkb")):
            return None
        text = self.value_of(METADATA_KEY)
        if text:
            object_of(text.decode(errors="replace"))
        return text or None


class Array(_Struct):
    """Arrow's `ArrowArray`."""

    NAME, END = b"arrow_array", address_of_function("arrow_end_array")
    _fields_ = [*((name, ctypes.c_int64) for name in ("length", "null_count", "offset", "n_buffers", "n_children")),
                ("buffers", POINTERS), *_CHILDREN]

    def buffer(self, place: int, size: int) -> memoryview:
        """Return so many bytes of a buffer of a checked array, which are there as long as the array lives."""
        at = self.buffers[place] or 0
        expect(size == 0 or at and 0 < size <= sys.maxsize - at, f"array lacks a buffer of {size} bytes")
        memory: memoryview = _show(at, size, _READ_ONLY) if size else memoryview(b"")
        return memory

    def validity(self, first: int, count: int) -> Optional[memoryview]:
        """Return the bits of some items, the first at bit `first % 8`; None if there is no validity."""
        if not self.buffers[0]:
            return None
        return self.buffer(0, (first + count + 7) // 8)[first // 8 :]

    def has_nulls(self, first: int, count: int) -> bool:
        """Return whether some items are null."""
        bits = self.validity(first, count) if self.null_count else None
        mask = (1 << count) - 1
        return bits is not None and int.from_bytes(bits, "little") >> first % 8 & mask != mask


class Stream(_Struct):
    """Arrow's `ArrowArrayStream`."""

    NAME, END = b"arrow_array_stream", address_of_function("arrow_end_stream")
    _fields_ = [(name, POINTER) for name in ("get_schema", "get_next", "get_last_error", "release", "private_data")]


# The keys of a type that is an extension of Arrow's. Texts that are longer are not looked at.
NAME_KEY, METADATA_KEY, MOST_METADATA = b"ARROW:extension:name", b"ARROW:extension:metadata", 1 << 24
# The types of rows, and the bytes of an offset: those of binary views have none.
OFFSET_SIZES = {b"z": 4, b"Z": 8, b"vz": 0}
# A view has so many bytes. A row of up to SHORT bytes is in the view itself; of a longer one it says where it is.
VIEW_SIZE, SHORT = 16, 12
# Views number buffers by signed 32-bit integers, and Arrow's libraries do so with children.
MOST_PARTS = 2**31 - 1
# How many buffers an array has: validity alone; with offsets or numbers; with offsets and data; or with views, any
# number of buffers, and their sizes.
VALIDITY, WITH_ONE, WITH_TWO, OF_VIEWS = range(1, 2), range(2, 3), range(3, 4), range(3, MOST_PARTS)
# The offsets or views of more rows are longer than any memory.
MOST_ROWS = sys.maxsize // VIEW_SIZE - 1
# An error shows so many names, and so many bytes of one.
SHOWN = 100
# Views may share bytes. The copies of all rows are at most so many times as long as the array.
MOST_COPIES = 16


class _Column(NamedTuple):
    """Where the column is in an array, and what it is."""

    child: Optional[int]  # of the array's own children; None if it is the array itself
    children: int  # how many these are
    offset_size: int
    metadata: Optional[bytes]


def expect(holds: Any, text: str) -> None:
    """Raise an error if a struct can't be right."""
    if not holds:
        raise ValueError(f"the Arrow {text}")


def check_schema(it: Schema) -> None:
    expect(it.format is not None, "array has no format")
    expect(0 <= it.n_children <= MOST_PARTS, f"array can't have {it.n_children} children")


def check_array(it: Array, children: int, buffers: range) -> None:
    """Raise an error unless the counts are those of an array with so many children and buffers, and fit together."""
    expect(it.release, "array is released already")
    expect(it.n_children == children, f"array has {it.n_children} children, and its schema {children}")
    expect(it.n_buffers in buffers, f"array can't have {it.n_buffers} buffers")
    expect(it.buffers, "array has no list of buffers")
    expect(it.offset >= 0 and it.length >= 0 and it.offset + it.length <= MOST_ROWS,
            f"array can't have {it.length} rows from row {it.offset} on")
    expect(-1 <= it.null_count <= it.length, f"array can't have {it.null_count} null rows of {it.length}")
    expect(it.null_count <= 0 or it.buffers[0], "array has null rows, and no validity")
    expect(not it.dictionary, "array has a dictionary, and its schema has none")


def _number_of(name: str, schema: Schema) -> int:
    """Return which child of records has this name. None is looked at that comes after it."""
    names, most = [], max(4 * len(str(name)) + 1, SHOWN)  # a character has at most four bytes
    if schema.format == b"+s" and not schema.dictionary:
        for number in range(schema.n_children):
            found = schema.child(number).name(most)
            if found == name:
                return number
            if number < SHOWN:
                names.append(found)
    more = " and more" if names and schema.n_children > SHOWN else ""
    raise ValueError(f"the Arrow array has no column {name!r}, but {names}{more}")


def _offset_size_of(schema: Schema) -> int:
    """Return the bytes of an offset of a column with this schema."""
    check_schema(schema)
    form = schema.format or b""
    size = OFFSET_SIZES.get(form)
    if size is None or schema.dictionary:
        kind = "dictionary" if schema.dictionary else form.decode(errors="replace")
        hint = "; name= picks a column of records" if kind == "+s" else ""
        raise TypeError(f"an Arrow array of format {kind!r} is not binary ('z', 'Z' or 'vz'){hint}")
    expect(schema.n_children == 0, f"array has {schema.n_children} children, and its type none")
    name = schema.extension()
    if name.startswith(b"geoarrow.") and name != b"geoarrow.wkb":
        raise TypeError(f"an Arrow array of type {name.decode(errors='replace')} is not WKB")
    return size


def _column_of(schema: Schema, name: Optional[str]) -> _Column:
    check_schema(schema)
    if name is None:
        return _Column(None, 0, _offset_size_of(schema), schema.metadata())
    number = _number_of(name, schema)
    child = schema.child(number)
    return _Column(number, schema.n_children, _offset_size_of(child), child.metadata())


def _pieces_in(it: Array, column: _Column) -> Pieces:
    """Return the memory of the column in an array, which the pieces keep."""
    first, rows, size = it.offset, it.length, column.offset_size
    if column.child is not None:
        check_array(it, column.children, VALIDITY)
        if it.has_nulls(first, rows):
            raise ValueError("records of the Arrow array are null as a whole")
        it = it.child(column.child)
        expect(first + rows <= it.length, f"array has records of which a column has {it.length} rows only")
        first += it.offset
    check_array(it, 0, WITH_TWO if size else OF_VIEWS)
    if size == 0:
        return pieces_of(_rows_in_views(it, first, rows))._replace(metadata=column.metadata)
    if rows == 0:
        return Pieces(b"", b"", None, offset_size=size, owner=it, metadata=column.metadata)
    ends = it.buffer(1, (first + rows + 1) * size)
    data = it.buffer(2, max(int.from_bytes(ends[-size:], sys.byteorder, signed=True), 0))
    return Pieces(data, ends, it.validity(0, first + rows), first, rows, size, it, column.metadata)


def _rows_in_views(it: Array, first: int, rows: int) -> Iterator[Optional[bytes]]:
    """Yield copies of the rows of an array of binary views."""
    count = it.n_buffers - 3
    sizes = struct.unpack(f"={count}q", it.buffer(it.n_buffers - 1, 8 * count))
    buffers = [it.buffer(2 + i, size) for i, size in enumerate(sizes)]
    bits = it.validity(first, rows)
    held = bytes(it.buffer(1, VIEW_SIZE * (first + rows))[VIEW_SIZE * first :])
    left = MOST_COPIES * (len(held) + sum(sizes))
    for i, (length, _, buffer, offset) in enumerate(struct.iter_unpack("=4i", held)):
        bit = first % 8 + i
        if bits is not None and not bits[bit // 8] >> bit % 8 & 1:
            yield None
        elif length <= SHORT:
            yield held[VIEW_SIZE * i + 4 : VIEW_SIZE * i + 4 + max(length, 0)]
        elif 0 <= buffer < count and 0 <= offset <= sizes[buffer] - length:
            left -= length
            expect(left >= 0, f"array's views share bytes: copied, they are more than {MOST_COPIES} times the array")
            yield bytes(buffers[buffer][offset : offset + length])
        else:
            raise ValueError(f"row {i} of the Arrow array is not where its view says")


def pieces_of_arrow(array: ArrowArray, name: Optional[str]) -> Pieces:
    """Return the memory of an Arrow array, or of a column of records. Its capsule owns it, and frees it at its end."""
    schema, it = taken(array)
    return _pieces_in(it, _column_of(schema, name))


def taken(array: ArrowArray) -> Tuple[Schema, Array]:
    """Return the structs of an array, which its capsules own no longer."""
    if not hasattr(array, "__arrow_c_array__"):
        hint = "; chunks_from_arrow takes what has chunks" if hasattr(array, "__arrow_c_stream__") else ""
        raise TypeError(f"{type(array).__name__} has no method __arrow_c_array__{hint}")
    schema_capsule, capsule = array.__arrow_c_array__()
    schema = Schema.taken(schema_capsule)
    it = Array.taken(capsule)
    expect(schema.release, "array is released already")
    expect(schema.n_children == it.n_children, "array has other children than its schema")
    return schema, it


def chunks_of_arrow(stream: ArrowStream, name: Optional[str]) -> Iterator[Pieces]:
    """Return the memory of each array of an Arrow stream. The type is looked at before the first array is asked for."""
    if not hasattr(stream, "__arrow_c_stream__"):
        hint = "; from_arrow takes one array" if hasattr(stream, "__arrow_c_array__") else ""
        raise TypeError(f"{type(stream).__name__} has no method __arrow_c_stream__{hint}")
    source = Stream.taken(stream.__arrow_c_stream__())
    return _chunks(source, _column_of(_next(source, source.get_schema, Schema), name))


def _chunks(stream: Stream, column: _Column) -> Iterator[Pieces]:
    """Yield the arrays of a stream. None is kept while the next one is not asked for."""
    yield from iter(lambda: _chunk(stream, column), None)


def _chunk(stream: Stream, column: _Column) -> Optional[Pieces]:
    """Return the next array of a stream; None at its end."""
    array = _next(stream, stream.get_next, Array)
    return _pieces_in(array, column) if array.release else None


def _next(stream: Stream, function: Any, kind: Type[Struct]) -> Struct:
    """Return the next array of a stream, or its schema."""
    expect(function, "stream lacks a function")
    expect(stream.release, "stream is released already")
    it, place = kind.new(), ctypes.addressof(stream)
    code = _FILL(function)(place, ctypes.addressof(it))
    if code == 0:
        return it
    ctypes.memset(ctypes.addressof(it), 0, ctypes.sizeof(it))  # of a failure nothing else is said
    text = _TEXT(stream.get_last_error)(place) if stream.get_last_error else None
    raise OSError(code, (text or b"the Arrow stream failed").decode(errors="replace"))
