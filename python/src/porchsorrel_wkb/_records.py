# SPDX-License-Identifier: MIT OR Apache-2.0
"""The structs of wkb.h as Python has them, and tables of them."""
import array
import ctypes
import html
import itertools
import struct
from functools import partial
from typing import Any, Dict, Iterator, List, NamedTuple, Optional, Sequence, Tuple, Type, TypeVar, Union, overload

from ._buffers import CODES, Numbers, has_numpy
from ._enums import Dimension, Kind, Order, Status
from ._library import FAULT_TEXT, TEXT_ROOM


class Found(NamedTuple):
    """The geometry at the start of some bytes.

    :ivar size: how many bytes it has; the bytes after them were not looked at
    :ivar parts: how many parts it has: itself, and its rings and members at every level
    :ivar coordinates: how many all parts have; each point has one, an empty point one of NaNs
    :ivar offset: the byte where its own coordinates, rings or members begin
    :ivar count: how many of these it has; a point has one coordinate
    :ivar srid: the SRID of EWKB; None if there is none
    :ivar kind: the kind, a `Kind`
    :ivar dimension: the dimension, a `Dimension`
    :ivar order: the byte order, an `Order`
    """

    size: int
    parts: int
    coordinates: int
    offset: int
    count: int  # type: ignore[assignment]
    srid: Optional[int]
    kind: Kind
    dimension: Dimension
    order: Order


class Fault(NamedTuple):
    """The part that is rejected, and why. `str` of it says this in one line.

    :ivar part: how many parts come before it, in preorder: 0 is the whole geometry
    :ivar offset: the byte where it begins, counted from the start of the input
    :ivar end: of a status from 48 on: how many bytes it needs; else 0
    :ivar len: of a status from 48 on: how many bytes there are, from its own first one on; else 0
    :ivar code: of CODE_OUT_OF_RANGE: all bits of the code; else 0
    :ivar status: why it is rejected, a `Status`
    """

    part: int
    offset: int
    end: int
    len: int
    code: int
    status: Status

    def __str__(self) -> str:
        text = ctypes.create_string_buffer(TEXT_ROOM)
        FAULT_TEXT.locked(STRUCTS[Fault].pack(*self), text, TEXT_ROOM)
        return text.value.decode()


class Part(NamedTuple):
    """A geometry, or a ring of a polygon. Its rings or members follow it in the table, each followed by its own.

    :ivar begin: its first byte, counted from the start of the input
    :ivar end: one past its last byte
    :ivar offset: the byte where its coordinates, rings or members begin
    :ivar count: how many of these it has; a point has one coordinate, an empty point one of NaNs
    :ivar next: the index of the part after its own rings and members
    :ivar srid: the SRID of EWKB; None if there is none
    :ivar kind: the kind, a `Kind`
    :ivar dimension: the dimension, a `Dimension`
    :ivar order: the byte order, an `Order`
    """

    begin: int
    end: int
    offset: int
    count: int  # type: ignore[assignment]
    next: int
    srid: Optional[int]
    kind: Kind
    dimension: Dimension
    order: Order


class Range(NamedTuple):
    """The range of an ordinate over all coordinates that have one. NaNs are left out.

    :ivar least: the least number; infinity where the count is 0
    :ivar greatest: the greatest number; minus infinity where the count is 0
    :ivar count: how many numbers there are
    """

    least: float
    greatest: float
    count: int  # type: ignore[assignment]


class Box(NamedTuple):
    """The bounds of a geometry: z of coordinates that have a z, m of those that have an m.

    :ivar x: the range of x
    :ivar y: the range of y
    :ivar z: the range of z
    :ivar m: the range of m
    """

    x: Range
    y: Range
    z: Range
    m: Range


class GeoPackageHeader(NamedTuple):
    """What a GeoPackage has before the geometry of a blob.

    :ivar size: how many bytes it has: the geometry is `blob[size:]`
    :ivar srs_id: the SRID; 0 and -1 stand for undefined ones
    :ivar axes: the ordinates of the envelope: "", "xy", "xyz", "xym" or "xyzm"
    :ivar envelope: of each of them the least and the greatest number as the header says, which may be wrong
    """

    size: int
    srs_id: int
    axes: str
    envelope: Tuple[float, ...]


Fields = List[Tuple[str, Any]]


def fields(kind: str, names: str) -> Fields:
    """Return fields of one type."""
    return [(name, kind) for name in names.split()]


# The fields of structs with their types as numpy has them, and the bytes of each struct. numpy computes with signed
# numbers only, and no count or offset needs the sign bit.
TYPE = fields("u4", "srid has_srid kind dimension width order")
RANGE = fields("f8", "least greatest") + fields("i8", "count")
FIELDS: Dict[Any, Fields] = {
    Found: fields("i8", "size parts coordinates offset count") + TYPE,
    Fault: fields("i8", "part offset end len") + fields("u4", "code status"),
    Part: fields("i8", "begin end offset count next") + TYPE,
    Box: [(axis, RANGE) for axis in "xyzm"],
}


def format_of(kind: Any) -> str:
    """Return the format of a field, or of many fields."""
    return CODES[kind] if isinstance(kind, str) else "".join(format_of(it) for _, it in kind)


STRUCTS: Dict[Any, struct.Struct] = {record: struct.Struct("=" + format_of(known)) for record, known in FIELDS.items()}
_new: Any = tuple.__new__  # of a named tuple, without a call of its own
_KINDS, _DIMENSIONS, _ORDERS = tuple(Kind), tuple(Dimension), tuple(Order)


def _made(record: Any, it: Any) -> Any:
    """Return the record with these five numbers, and this type of a geometry."""
    first, second, third, fourth, fifth, srid, has_srid, kind, dimension, _, order = it
    try:
        named = _KINDS[kind], _DIMENSIONS[dimension], _ORDERS[order]
    except IndexError:
        raise ValueError("a kind, a dimension or an order has no such number") from None
    return _new(record, (first, second, third, fourth, fifth, srid if has_srid else None, *named))


def _fault(it: Any) -> Fault:
    return Fault(it[0], it[1], it[2], it[3], it[4], Status(it[5]))


def _box(it: Any) -> Any:
    return _new(Box, [_new(Range, it[i : i + 3]) for i in (0, 3, 6, 9)])


_MADE: Dict[Any, Any] = {Found: partial(_made, Found), Part: partial(_made, Part), Fault: _fault, Box: _box}
Record = TypeVar("Record", Found, Fault, Part, Box)
# A table shows so many rows.
SHOWN = 5


def record_in(record: Type[Record], memory: Any, place: int = 0) -> Record:
    """Return the record whose struct is at some place."""
    made: Record = _MADE[record](STRUCTS[record].unpack_from(memory, place))
    return made


class Table(Sequence[Record]):
    """Records as the library has written them: each becomes a Python object when it is asked for.

    `numpy.asarray(table)` is a structured array of them without a copy. Its fields have the names that they have in
    wkb.h.
    """

    __slots__ = "_record", "_memory"

    def __init__(self, record: Type[Record], memory: Any):
        self._record: Any = record
        self._memory = memory

    def __len__(self) -> int:
        return memoryview(self._memory).nbytes // STRUCTS[self._record].size

    @overload
    def __getitem__(self, index: int) -> Record: ...

    @overload
    def __getitem__(self, index: slice) -> List[Record]: ...

    def __getitem__(self, index: Union[int, slice]) -> Union[Record, List[Record]]:
        place = range(len(self))[index]
        if isinstance(place, range):
            return [self[i] for i in place]
        record: Record = record_in(self._record, self._memory, place * STRUCTS[self._record].size)
        return record

    def __iter__(self) -> Iterator[Record]:
        whole = memoryview(self._memory).cast("B")[: len(self) * STRUCTS[self._record].size]
        return map(_MADE[self._record], STRUCTS[self._record].iter_unpack(whole))

    def __array__(self, dtype: Any = None, copy: Optional[bool] = None) -> Any:
        import numpy

        table = numpy.frombuffer(self._memory, FIELDS[self._record])
        return table.astype(dtype) if dtype is not None else table.copy() if copy else table

    def __reduce__(self) -> Any:
        return type(self), (self._record, bytes(self._memory))

    def __eq__(self, other: object) -> bool:
        if not isinstance(other, Table):
            return NotImplemented
        return self._record is other._record and bytes(self._memory) == bytes(other._memory)

    __hash__ = None  # type: ignore[assignment]

    def __repr__(self) -> str:
        rows = "".join(f"\n  {it}" for it in self[:SHOWN])
        return f"<table of {len(self)} {self._record.__name__}>{rows}" + "\n  .." * (len(self) > SHOWN)

    def _repr_html_(self) -> str:
        """Return the first rows as a notebook shows them."""
        head = "".join(f"<th>{name}</th>" for name in self._record._fields)
        rows = "".join(
            "<tr>" + "".join(f"<td>{html.escape(str(getattr(value, 'name', value)))}</td>" for value in it) + "</tr>"
            for it in self[:SHOWN]
        )
        more = f"<p>{len(self)} rows, of which these are the first {SHOWN}</p>" if len(self) > SHOWN else ""
        return f"<table><thead><tr>{head}</tr></thead><tbody>{rows}</tbody></table>{more}"


def every(table: Table[Any], *names: str) -> Numbers:
    """Return a number of each record: that of a field, or of a range and the field in it."""
    kind: Any = FIELDS[table._record]
    if has_numpy:
        numbers: Any = table.__array__()
        for name in names:
            numbers = numbers[name]
        return numbers  # type: ignore[no-any-return]
    place = 0
    for name in names:
        before = list(itertools.takewhile(lambda it: it[0] != name, kind))
        place, kind = place + struct.calcsize("=" + format_of(before)), kind[len(before)][1]
    size, step = struct.calcsize(CODES[kind]), STRUCTS[table._record].size
    words = memoryview(table._memory).cast("B")[: len(table) * step].cast(CODES[kind])
    made: Any = array.array(CODES[kind], words[place // size :: step // size].tobytes())
    return made  # type: ignore[no-any-return]
