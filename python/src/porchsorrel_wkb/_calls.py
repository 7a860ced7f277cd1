# SPDX-License-Identifier: MIT OR Apache-2.0
"""The calls for one geometry."""
import ctypes
import struct
from typing import Any, List, NoReturn, Optional, Tuple, Union

from ._buffers import Buffer, Inputs, Numbers, bytes_in, flat, over, view_of
from ._enums import Form, Kind, Order, Status, is_refusal, make_options
from ._errors import Refused, expect_same
from ._library import (
    BOUNDS, CHECK, DUMP, OTHER, PARTS, PUT, READ_HEADER, SAME, WRITE, Call, status_text, wkb_dump_header,
    wkb_dump_options, wkb_options,
)
from ._records import STRUCTS, Box, Fault, Found, GeoPackageHeader, Part, Table, record_in

# Results go into memory of this size first: so many bytes of an encoding, or parts.
SMALL, FEW = 4096, 64
_Small, _Record, _Fault = ctypes.c_char * SMALL, ctypes.c_char * 96, ctypes.c_char * STRUCTS[Fault].size


def _refuse(data: Buffer, which: int = 1) -> NoReturn:
    """Raise why an input is rejected, the first or the second one, and what it is if it is no WKB."""
    fault = fault_of(data)
    with Inputs() as inputs:
        other = OTHER.locked(STRUCTS[Fault].pack(*fault), *inputs.place(data))
    raise Refused(fault, which, status_text(fault.status), other.decode())


def fault_of(data: Any) -> Fault:
    """Return why bytes are rejected, which are."""
    fault = _Fault()
    expect_same(is_refusal(over(CHECK, data, None, fault)))
    return record_in(Fault, fault)


def check(data: Buffer) -> Found:
    """Return what is at the start of the bytes. Raise `Refused` if it isn't a geometry."""
    found = _Record()
    if over(CHECK, data, found, None):
        _refuse(data)
    return record_in(Found, found)


def well_formed(data: Buffer) -> bool:
    """Return whether the bytes are one geometry, and nothing after it, as `wkb_well_formed` of SQL has it.

    No bytes raise an error. Those of a GeoPackage or of SpatiaLite, and hexadecimal text, are no geometry.
    """
    found = _Record()
    return not over(CHECK, data, found, None) and record_in(Found, found).size == view_of(data).nbytes


def bounds(data: Buffer) -> Box:
    """Return the bounds of the geometry at the start of the bytes."""
    box = _Record()
    if over(BOUNDS, data, box, None):
        _refuse(data)
    return record_in(Box, box)


def _all(call: Call, data: Buffer, most: int, *more: Any) -> bytes:
    """Return all that a call writes: into memory for so many bytes or parts first, else into as much as it takes."""
    out, count = _Small(), ctypes.c_size_t()
    status = over(call, data, *more, out, most, ctypes.byref(count), None)
    size = count.value * (SMALL // most)
    if status == Status.OK:
        return out[:size]  # type: ignore[return-value]
    if status != Status.NO_ROOM:
        _refuse(data)
    needed, made = count.value, ctypes.create_string_buffer(size)
    status = over(call, data, *more, made, needed, ctypes.byref(count), None)
    expect_same(status == Status.OK and count.value == needed)
    return made.raw


def write(
    data: Buffer, order: Order = Order.LITTLE, form: Optional[Form] = None, srid: Optional[int] = None
) -> bytes:
    """Return the one encoding of the geometry at the start of the bytes, in this order and form.

    Without a form it is ISO, or with an SRID EWKB. The SRID is that of `Form.EWKB_WITH_SRID`, which needs one; no other
    form takes one. With the default options, two geometries of one value have the same encoding, whatever their byte
    orders and SRIDs are.
    """
    return _all(WRITE, data, SMALL, ctypes.byref(wkb_options(*make_options(order, form, srid))))


def same(first: Buffer, second: Buffer) -> bool:
    """Return whether both begin with geometries of one value: SRIDs aside, and coordinates compared by their bits."""
    equal, which = ctypes.c_uint32(), ctypes.c_uint32()
    with Inputs() as inputs:
        ours, theirs = inputs.place(first), inputs.place(second)
        call = inputs.choose(SAME, ours[1] + theirs[1])
        status = call(*ours, *theirs, ctypes.byref(equal), None, ctypes.byref(which))
    if status:
        _refuse(second if which.value == 2 else first, which.value)
    return equal.value == 1


def parts(data: Buffer) -> Table[Part]:
    """Return the parts of the geometry at the start of the bytes, in preorder: itself, and its rings and members."""
    return Table(Part, _all(PARTS, data, FEW))


def _words_of(data: Buffer, view: memoryview, part: Union[Part, Found]) -> Tuple[int, int]:
    """Return the bytes where the coordinates of a part begin and end, if the bytes of the data, which the view shows,
    have such a part where it says: its header and count are right, and no byte is missing.
    """
    if not isinstance(part, (Part, Found)):
        raise TypeError(f"a Part of parts(data) or the Found of check(data) is expected, and not {type(part)!r}")
    begin, width = part.begin if isinstance(part, Part) else 0, part.dimension.width
    is_there = 0 <= begin <= view.nbytes and part.kind <= Kind.LINE_STRING
    if is_there and part.kind == Kind.RING:
        count = int.from_bytes(view[begin : begin + 4], "big" if part.order == Order.BIG else "little")
        room = (view.nbytes - begin - 4) // 8 // width
        is_there = part.offset == begin + 4 and part.count == count and 0 <= count <= room
    elif is_there:
        found = _Record()
        is_there = not over(CHECK, view[begin:] if begin else data, found, None)
        it = record_in(Found, found) if is_there else part
        is_there = is_there and (begin + it.offset, *it[4:]) == (part.offset, part.count, *part[-4:])
    if not is_there:
        kind = getattr(part.kind, "name", part.kind)
        if part.kind > Kind.LINE_STRING:
            raise ValueError(f"a {kind} has no coordinates of its own, but {part.count} rings or members")
        raise ValueError(f"these are other bytes than those of the part: they have no such {kind} there")
    return part.offset, part.offset + 8 * width * part.count


def coordinates(data: Buffer, part: Union[Part, Found]) -> List[Tuple[float, ...]]:
    """Return the coordinates of a point, a line string or a ring, each of two to four numbers.

    The part is one that `parts` has found in these bytes, or `check` if it is a point or a line string. Raise
    `ValueError` where the bytes have no such part at its place.
    """
    with bytes_in(data) as held, flat(held) as view:
        begin, end = _words_of(data, view, part)
        return list(struct.iter_unpack(f"{'<>'[part.order == Order.BIG]}{part.dimension.width}d", view[begin:end]))


def view(data: Buffer, part: Union[Part, Found]) -> Numbers:
    """Return the coordinates of a point, a line string or a ring as a numpy array, a row for each. Nothing is copied.

    The part is one that `coordinates` takes. The numbers have its byte order. While the array lives, the data can't be
    resized.
    """
    import numpy

    with flat(view_of(data)) as view:
        begin, end = _words_of(data, view, part)
        order = ">" if part.order == Order.BIG else "<"
        return numpy.frombuffer(view[begin:end], order + "f8").reshape(-1, part.dimension.width)


def geopackage_header(data: Buffer) -> Optional[GeoPackageHeader]:
    """Return the header that a GeoPackage has before the geometry of a blob (OGC 12-128r18, clause 2.1.3); None if
    the blob doesn't begin with one.

    Raise `ValueError` where no geometry of WKB can be behind it: it is cut off or extended, or has another version or
    an unknown envelope. The geometry itself isn't looked at.
    """
    header = wkb_dump_header()
    with Inputs() as inputs:
        wrong = READ_HEADER.locked(*inputs.place(data), ctypes.byref(header))
    if wrong is not None:
        raise ValueError(wrong.decode())
    axes = ctypes.string_at(header.axes).decode()
    numbers = tuple(header.envelope[: 2 * len(axes)])
    return GeoPackageHeader(header.size, header.srs_id, axes, numbers) if header.size else None


def dump(data: Buffer, items: int = 3, lines: int = 1000) -> str:
    """Return what the bytes of a geometry say, line by line, and where and why they are rejected, if they are.

    The bytes may have the header of a GeoPackage's blob before the geometry. Of a longer list so many coordinates,
    rings or members are shown, and after so many lines only what leads to the rejected part, and the end; 0 is all.
    `python -m porchsorrel_wkb` prints the same of a file or of hexadecimal text.
    """
    if not 0 <= items < 2**32 or not 0 <= lines < 2**64:
        raise ValueError(f"items={items} and lines={lines} are not from 0 to 2**32 and 2**64")
    put, failed = [], []

    def take(_: Any, line: int, size: int) -> int:
        try:
            put.append(ctypes.string_at(line, size))
        except BaseException as error:
            failed.append(error)
        return len(failed)

    with Inputs() as inputs:
        DUMP.locked(*inputs.place(data), ctypes.byref(wkb_dump_options(items, lines)), PUT(take), None, None)
    if failed:
        raise failed[0]
    return b"".join(put).decode()
