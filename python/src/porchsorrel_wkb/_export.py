# SPDX-License-Identifier: MIT OR Apache-2.0
"""Arrays of Arrow that go out. A consumer may release them in any thread, with the interpreter's lock or without, and
after its end. So each struct has memory of the library's allocator, with copies of all that it points to.
"""
import ctypes
import itertools
import operator
import struct
from typing import Any, Dict, List, NamedTuple, Optional, Tuple

from ._arrow import METADATA_KEY, NAME_KEY, POINTERS, Array, Schema, new_memory
from ._buffers import Numbers, bytes_in, flat, has_numpy, numbers_of, view_of
from ._enums import Dimension, Kind
from ._library import address_of, address_of_function
from ._rows import bits_of

if has_numpy:
    import numpy


class Node(NamedTuple):
    """What goes out as a struct of Arrow and its schema."""

    form: bytes
    name: bytes
    rows: int
    buffers: Tuple[memoryview, ...]  # those after the validity: offsets or doubles, and bytes
    children: Tuple[Any, ...] = ()
    metadata: Optional[bytes] = None
    validity: Optional[bytes] = None
    nulls: int = 0
    flags: int = 0


NULLABLE = 2
# Offsets of 32 bits end here.
NARROW = 2**31
# The numbers of formats, as memoryviews have them: offsets, and doubles.
CODES = {b"z": "i", b"Z": "q", b"+l": "i", b"+L": "q", b"g": "d"}
# The lists of GeoArrow, by kinds, from the outermost on: the name of a list's items, and the levels of offsets between
# the list and these.
LISTS: Dict[Kind, Tuple[Tuple[bytes, Tuple[int, ...]], ...]] = {
    Kind.LINE_STRING: ((b"vertices", (1, 2, 3)),),
    Kind.POLYGON: ((b"rings", (1, 2)), (b"vertices", (3,))),
    Kind.MULTI_POINT: ((b"points", (1, 2, 3)),),
    Kind.MULTI_LINE_STRING: ((b"linestrings", (1,)), (b"vertices", (2, 3))),
    Kind.MULTI_POLYGON: ((b"polygons", (1,)), (b"rings", (2,)), (b"vertices", (3,))),
}
RELEASES = {Schema: address_of_function("arrow_release_schema"), Array: address_of_function("arrow_release_array")}


def exported(node: Node) -> Tuple[Any, Any]:
    """Return the capsules of an array."""
    schema, it = Schema.new(), Array.new()
    _put_schema(schema, node)
    _put_array(it, node)
    return schema.owner, it.owner


def _copied(pieces: List[Any]) -> Tuple[int, List[int]]:
    """Copy buffers into new memory, one after another. Return where this is, and where each is in it; 0 is none."""
    views = [None if it is None else bytes_in(it) for it in pieces]
    ends = [*itertools.accumulate(0 if it is None else -(-it.nbytes // 8) * 8 for it in views)]
    base = new_memory(ends[-1])
    places = [0 if it is None else base + place for it, place in zip(views, [0, *ends])]
    for it, place in zip(views, places):
        if it is not None:
            ctypes.memmove(place, address_of(it), it.nbytes)
    return base, places


def _put(it: Any, pieces: List[Any], node: Node) -> List[int]:
    """Give a struct of zeros what it points to, and children of zeros. From its release on, they end with it. Return
    where the pieces are.
    """
    count, size = len(node.children), ctypes.sizeof(it)
    base, (*places, children, inside) = _copied([*pieces, bytes(8 * count), bytes(size * count)])
    it.children = ctypes.cast(children, POINTERS)
    for i in range(count):
        it.children[i] = inside + i * size
    it.n_children, it.private_data, it.release = count, base, RELEASES[type(it)]
    return places


def _put_schema(it: Schema, node: Node) -> None:
    """Make a struct of zeros the schema of a node."""
    it._format, it._name, it._metadata = _put(it, [node.form + b"\0", node.name + b"\0", node.metadata], node)
    it.flags = node.flags
    for i, child in enumerate(node.children):
        _put_schema(Schema.from_address(it.children[i]), child)


def _put_array(it: Array, node: Node) -> None:
    """Make a struct of zeros the array of a node. What is copied is tested, since it is what a consumer trusts."""
    count = 1 + len(node.buffers)
    *places, buffers = _put(it, [node.validity, *node.buffers, bytes(8 * count)], node)
    it.buffers = ctypes.cast(buffers, POINTERS)
    for i, place in enumerate(places):
        it.buffers[i] = place
    it.length, it.null_count, it.n_buffers = node.rows, node.nulls, count
    if not _is_whole(node, [it.buffer(i, view.nbytes) for i, view in enumerate(node.buffers, 1)]):
        raise ValueError("these arrays don't fit together: one has another length, type or offsets than the call has "
                         "returned")
    for i, child in enumerate(node.children):
        _put_array(Array.from_address(it.children[i]), child)


def _is_whole(node: Node, copies: List[memoryview]) -> bool:
    """Return whether the copies of buffers, and the children, are as long as the rows of a node need."""
    items = min((it.rows for it in node.children), default=0)
    code = CODES.get(node.form)
    if code is None:
        return node.rows <= items // (int(node.form[3:]) if node.form.startswith(b"+w:") else 1)
    if node.buffers[0].itemsize != struct.calcsize(code):
        return False
    numbers = copies[0].cast(code)
    if code == "d":
        return len(numbers) >= node.rows
    end = items if node.children else copies[1].nbytes
    return len(numbers) > node.rows and _are_offsets(numbers[: node.rows + 1], end)


def _are_offsets(numbers: memoryview, end: int) -> bool:
    """Return whether numbers don't fall, from 0 or more up to no more than an end."""
    if numbers[0] < 0 or numbers[-1] > end:
        return False
    return bool((numpy.diff(numbers) >= 0).all()) if has_numpy else all(map(operator.le, numbers, numbers[1:]))


def wanted(requested_schema: Any) -> Tuple[Optional[bytes], Optional[bytes]]:
    """Return the formats that a consumer asks for: that of the rows, and that of the coordinates inside lists."""
    if requested_schema is None:
        return None, None
    it = Schema.in_capsule(requested_schema)
    form = it.format
    while it.format in (b"+l", b"+L") and it.n_children > 0:
        it = it.child(0)
    return form, it.format


def metadata_of(extension: Optional[str], metadata: Optional[bytes]) -> Optional[bytes]:
    """Return Arrow's metadata of a type of GeoArrow."""
    if extension is None:
        return None
    texts = NAME_KEY, extension.encode(), METADATA_KEY, metadata or b"{}"
    return struct.pack("=i", len(texts) // 2) + b"".join(struct.pack("=i", len(it)) + it for it in texts)


def of_rows(statuses: Numbers, form: bytes, metadata: Optional[bytes], *buffers: memoryview,
            children: Tuple[Node, ...] = ()) -> Node:
    """Return an array of rows, of which those with a status are null."""
    held = bytes(view_of(statuses))
    nulls = len(held) - held.count(0)
    return Node(form, b"", len(held), buffers, children, metadata, bits_of(held), nulls, NULLABLE)


def narrow(offsets: Numbers) -> memoryview:
    """Return offsets as ones of 32 bits."""
    return view_of(numbers_of("i4", offsets))


def through(outer: Numbers, inner: Numbers) -> Numbers:
    """Return offsets into a level as offsets into the one below it."""
    items: Any = inner[outer] if has_numpy else map(inner.__getitem__, outer)
    return numbers_of("i8", items)


def dimension_of(numbers: memoryview, expected: Dimension) -> Dimension:
    """Return the dimension of coordinates in rows: the one that is expected, unless others have taken its place."""
    width = expected.width if numbers.ndim == 1 else (numbers.shape or ())[1]
    for it in [expected] + list(Dimension):
        if it.width == width:
            return it
    raise ValueError(f"a coordinate has two to four numbers, and not {width} numbers")


def leaf(name: str, numbers: memoryview) -> Node:
    """Return an array of doubles."""
    return Node(b"g", name.encode(), numbers.nbytes // 8, (numbers,))


def coordinates_of(words: Numbers, expected: Dimension, is_separated: bool) -> Tuple[bytes, Tuple[Node, ...], int]:
    """Return the format of coordinates as lists of one size, or as records, what is in these, and how many there are.
    """
    numbers = view_of(words)
    dimension = dimension_of(numbers, expected)
    axes, width = dimension.name.lower(), dimension.width
    count = numbers.nbytes // 8 // width
    if not is_separated:
        return b"+w:%d" % width, (leaf(axes, numbers),), count
    whole = flat(bytes_in(numbers)).cast("d")
    return b"+s", tuple(leaf(axis, whole[i::width]) for i, axis in enumerate(axes)), count
