"""The inputs of checks/hosts/cost, and their files, which the programs of the doors read.

A file is numbers of eight bytes: how many rows, singles, rings, bytes or words, and numbers of a validity bitmap there
are. Of a column follow the offsets, the bitmap and the bytes; of levels, which have singles, the ends of rows, of
singles and of rings, and the words.
"""
import itertools
import pathlib
import struct

LEAST = 1 << 13
POINT = struct.pack("<BI", 1, 1) + bytes(16)


def header(kind, count):
    return struct.pack("<BII", 1, kind, count)


# Kinds with coordinates, rings or members of few bytes, or of many parts.
SHAPES = {
    "coordinates": (2, bytes(16)),
    "empty rings": (3, bytes(4)),
    "points in the other order": (4, b"\0\0\0\0\1" + bytes(16)),
    "empty line strings": (5, header(2, 0)),
    "empty polygons": (6, header(3, 0)),
    "polygons of an empty ring": (6, header(3, 1) + bytes(4)),
    "empty collections": (7, header(7, 0)),
    "line strings with an SRID": (7, struct.pack("<BIII", 1, 0x20000002, 1, 0)),
    "127 nested collections": (7, 126 * header(7, 1) + header(7, 0)),
}
# End I of N, over so many items.
ORDERS = {
    "rising": lambda i, n, items: i * (items // n),
    "to and fro": lambda i, n, items: i % 2 * items,
    "fro and to": lambda i, n, items: (1 - i % 2) * items,
    "falling": lambda i, n, items: items - i * (items // n),
    "past the end": lambda i, n, items: i % 2 * (2**63 - 1),
    "from 0 on again": lambda i, n, items: i % 2 * i * (items // n),
    "all in the first": lambda i, n, items: items * (i > 0),
    "all in the last": lambda i, n, items: items * (i == n),
}


def of_shape(name, size):
    kind, part = SHAPES[name]
    count = (size - 9) // len(part)
    return header(kind, count) + count * part


def column(offsets, data, bits=None):
    """A column. BITS is each byte of its validity bitmap."""
    rows = len(offsets) - 1
    bitmap = b"" if bits is None else bytes([bits]) * 8 * (rows // 64 + 1)
    numbers = struct.pack(f"={6 + rows}q", rows, 0, 0, len(data), len(bitmap) // 8, *offsets)
    return numbers + bitmap + data + bytes(-len(data) % 8)


def in_one_row(name, size, cut):
    whole = of_shape(name, size)
    return column([0, len(whole) - cut], whole)


def three_a_row(name, size):
    row = of_shape(name, 9 + 3 * len(SHAPES[name][1]))
    return column([*range(0, size + 1, len(row))], size // len(row) * row)


def nested(around, size):
    """128 collections around parts: eight chains or fewer, that are deeper. All sizes have as many parts."""
    chains = 8 * LEAST // size
    chain = (128 // chains - 1) * around + of_shape("empty line strings", 4 * LEAST // chains)
    whole = header(7, chains) + chains * chain
    return column([0, len(whole)], whole)


def in_order(order, data, bits, size):
    """Offsets in an order over points, or over one geometry that is cut."""
    rows = size // 21 | 1
    held = rows * POINT if data == "points" else of_shape("empty line strings", size)[:-1]
    return column([ORDERS[order](i, rows, len(held)) for i in range(rows + 1)], held, bits)


def levels(orders, size):
    """Levels of as many rows, singles, rings and coordinates, each with ends in an order."""
    n = size // 40
    ends = [ORDERS[it](i, n, n) for it in orders for i in range(1, n + 1)]
    return struct.pack(f"={5 + len(ends)}q", n, n, n, 2 * n, 0, *ends) + bytes(16 * n)


def families():
    """The name of each family, and what makes its file of a size."""
    for name in SHAPES:
        yield f"{name} in one row", lambda size, name=name: in_one_row(name, size, 0)
        yield f"{name} in one row that is cut", lambda size, name=name: in_one_row(name, size, 1)
        yield f"{name}, three a row", lambda size, name=name: three_a_row(name, size)
    for name, around in {"collections": header(7, 1), "collections and points": header(7, 2) + POINT}.items():
        yield f"{name}, deeper and deeper", lambda size, around=around: nested(around, size)
    for given in itertools.product(ORDERS, ("points", "a cut geometry"), (None, 0x55)):
        name = "offsets {} over {}".format(*given) + ", every other row null" * (given[2] is not None)
        yield name, lambda size, given=given: in_order(*given, size)
    for order, at in itertools.product(list(ORDERS)[1:], (1, 2, 4, 7)):
        orders = [order if at >> i & 1 else "rising" for i in range(3)]
        name = "ends of rows {}, of singles {}, of rings {}".format(*orders)
        yield name, lambda size, orders=orders: levels(orders, size)


FAMILIES = dict(families())


def read(path):
    """The lists of a file as bytes: offsets, bitmap and data; or ends of rows, singles and rings, and words."""
    held = memoryview(pathlib.Path(path).read_bytes())
    rows, singles, rings, size, words = struct.unpack_from("=5q", held)
    counts = (8 * rows, 8 * singles, 8 * rings, 8 * size) if singles else (8 * rows + 8, 8 * words, size)
    ends = [40, *(40 + it for it in itertools.accumulate(counts))]
    return [held[begin:end] for begin, end in itertools.pairwise(ends)]
