# SPDX-License-Identifier: MIT OR Apache-2.0
"""Columns of rows that aren't in one piece."""
import contextlib
import io
import itertools
import json
import struct
from typing import Any, Dict, Iterable, List, NamedTuple, Optional, Tuple

from ._buffers import BYTES, Buffer, code_of, view_of


class Pieces(NamedTuple):
    """What a column is made of."""

    data: Buffer
    offsets: Buffer
    validity: Optional[Buffer]
    first: int = 0
    rows: int = 0
    offset_size: int = 8
    owner: Any = None  # what the memory lives by
    metadata: Optional[bytes] = None  # what GeoArrow's type says of the rows


def _bytes_of_row(i: int, row: Any) -> bytes:
    try:
        view = view_of(row)
        if view.ndim == 0 and len(view.format) == 1:
            raise TypeError("it is one number of numpy's")
        return bytes(view)
    except TypeError as error:
        raise TypeError(f"row {i} is neither bytes nor None: {error}") from None


# The digit of a status in a bitmap.
_DIGITS = b"1".ljust(256, b"0")


def bits_of(statuses: bytes) -> Optional[bytes]:
    """Return a bitmap of rows, least significant bit first, with 0 for each that has a status; None if none has."""
    if not statuses.strip(b"\0"):
        return None
    return int(statuses.translate(_DIGITS)[::-1], 2).to_bytes((len(statuses) + 7) // 8, "little")


def pieces_of(rows: Iterable[Optional[Buffer]]) -> Pieces:
    """Return the rows in one piece of memory."""
    column: Any = rows
    metadata = _metadata_of(getattr(column, "crs", None))
    is_one = isinstance(column, str)
    with contextlib.suppress(TypeError, ValueError):  # of no buffer, and of an array of numpy's dates
        is_one = is_one or code_of(memoryview(column)) in BYTES
    if is_one:
        raise TypeError(f"a column is made of many rows, and this is one {type(column).__name__}")
    if hasattr(column, "__arrow_c_array__"):
        raise TypeError(f"a {type(column).__name__} is an Arrow array, which from_arrow takes")
    if getattr(column, "ndim", 1) != 1:
        raise TypeError(f"a {type(column).__name__} of {column.ndim} dimensions is not one column")
    if getattr(getattr(column, "dtype", None), "kind", "O") == "S":
        raise TypeError("numpy's type S drops the zeros at the end of a row: make the array with dtype=object")
    if hasattr(column, "to_wkb"):
        column = column.to_wkb()
    items = list(column)
    if hasattr(column, "isna"):
        import numpy

        for i in numpy.flatnonzero(column.isna()).tolist():
            items[i] = None
    try:
        data, offsets, validity = *_joined(items), None
    except (TypeError, ValueError, BufferError):  # one is None, or no bytes, or not in one piece
        held = [b"" if row is None else _bytes_of_row(i, row) for i, row in enumerate(items)]
        data, offsets, validity = *_joined(held), bits_of(bytes(row is None for row in items))
    return Pieces(data, offsets, validity, rows=len(items), metadata=metadata)


def _joined(rows: List[Any]) -> Tuple[bytes, bytes]:
    """Return the bytes of all rows, and their offsets of 64 bits. Raise `TypeError` if one is no bytes, or not as
    long as its bytes."""
    out = io.BytesIO()
    out.writelines(rows)  # in a fifth of the time of bytes.join, which takes 80 bytes for each
    data, packed = out.getvalue(), struct.pack(f"={len(rows) + 1}q", *itertools.accumulate(map(len, rows), initial=0))
    if struct.unpack("=q", packed[-8:]) != (len(data),):
        raise TypeError
    return data, packed


def object_of(metadata: str) -> Dict[str, Any]:
    """Return the JSON object that the metadata is."""
    try:
        found = json.loads(metadata, parse_constant=int)  # NaN and Infinity, which are no JSON, are no integers
    except (ValueError, RecursionError) as error:
        raise ValueError(f"column.metadata is not JSON: {error}") from None
    if not isinstance(found, dict):
        raise ValueError(f'column.metadata is a JSON object such as {{"crs": ..}}, and not {metadata}')
    return found


def _metadata_of(crs: Any) -> Optional[bytes]:
    """Return what GeoArrow's types say of a CRS of pyproj, as geopandas has it."""
    if not hasattr(crs, "to_json_dict"):
        return None
    return json.dumps({"crs": crs.to_json_dict(), "crs_type": "projjson"}).encode()
