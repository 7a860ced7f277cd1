# SPDX-License-Identifier: MIT OR Apache-2.0
"""The numbers of wkb.h that have names."""
import enum
import operator
from typing import Any, Optional, Tuple


class Status(enum.IntEnum):
    """What a call returns, and what became of a row of a column. `status_text` returns what a status says.

    From 1 on it is what a call couldn't do, from 16 on what is wrong with a row, and from 32 on why bytes are rejected
    (`is_refusal`). A library of a later version may have more of each: such a status is named by its number.
    """

    OK = 0
    NO_MEMORY = 1
    NO_ROOM = 2
    UNKNOWN_OPTION = 3
    TOO_MANY_ROWS = 4
    NULL_ROW = 16
    BAD_OFFSETS = 17
    BAD_LEVELS = 18
    SHORT_HEADER = 32
    INVALID_BYTE_ORDER = 33
    CODE_OUT_OF_RANGE = 34
    INCORRECT_TYPE = 35
    NESTING_DEPTH_EXCEEDED = 36
    SHORT_POINT = 48
    SHORT_LINE_STRING = 49
    SHORT_MULTI_POINT = 50
    SHORT_LINEAR_RING = 51

    @classmethod
    def _missing_(cls, value: Any) -> Any:
        number = operator.index(value) if hasattr(value, "__index__") else -1
        if not 0 <= number < 256:
            return None
        status = int.__new__(cls, number)
        status._name_, status._value_ = f"STATUS_{number}", number
        return status

    def __reduce_ex__(self, protocol: Any) -> Any:
        return type(self), (int(self),)  # by its number: Python 3.11 would look for the name


def is_refusal(status: Any) -> Any:
    """Return whether a status says that the bytes are rejected; of a numpy array of statuses, which of them do."""
    return status >= 32


def is_early_end(status: Any) -> Any:
    """Return whether a status says that the bytes end before their geometry does; of an array, which of them do."""
    return (status == Status.SHORT_HEADER) | (status >= 48)


class Kind(enum.IntEnum):
    """The kinds of geometries, by their numbers in the codes, and a ring of a polygon."""

    RING = 0
    POINT = 1
    LINE_STRING = 2
    POLYGON = 3
    MULTI_POINT = 4
    MULTI_LINE_STRING = 5
    MULTI_POLYGON = 6
    GEOMETRY_COLLECTION = 7


class Dimension(enum.IntEnum):
    """The dimensions, by the thousands of ISO codes."""

    XY = 0
    XYZ = 1
    XYM = 2
    XYZM = 3

    @property
    def width(self) -> int:
        """The numbers of a coordinate: 2, 3 or 4, of eight bytes each."""
        return len(self.name)


class Order(enum.IntEnum):
    """The byte orders, numbered by their marker byte."""

    BIG = 0
    LITTLE = 1


class Form(enum.IntEnum):
    """What is written besides the geometry itself. Only the outermost geometry's SRID is ever written.

    :cvar ISO: ISO codes, no SRID
    :cvar EWKB_OWN_SRID: EWKB, with the SRID of the geometry if it has one
    :cvar EWKB_WITH_SRID: EWKB, with the SRID that is asked for
    :cvar EWKB_WITHOUT_SRID: EWKB, without an SRID
    """

    ISO = 0
    EWKB_OWN_SRID = 1
    EWKB_WITH_SRID = 2
    EWKB_WITHOUT_SRID = 3


# Members, which take longer to find by their classes.
ISO, WITH_SRID = Form.ISO, Form.EWKB_WITH_SRID


def make_options(order: Order, form: Optional[Form], srid: Optional[int]) -> Tuple[int, int, int]:
    """Return the options, if they have a meaning. Without a form it is that of an SRID where there is one."""
    if form is None:
        form = ISO if srid is None else WITH_SRID
    if (srid is not None) != (form == WITH_SRID):
        raise ValueError("an SRID is written in Form.EWKB_WITH_SRID, and in no other form")
    number = 0 if srid is None else operator.index(srid)
    if not 0 <= number < 2**32:
        raise ValueError(f"SRID {number} is not from 0 to 4294967295")
    return order if isinstance(order, Order) else Order(order), form if isinstance(form, Form) else Form(form), number
