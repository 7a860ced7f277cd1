# SPDX-License-Identifier: MIT OR Apache-2.0
"""What the calls raise."""
from typing import Optional

from ._enums import Status
from ._records import Fault


class Refused(ValueError):
    """Some bytes are rejected. It can be pickled.

    :ivar fault: the part that is rejected, and why
    :ivar which: the input that is rejected: 1, or 2 for the second one of `same`
    :ivar text: what the status says
    :ivar row: the row of a column that is no member of a collection; None if there is no column
    """

    def __init__(self, fault: Fault, which: int, text: str, hint: str = "", row: Optional[int] = None):
        super().__init__(fault, which, text, hint, row)
        self.fault, self.which, self.text, self.row, self._hint = fault, which, text, row, hint

    @property
    def status(self) -> Status:
        """Why the bytes are rejected."""
        return self.fault.status

    def __str__(self) -> str:
        which = "the second input: " if self.which == 2 else "" if self.row is None else f"row {self.row}: "
        return f"{which}{self.fault}{self._hint}"


def expect_same(holds: bool) -> None:
    """Raise an error if a second call finds something else than the first one, or needs another room than that said."""
    if not holds:
        raise RuntimeError("the input has changed during the call")
