"""Which calls give the interpreter's lock back: those over columns and long inputs, and no others."""
import struct
import sys
import threading
import unittest

import porchsorrel_wkb as wkb
from samples import POINT, calls
from porchsorrel_wkb import Column

COUNT = 100_000
# A collection of points, whose parts are read one by one.
LONG = struct.pack("<BII", 1, 7, COUNT) + COUNT * POINT
COLUMN = Column.of(COUNT * [POINT])
LEVELS = memoryview(COLUMN.coordinates().coordinates).toreadonly()
# The same memory where another thread may write it.
WRITABLE, NUMBERS = bytearray(LONG), bytearray(LEVELS)
COPY = Column(bytearray(COLUMN._data), COLUMN._offsets, offset_size=8)


def order_of(call, times):
    """What happens first, second and third, when this thread waits for the lock while another one makes so many calls,
    which stop when this thread gets it. No thread has to give it back but by a call."""
    happened, begins = [], threading.Event()

    def other():
        begins.set()
        happened.append("begin")
        for _ in range(times):
            call()
            if len(happened) > 1:
                break
        happened.append("end")

    interval, thread = sys.getswitchinterval(), threading.Thread(target=other)
    sys.setswitchinterval(1000)
    try:
        thread.start()
        begins.wait()
        happened.append("meanwhile")
        thread.join()
    finally:
        sys.setswitchinterval(interval)
    return happened


class Lock(unittest.TestCase):
    def test_given_back(self):
        for call in calls(LONG, COLUMN, LEVELS):
            self.assertEqual(order_of(call, 1_000), ["begin", "meanwhile", "end"])

    def test_kept_over_what_may_change(self):
        """Two passes over memory that another thread writes between them would write past their results."""
        for call in calls(WRITABLE, COPY, memoryview(NUMBERS).cast("d")):
            self.assertEqual(order_of(call, 20), ["begin", "end", "meanwhile"])

    def test_kept(self):
        """Calls over short inputs, many of them one after another."""
        for call in (wkb.check, wkb.bounds, wkb.write, wkb.parts, lambda it: wkb.same(it, it)):
            self.assertEqual(order_of(lambda: call(POINT), 50_000), ["begin", "end", "meanwhile"])

