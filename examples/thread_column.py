#!/usr/bin/env python3
"""A column of geometries, read by several threads: `thread_column.py [ROWS [THREADS]]`.

The column is of lines of ten coordinates. Its rows are split over the threads, since calls over read-only memory give
the interpreter's lock back. Prints the seconds of each call in one thread and in several, and between brackets the
processor time of all threads together, each the least of five rounds.
"""
import concurrent.futures
import os
import struct
import sys
import time

import porchsorrel_wkb as wkb

CALLS = {"check": wkb.Column.check, "bounds": wkb.Column.bounds, "write": lambda it: it.write(wkb.Order.BIG)}


def least_seconds(call):
    """The seconds and the processor time of a call, the least of five each."""
    found = []
    for _ in range(5):
        begin, used = time.perf_counter(), time.process_time()
        call()
        found.append((time.perf_counter() - begin, time.process_time() - used))
    return tuple(map(min, zip(*found)))


def main(rows=1_000_000, threads=os.cpu_count() or 1):
    line = struct.pack("<BII20d", 1, 2, 10, *range(20))
    column = wkb.Column.of([line] * rows)
    with concurrent.futures.ThreadPoolExecutor(threads) as pool:
        in_threads = lambda call: list(pool.map(call, column.split(threads)))
        assert b"".join(map(bytes, in_threads(wkb.Column.check))) == bytes(column.check()), "the same statuses"
        for name, call in CALLS.items():
            one, used = least_seconds(lambda: call(column))
            several, used_together = least_seconds(lambda: in_threads(call))
            print(f"{name}: {one:.3f} s ({used:.3f}) in one thread, {several:.3f} s ({used_together:.3f}) in {threads}")


if __name__ == "__main__":
    if "--help" in sys.argv:
        print(__doc__)
    else:
        main(*map(int, sys.argv[1:]))
