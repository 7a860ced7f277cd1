# SPDX-License-Identifier: MIT OR Apache-2.0
"""The program wkb_dump: `python -m porchsorrel_wkb --help`."""
import ctypes
import os
import signal
import sys

from ._library import PROGRAM

if __name__ == "__main__":
    # It reads and writes by itself, as a program in C: an interrupt and a closed pipe end it.
    signal.signal(signal.SIGINT, signal.SIG_DFL)
    if hasattr(signal, "SIGPIPE"):
        signal.signal(signal.SIGPIPE, signal.SIG_DFL)
    words = [*map(os.fsencode, sys.argv), None]
    sys.exit(PROGRAM.unlocked(len(sys.argv), (ctypes.c_char_p * len(words))(*words)))
