"""What is held when a process ends, when no interpreter is left, and in sub-interpreters: each in a process of its own,
in Python's development mode."""
import itertools
import os
import subprocess
import sys
import unittest

# Programs that hold what a call has made, in a cycle that is there until the interpreter ends.
BEGIN = """
import gc, struct, sys
import porchsorrel_wkb as wkb
class Layer:
    def __init__(self, **held): self.__dict__.update(held, on=self.redraw)
    def redraw(self): pass
point = struct.pack("<BIdd", 1, 1, 1.0, 2.0)
"""
HOLDERS = {
    "module": "for _ in range(3):\n    layer = Layer(z=wkb.bounds(point).z); del layer, wkb\n"
              "    for name in [it for it in sys.modules if it.startswith('porchsorrel_wkb')]: del sys.modules[name]\n"
              "    gc.collect()\n    import porchsorrel_wkb as wkb",
    "records": "layer = Layer(of=[wkb.check(point), *wkb.parts(point), *wkb.Column.of([b'']).faults().values(),\n"
               "                  wkb.parts(point), wkb.Column.of([point]).found()])",
    "arrays": "c = wkb.Column.of([point])\n"
              "layer = Layer(of=[c.write().__arrow_c_array__(), wkb.Column.from_arrow(c.write())]); del c",
}

# An array that was handed out and moved is released at the very end, by a function of C's, without an interpreter.
LATE = """
import ctypes
c = ctypes.CDLL(None)
c.malloc.restype, pointer_of = ctypes.c_void_p, ctypes.pythonapi.PyCapsule_GetPointer
pointer_of.restype, pointer_of.argtypes = ctypes.c_void_p, (ctypes.py_object, ctypes.c_char_p)
_, capsule = wkb.Column.of(3 * [point]).write().__arrow_c_array__()
at, moved = pointer_of(capsule, b"arrow_array"), c.malloc(80)
ctypes.memmove(moved, at, 80)
words = (ctypes.c_void_p * 10).from_address(at)
release, words[8] = words[8], None
c.__cxa_atexit(ctypes.c_void_p(release), ctypes.c_void_p(moved), None)
"""
# Sub-interpreters, one after another; numpy can't be imported a second time.
INSIDE = "import sys; sys.modules['numpy'] = None\n" + BEGIN + HOLDERS["records"] + "\n" + HOLDERS["arrays"]
AGAIN = f"""
try:
    import _interpreters as all; how = dict(config="legacy")
except ImportError:
    import _xxsubinterpreters as all; how = dict(isolated=False) if sys.version_info > (3, 9) else {{}}
for _ in range(2):
    one = all.create(**how)
    assert not all.run_string(one, {INSIDE!r})
    all.destroy(one)
"""
ENVIRONMENT = dict(os.environ, PYTHONDEVMODE="1", PYTHONPATH=os.pathsep.join(filter(None, sys.path)))


class Processes(unittest.TestCase):
    def test_holders(self):
        programs = {**HOLDERS, "late": LATE, "again": AGAIN}
        without = "import sys; sys.modules['numpy'] = None\n"
        for before, (name, code) in itertools.product(("", without), programs.items()):
            ran = subprocess.run([sys.executable, "-c", before + BEGIN + code], env=ENVIRONMENT, stderr=subprocess.PIPE,
                                 timeout=20)  # the first that waits for ever ends the test
            with self.subTest(name, before=before):
                self.assertEqual((ran.returncode, ran.stderr.decode()), (0, ""))
