"""The package beside the headers, in other processes, and the example of the pages."""
import ctypes
import importlib.util
import inspect
import io
import pathlib
import pydoc
import re
import runpy
import subprocess
import sys
import unittest
from unittest import mock

import porchsorrel_wkb as wkb
from samples import ISO_POLYGON
from porchsorrel_wkb import Status, _library, _records

try:
    import docutils.core
except ImportError:
    docutils = None

# The library is beside the package in the repository, above it in the source package.
TOP = pathlib.Path(__file__).resolve().parents[2]
C = TOP / "c" if (TOP / "c").exists() else TOP


class Header(unittest.TestCase):
    """What the package declares is what the headers say: structs, numbers, and each function that it calls."""

    TEXT = "".join(re.sub(r"/\*.*?\*/", "", path.read_text(), flags=re.DOTALL) for path in (
        C / "wkb.h", C / "wkb_dump.h", C / "wkb_dump_main.c", TOP / "python/src/arrow.c"))
    NUMBERS = {"uint32_t": ctypes.c_uint32, "uint64_t": ctypes.c_uint64, "size_t": ctypes.c_size_t, "int": ctypes.c_int,
               "int32_t": ctypes.c_int32, "double[8]": ctypes.c_double * 8, "unsigned": ctypes.c_uint, "void": None,
               **dict.fromkeys(("wkb_status", "wkb_kind", "wkb_dim"), ctypes.c_uint32)}

    def fields(self, name):
        """The fields of a struct, each with its type in C."""
        body = re.search(rf"typedef struct {name} {{(.*?)}} {name};", self.TEXT, re.DOTALL).group(1)
        for line in body.split(";")[:-1]:
            kind, names = re.fullmatch(r"\s*(?:const )?(\w+)\s+(.*)", line).groups()
            for stars, field, many in re.findall(r"(\**)(\w+)((?:\[\d\])?)", names):
                yield field, kind + stars + many

    def type_of(self, text):
        """The type of an argument, or of a field."""
        return ctypes.c_void_p if "*" in text else self.NUMBERS[text.split()[0]]

    def test_records(self):
        types = {"uint64_t": "i8", "uint32_t": "u4", "double": "f8", "wkb_range": _records.RANGE}
        records = {it.__name__.lower(): known for it, known in _records.FIELDS.items()}
        for name, known in {"range": _records.RANGE, **records}.items():
            self.assertEqual([(field, types[kind]) for field, kind in self.fields(f"wkb_{name}")], known)

    def test_structs(self):
        structs = [it for name, it in vars(_library).items() if name.startswith("wkb_")]
        for it in structs:
            self.assertEqual([(name, self.type_of(kind)) for name, kind in self.fields(it.__name__)], it._fields_)
        self.assertEqual(len(structs), 6)

    def test_calls(self):
        calls = [it for it in vars(_library).values() if isinstance(it, _library.Call)]
        for it in (function for call in calls for function in (call.locked, call.unlocked)):
            name = {"wkb_dump_program": "main"}.get(it.__name__, it.__name__)
            result, given = re.search(rf"([\w ]+\*?) *\b{name}\((.*?)\) *[;{{]", self.TEXT, re.DOTALL).groups()
            given = [] if given == "void" else given.split(",")
            own = [ctypes.c_void_p if kind in (_library.BUFFER, _library.PUT) else kind for kind in it.argtypes]
            self.assertEqual(own, [self.type_of(text) for text in given], name)
            is_text = result.startswith("const char *")
            self.assertEqual(it.restype, ctypes.c_char_p if is_text else self.type_of(result.strip()), name)
        self.assertGreater(len(calls), 15)

    def test_numbers(self):
        for numbers in (Status, wkb.Kind, wkb.Dimension, wkb.Order, wkb.Form):
            prefix = {"Dimension": "DIM"}.get(numbers.__name__, numbers.__name__.upper())
            found = re.findall(rf"WKB_{prefix}_(\w+) = (\d+)\b", self.TEXT)
            self.assertEqual(found, [(it.name, str(it.value)) for it in numbers])
        self.assertIn(f"WKB_FAULT_TEXT_ROOM {_library.TEXT_ROOM}\n", self.TEXT)


class Names(unittest.TestCase):
    """What is public, and what help says of it."""

    PUBLIC = {name for name in vars(wkb) if not name.startswith("_")}

    def test_help(self):
        shown = pydoc.plain(pydoc.render_doc(wkb))
        self.assertIn("One geometry, at the start of a blob", shown[:500])
        for of, before in ((wkb, r"\b"), (wkb.Column, r"\.")):
            for name in {name for name in vars(of) if not name.startswith("_")}:
                call = r"\(" if inspect.isroutine(getattr(of, name)) else ""
                self.assertRegex(wkb.__doc__, rf"{before}{name}\b{call}")

    def test_names(self):
        """The docstring of each class with fields says what each is."""
        for name in self.PUBLIC:
            it = getattr(wkb, name)
            self.assertTrue(it.__doc__, name)
            self.assertEqual(it.__module__, "porchsorrel_wkb", name)
            for field in getattr(it, "_fields", ()):
                self.assertRegex(it.__doc__, rf"\n *:ivar {field}: \w", name)
        for form in wkb.Form:
            self.assertRegex(wkb.Form.__doc__, rf":cvar {form.name}: \w")
        everything = {}
        exec("from porchsorrel_wkb import *", everything)
        self.assertEqual(self.PUBLIC, everything.keys() - {"__builtins__"})

    @unittest.skipUnless(docutils, "docutils is not here")
    def test_markup(self):
        """Docstrings are reST, as Sphinx takes it."""
        shown = [(wkb, wkb.__name__), *((getattr(wkb, name), name) for name in self.PUBLIC)]
        shown += [(it, f"Column.{name}") for name, it in vars(wkb.Column).items() if not name.startswith("_")]
        for it, name in shown:
            told = io.StringIO()
            docutils.core.publish_doctree(inspect.getdoc(it), settings_overrides={"warning_stream": told})
            self.assertEqual(told.getvalue(), "", name)

    def test_version(self):
        self.assertEqual(".".join(map(str, wkb.version())), wkb.__version__)
        with mock.patch.object(_library.VERSION, "locked", lambda: 1123004):
            self.assertEqual(wkb.version(), (1, 123, 4))


class Inside(unittest.TestCase):
    def test_types(self):
        """The package works whatever types others give the functions of ctypes.pythonapi, and leaves these as they are.
        """
        program = ("import ctypes, re, sys; sys.modules['numpy'] = None\n"
                   "own = [getattr(ctypes.pythonapi, it) for it in "
                   "re.findall(r'\\bPy[A-Z]\\w+_\\w+', ''.join(open(it).read() for it in sys.argv[1:]))]\n"
                   "for it in own: it.argtypes, it.restype = [ctypes.c_double], ctypes.c_char\n"
                   "import porchsorrel_wkb as wkb\n"
                   "print(*wkb.Column.from_arrow(wkb.Column.of([b'']).write()).check())\n"
                   "assert own and all(it.argtypes == [ctypes.c_double] for it in own)")
        sources = map(str, pathlib.Path(wkb.__file__).parent.glob("_*.py"))
        ran = subprocess.run([sys.executable, "-c", program, *sources], stdout=subprocess.PIPE, check=True)
        self.assertEqual(ran.stdout, b"16\n")


class Tags(unittest.TestCase):
    """What readelf says of a library, and the tag of its wheel."""

    NEEDS = " (NEEDED) Shared library: [{}]\n"
    OF_GLIBC = NEEDS.format("libc.so.6") + "Version needs section:\n Name: GLIBC_{}\n"
    CASES = [
        (OF_GLIBC.format("2.2.5"), "manylinux_2_17_it.manylinux2014_it"), (OF_GLIBC.format("2.18"), None),
        (OF_GLIBC.format("2.17"), "manylinux_2_17_it.manylinux2014_it"), (OF_GLIBC.format("2.39"), None),
        (NEEDS.format("libc.musl-it.so.1"), "musllinux_1_1_it"), (2 * NEEDS.format("libc.so.6"), None),
    ]

    @unittest.skipUnless(importlib.util.find_spec("wheel"), "wheel is not here")
    def test_each(self):
        with mock.patch("setuptools.setup"):
            tag = runpy.run_path(str(TOP / "python/setup.py"))["of_any_linux"]
        for told, wanted in self.CASES:
            with self.subTest(told), mock.patch("subprocess.run", return_value=mock.Mock(stdout=told)):
                self.assertEqual(tag("it", "it"), wanted)


@unittest.skipUnless((C / "examples/example.py").exists(), "only the repository has the example")
class Example(unittest.TestCase):
    @unittest.skipUnless((TOP / "examples/thread_column.py").exists(), "only the repository has the example")
    def test_threads(self):
        command = [sys.executable, TOP / "examples/thread_column.py", "1000", "3"]
        printed = subprocess.run(command, stdout=subprocess.PIPE, check=True).stdout.decode()
        seconds = r"\d+\.\d+ s \(\d+\.\d+\)"
        self.assertRegex(printed, "^" + "".join(f"{it}: {seconds} in one thread, {seconds} in 3\n"
                                                for it in ("check", "bounds", "write")) + "$")

    def test_output(self):
        ran = subprocess.run([sys.executable, C / "examples/example.py"], stdout=subprocess.PIPE, check=True)
        self.assertEqual(ran.stdout.decode().splitlines(), [
            "POLYGON of 2 parts in 33 bytes, SRID 4326",
            "1.0 2.0",
            ISO_POLYGON.hex(),
            "OK NULL_ROW SHORT_LINEAR_RING",
            "OK OK BAD_OFFSETS",
            "1.0 1.0",
            "0 1 2 2 0 1 2",
        ])
