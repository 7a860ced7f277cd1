"""The bytes of a geometry line by line: the worked cases of wkb_dump, its program, and what Python adds."""
import contextlib
import pathlib
import re
import subprocess
import sys
import unittest

import porchsorrel_wkb as wkb
from samples import POINT

# The tests of the library are beside the package in the repository, above it in the source package.
TOP = pathlib.Path(__file__).resolve().parents[2]
TESTS = (TOP / "c" if (TOP / "c").exists() else TOP) / "test"


class Dump(unittest.TestCase):
    @unittest.skipUnless(TESTS.exists(), "only the repository and the source package have the cases")
    def test_cases(self):
        cases, headers = re.split(r"(?m)^> ", (TESTS / "dump.cases").read_text(encoding="utf-8"))[1:], 0
        for case in cases:
            head, _, expected = case.partition("\n")
            _, items, lines, text = head.split(" ", 3)
            data = bytes.fromhex(re.sub(r"^\s*(\\x|0x)", "", text))
            with self.subTest(head):
                options = () if (items, lines) == ("3", "1000") else (int(items), int(lines))
                self.assertEqual(wkb.dump(memoryview(data), *options), expected)
                headers += self.has_header(data, expected)
        self.assertTrue(len(cases) > 20 and headers > 5)

    def has_header(self, data, lines):
        """Whether a case has the header of a GeoPackage, which is read as its lines say."""
        srid, wrong = re.search(r"SRID (.*)", lines), re.search(r"refused: (.*GeoPackage.*)", lines)
        ends = re.findall(r"(?:least|greatest) ([xyzm]) (.*)", lines)
        if wrong or not data.startswith(b"GP"):
            with self.assertRaisesRegex(ValueError, f"^{wrong[1]}$") if wrong else contextlib.nullcontext():
                self.assertIsNone(wkb.geopackage_header(data))
        else:
            axes, numbers = "".join(axis for axis, _ in ends[::2]), tuple(float(number) for _, number in ends)
            expected = 8 + 8 * len(ends), int(srid[1]), axes, numbers
            self.assertEqual(wkb.geopackage_header(memoryview(data)), expected)
        return data.startswith(b"GP")

    def test_arguments(self):
        for items, lines in ((-1, 0), (2**32, 0), (0, -1), (0, 2**64)):
            self.assertRaisesRegex(ValueError, "are not from 0", wkb.dump, POINT, items, lines)
        self.assertRaises(TypeError, wkb.dump, None)


class Program(unittest.TestCase):
    def test_program(self):
        """It is that in C, whose tests are c/test/alone/program_test: it gets the words and the input, and ends so."""
        for words, status, begin in (((), 0, wkb.dump(POINT)), (("-l",), 0, "line 1\n"), (("-i", "x"), 2, "usage: "),
                                     (("no such file",), 2, "wkb_dump: "), (("--help",), 0, "usage: ")):
            ran = subprocess.run([sys.executable, "-m", "porchsorrel_wkb", *words], input=POINT.hex().encode(),
                                 stdout=subprocess.PIPE, stderr=subprocess.STDOUT)
            self.assertEqual((ran.returncode, ran.stdout.decode()[: len(begin)]), (status, begin), words)

    def test_closed(self):
        """A pipe that is closed ends it without a word."""
        command = f"echo {POINT.hex()} | {sys.executable} -m porchsorrel_wkb | true"
        ran = subprocess.run(["sh", "-c", command], stdout=subprocess.PIPE, stderr=subprocess.STDOUT)
        self.assertEqual((ran.returncode, ran.stdout), (0, b""))
