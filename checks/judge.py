"""Shared code of the tests of the pages and of the sources."""
import pathlib
import shutil
import sys
import unittest

sys.path.insert(0, str(pathlib.Path(__file__).resolve().parents[1] / "tools"))
import pages

# How the reason begins of a test that the machine has no program for; a script prints `left out: PART, since WHY`.
LACKING = "there is no "


def need(*programs):
    """Skip the test if the machine lacks one of the programs."""
    for it in programs:
        if not shutil.which(it):
            raise unittest.SkipTest(f"{LACKING}{it}")


def need_built(goal):
    """Make a goal of c/Makefile; skip the test if the machine lacks a program for it."""
    try:
        pages.build(goal)
    except pages.Absent as why:
        raise unittest.SkipTest(str(why))


def need_program():
    """Skip the test where the program `wkb_hex` is not built: nothing here proves it, which takes many minutes."""
    need("rt")
    if not pages.program("wkb_hex"):
        raise unittest.SkipTest("crates/wkb_hex/out/wkb_hex isn't there or is old: `rt ci` builds it")


class Judge(unittest.TestCase):
    """A judge: `wrong` yields what is wrong, in words. In the repository that is nothing."""

    def wrong(self):
        """The errors."""
        raise NotImplementedError

    def test_nothing_is_wrong(self):
        found = sorted(self.wrong())
        self.assertFalse(found, "\n" + "\n".join(found))
