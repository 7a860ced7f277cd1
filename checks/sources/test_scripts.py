"""The linters have no warning about a script, and REUSE's finds the licence of each file. With --help a script says
what it is for."""
import os
import re
import subprocess
import unittest

from checks import judge
from pages import ROOT, files

# The linters, and the languages of the files that they are given.
LINTERS = [
    (["shellcheck", "-f", "gcc", "--source-path=SCRIPTDIR"], ("bash", "sh")),
    (["pyflakes3"], ("python",)),
    (["reuse", "lint"], ()),
]
# A file of names alone, which it imports for its users.
NAMES = ["python/src/porchsorrel_wkb/__init__.py"]


def sources_in(*languages):
    """The paths of the files of these languages, as their first lines or their names say."""
    for path in files() if languages else ():
        first = path.read_bytes().partition(b"\n")[0].decode(errors="replace")
        if re.match(rf"#!.*\b({'|'.join(languages)})\d?$", first) or path.suffix == ".py" and "python" in languages:
            yield str(path.relative_to(ROOT))


class Linters(unittest.TestCase):
    """Each linter ends well, and so does each script that is asked for help."""

    def test_each(self):
        for command, languages in LINTERS:
            with self.subTest(command=command):
                judge.need(command[0])
                paths = [it for it in sources_in(*languages) if it not in NAMES]
                ran = subprocess.run([*command, *paths], cwd=ROOT, capture_output=True, text=True)
                self.assertEqual(ran.returncode, 0, ran.stdout + ran.stderr)

    def test_help(self):
        for path in sources_in("bash", "sh", "python"):
            if os.access(ROOT / path, os.X_OK):
                ran = subprocess.run([ROOT / path, "--help"], cwd=ROOT, capture_output=True, text=True, timeout=60)
                self.assertTrue(ran.returncode == 0 and ran.stdout, f"{path} --help: {ran.stderr}")
