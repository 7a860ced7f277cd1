"""Each file that has the version has the one of tools/version."""
import re
import subprocess
import unittest

from checks.judge import pages

NUMBER = r"\d+\.\d+\.\d+"
# How pages name a file of a release.
RELEASED = rf"\bporchsorrel[\w-]*-({NUMBER})"
# The files that name the version, and how.
NAMED = [
    ("python/pyproject.toml", r'(?m)^version = "(.*)"$'),
    ("python/src/porchsorrel_wkb/__init__.py", r'(?m)^__version__ = "(.*)"$'),
    ("Cargo.toml", r'(?m)^version = "(.*)"$'),
    ("rust/geo/Cargo.toml", r'(?m)^version = "(.*)"$'),
    ("rust/geo/Cargo.toml", r'(?m)^porchsorrel-wkb = .*"([\d.]+)"'),
    ("rust/geo/README.md", r'(?m)^porchsorrel-wkb\S* = "(.*)"'),
    ("CITATION.cff", r"(?m)^version: (.*)$"),
    ("README.md", rf"Version ({NUMBER})"),
    ("docs/TESTING.md", rf"of version\s({NUMBER})"),
    ("docs/START_C.md", r"find_package\(wkb ([\d.]+)"),
    ("CHANGELOG.md", rf"\A(?:.*\n)*?## ({NUMBER})\n"),
    ("c/package/package.md", r"version\s([\d.]+)\sof\sthe\scalls"),
    ("docs/README.md", rf"\bwkb--({NUMBER})\.sql"),
    ("docs/START_SQL.md", rf"\bwkb--({NUMBER})\.sql"),
    ("docs/START_SQL.md", rf'version "({NUMBER})" of'),
    ("c/package/debian/changelog", rf"\A\S+ \(({NUMBER})-1\)"),
    ("postgres/wkb.control", r"(?m)^default_version = '(.*)'$"),
    *((page, RELEASED) for page in pages.PAGES if re.search(RELEASED, pages.text_of(page))),
]
# The packages, which name the licence that .reuse/dep5 has for all files, and how they say it.
LICENSED = "Cargo.toml python/pyproject.toml rust/geo/Cargo.toml".split()
LICENSE = r'(?m)^license = .*"(.*)"'
# What users see first of a package, which claims this and nothing more.
CLAIM = "compiled from formally verified sources"
FACES = """
    CITATION.cff Cargo.toml c/package/package.md c/package/wkb.pc.in postgres/wkb.control python/README.md
    python/pyproject.toml python/src/porchsorrel_wkb/__init__.py rust/README.md rust/geo/Cargo.toml rust/geo/README.md
    web/package.json web/README.md
    """.split()
# The page that names the oldest Rust of Cargo.toml.
RUST = "README.md", r"\bRust\s(\d[\d.]*\d)"


class Versions(unittest.TestCase):
    """The versions of each file."""

    def setUp(self):
        told = subprocess.run([pages.ROOT / "tools/version"], stdout=subprocess.PIPE, text=True, check=True).stdout
        self.version = re.search(r"(?m)^version (.*)$", told)[1]

    def test_the_files_name_it(self):
        for path, pattern in NAMED:
            with self.subTest(path=path, pattern=pattern):
                self.assertEqual({*re.findall(pattern, pages.text_of(path))}, {self.version})

    def test_the_packages_have_the_licences(self):
        stated, = {*re.findall(r"(?m)^License: (.*)$", pages.text_of(".reuse/dep5"))}
        for path in LICENSED:
            with self.subTest(path=path):
                self.assertEqual(re.findall(LICENSE, pages.text_of(path)), [stated])
        listed = re.search(r"(?m)^license:\n((?:  - .*\n)+)", pages.text_of("CITATION.cff"))[1]
        self.assertEqual(" OR ".join(re.findall("- (.*)", listed)), stated)

    def test_the_faces_claim_one_thing(self):
        for path in FACES:
            with self.subTest(path=path):
                text = " ".join(pages.text_of(path).split())
                self.assertEqual((CLAIM in text, text.count("formally verified")), (True, text.count(CLAIM)))

    def test_a_page_names_the_oldest_rust(self):
        oldest = re.search(r'(?m)^rust-version = "(.*)"$', pages.text_of("Cargo.toml"))[1]
        self.assertEqual(re.findall(RUST[1], pages.text_of(RUST[0])), [oldest])

    def test_the_script_of_postgres_is_of_it(self):
        """And its Makefile has each version before among those that a database may have."""
        self.assertEqual(pages.paths("postgres/wkb--*.sql"), [f"postgres/wkb--{self.version}.sql"])
        earlier = re.search(r"(?m)^EARLIER = (.*)", pages.text_of("postgres/Makefile"))[1].split()
        released = re.findall(rf"(?m)^## ({NUMBER})", pages.text_of("CHANGELOG.md"))
        self.assertEqual({*released} - {*earlier}, {self.version})
