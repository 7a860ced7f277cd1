"""The files of specs/: the definitions of each, and those that it re-exports."""

import re
import textwrap

from pages import ROOT, text_of

CRATES = ROOT / "crates"

# Calls that a user's code reaches through an exported type, though they are no part of the API: their clauses may name
# anything. A crate cannot hide a name from users and show it to the crates above.
NO_API = {
    "Point::read",
    "LineString::read",
    "Polygon::read",
    "MultiPoint::read",
    "MultiLineString::read",
    "MultiPolygon::read",
    "WriteOptions::inner",
    "Form::inner",
}

USE = re.compile(r"^(?:unfoldable )?(?:pub )?(?:unfoldable )?(?:ghost )?use\s+(.*)$", re.S)


def split_items(text):
    """The items between the braces of a `use`."""
    return [item.strip() for item in text.split(",") if item.strip()]


def use_targets(text):
    """(module, name, local name) of each name of a `use`; the name is None if the module itself is meant."""
    text = " ".join(text.split()).rstrip(";").strip()
    braces = re.match(r"(\S+?)\.\s*\{(.*)\}$", text)
    if not braces:
        path, _, alias = text.partition(" as ")
        module, _, name = path.strip().rpartition(".")
        return [(path.strip(), None, alias.strip())] if alias else [(module, name, name)]
    found = []
    for item in split_items(braces[2]):
        path, _, alias = item.partition(" as ")
        below, _, name = path.strip().rpartition(".")
        module = braces[1] + ("." + below if below else "")
        found.append((module, name, alias.strip() or name))
    return found


class Specs:
    """The names that each file of specs/ re-exports."""

    def __init__(self):
        self.passed = {}
        for path in CRATES.glob("*/specs/**/*.antt"):
            parts = path.relative_to(CRATES).with_suffix("").parts
            self.passed["Rattle." + ".".join(parts)] = list(self.uses(text_of(path.relative_to(ROOT))))

    @staticmethod
    def uses(text):
        """The names that the lines `pub use` of a file re-export."""
        lines = re.sub(r"\n[ \t]+(?=\S)", " ", re.sub(r"\n\s*\}", " }", text)).splitlines()
        for line in lines:
            match = USE.match(line)
            if match and "pub use" in line:
                yield from use_targets(match[1])

    def origin(self, module, name):
        """Where a name stands that a module may only pass on."""
        for source, passed, local in self.passed.get(module, []):
            if local == name and passed is not None:
                return self.origin(source, passed)
        return module, name

    def words(self, crate):
        """(module, its words) of each module that a crate's specs and proofs hand to other crates. A word is its name
        there, and the module and the name where it stands; the last is None of a whole module. A comment names what
        users import from where it stands, since it can't be passed on."""
        libs = {part: text_of(f"crates/{crate}/{part}/Lib.antt") for part in ("specs", "proofs")}
        for part, name in ((part, it) for part, lib in libs.items() for it in re.findall(r"(?m)^pub mod (\w+)", lib)):
            module, text = f"Rattle.{crate}.{part}.{name}", text_of(f"crates/{crate}/{part}/{name}.antt")
            found = self.passed.get(module, [])
            passed = [(local, *(self.origin(source, it) if it else (source, it))) for source, it, local in found]
            passed += [(local, source, None) for source, local in re.findall(r"(?m)^-- use (\S+) as (\w+)$", text)]
            yield module, passed + [(it, module, it) for it in defined(text)]


def declaration(text, name):
    """The lines that declare a name of a file: its type, and of a record or of data also what it holds, of an
    abbreviation or what is unfoldable also what it stands for."""
    own = rf"{re.escape(name)}(?![\w'-])"
    found = re.search(rf"(?m)^( *)(abbrev |unfoldable )?pub (?:record |data )?{own}.*\n(?:\1 +.*\n)*", text)
    if not found:
        return []
    # Inside `mutual` that is said of the whole.
    whole = re.findall(r"(?m)^(abbrev |unfoldable )?mutual$|^\S", text[: found.start()]) if found[1] else []
    meant = rf"(?:{found[1]}{own}.*\n(?:{found[1]} +.*\n)*)*" if found[2] or any(whole[-1:]) else ""
    return textwrap.dedent(found[0] + re.match(meant, text[found.end() :])[0]).replace("pub ", "").splitlines()


def defined(text):
    """The public names that a file of definitions defines, also inside `mutual`; no fields or constructors."""
    bare = re.sub(r"(?m)^(( *)(?:pub )?(?:record|data) .*\n)(?:\2 +.*\n)*", r"\1", text)
    return re.findall(r"(?m)^ *(?:abbrev |unfoldable )?pub (?:record |data )?(?!(?:use|mod|ruleset)\s)([^\s:]+)", bare)
