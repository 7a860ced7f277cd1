"""The items of the code in src/: comments, signatures, clauses and members; and the paths by which users name them."""
import functools
import re
import sys
import textwrap

from pages import text_of
from specs import CRATES, ROOT, split_items

HIDDEN = re.compile(r'"(?:[^"\\]|\\.)*"|\'(?:[^\'\\\n]|\\.)\'|//[^\n]*')
KINDS = "impl|fn|struct|enum|trait|type|mod|use|const|ghost"
HEAD = re.compile(rf'(?:(?:const|unsafe|safe|extern "C") )*({KINDS})\b(?: (\w+))?')
CLAUSE = re.compile(r"\b(requires|ensures)(?:\s+(\w+))?\s*$")
NESTED = {";": ("([", ")]"), ",": ("([<", ")]>")}
# What says a clause or a ghost member, and the forms in which ghost members, variants and fields are read.
SAID = re.compile(r"(?m)^\s*(?:requires|ensures|ghost(?! use\b))\b")
GHOST = re.compile(r"ghost \w+(?::(?: =)?| =)$")
PART = {"enum": re.compile(r"\w+(?:\(.*\))?$"), "struct": re.compile(r"(?:pub\(\w+\) )?\w+: .+$")}
NAMED = {"fn", "struct", "enum", "trait", "type", "const"}
# What has members, with clauses of their own.
BLOCKS = "trait", "impl", "enum", "struct"


def blanked(text):
    """The code with spaces in place of its comments, texts and letters, in as many characters."""
    return HIDDEN.sub(lambda it: re.sub(r"[^\n]", " ", it[0]), text).replace("->", "  ")


def closing(text, start, pair="{}"):
    """The index of the brace that closes the one at `start`, or of the bracket."""
    depth = 0
    for i in range(start, len(text)):
        depth += {pair[0]: 1, pair[1]: -1}.get(text[i], 0)
        if depth == 0:
            return i
    raise ValueError("a brace is not closed")


def on_one_line(text):
    """A piece of code as one line, without comments."""
    return " ".join(re.sub(r"//[^\n]*", "", text).split())


class Item:
    """An item: its comments, what it derives, its kind, name and signature, its clauses, what is in its braces, and its
    source before these."""

    def __init__(self, before, header, clauses, body):
        self.doc = re.findall(r"(?m)^\s*///(.*)$", before)
        self.notes = re.findall(r"(?m)^\s*//(?![/!])(.*)$", before)
        self.derived = split_items(",".join(re.findall(r"#\[derive\(([^)]*)\)\]", before)))
        self.clauses, self.body = clauses, body
        header = re.sub(r"(\(|(?<=\w)<) ", r"\1", on_one_line(header))
        self.is_public = header.startswith("pub ")
        self.signature = re.sub(r",? ([)>])", r"\1", header.removeprefix("pub "))
        head = HEAD.match(re.sub(r"^pub\(\w+\) ", "", self.signature))
        self.kind, self.name = head.groups() if head else ("", re.match(r"\w*", self.signature)[0])

    @functools.cached_property
    def inside(self):
        """The members of a trait or an `impl`, the variants of an enum, the fields of a struct or of a variant."""
        return list(items(self.body or "", "," if self.kind in ("enum", "struct", "") else ";"))

    @functools.cached_property
    def whole(self):
        """The signature, of a variant with its fields."""
        fields = ", ".join(it.signature for it in self.inside) if self.kind == "" else ""
        return self.signature + (f" {{ {fields} }}" if fields else "")


def header_at(bare, at):
    """Where the next header begins, behind comments and attributes."""
    while attribute := re.compile(r"[\s;,]*#!?\[").match(bare, at):
        at = closing(bare, attribute.end() - 1, "[]") + 1
    return re.compile(r"[\s;,]*").match(bare, at).end()


def parts_at(text, bare, at, end):
    """The header that begins at a place, its clauses, its body or None, and the place behind them."""
    kind = re.compile(r"(?:pub )?(?:pub\(\w+\) )?(?:ghost )?(use|ghost)\b").match(bare, at)
    header, clauses, since, depth = "", [], at, 0
    while at < len(bare) and (depth or bare[at] != end):
        if bare[at] == "{" and not depth:
            close, clause = closing(bare, at), CLAUSE.search(bare, since, at)
            if clause or (kind and kind[1] == "ghost"):
                clauses.append((*(clause.groups() if clause else ("ghost", None)), on_one_line(text[at + 1 : close])))
                header, since = header + text[since : clause.start() if clause else at], close + 1
            elif not kind:
                return header + text[since:at], clauses, text[at + 1 : close], close + 1
            at = close
        depth += (bare[at] in NESTED[end][0]) - (bare[at] in NESTED[end][1])
        at += 1
    return header + text[since:at], clauses, None, at


def items(text, end=";"):
    """The items of a file or of what is in braces, one after another; with a comma as the end, variants or fields."""
    bare, last = blanked(text), 0
    while (first := header_at(bare, last)) < len(bare):
        before = text[last:first]
        header, clauses, body, last = parts_at(text, bare, first, end)
        it = Item(before, header, clauses, body)
        whole = text[first : last if body is None else last - len(body) - 2]
        it.source = textwrap.dedent(" " * (first - text.rfind("\n", 0, first) - 1) + whole).strip()
        yield it


def read_in(found):
    """How many clauses and ghost members are read in these items, with those in the bodies of functions."""
    many = 0
    for it in found:
        is_ghost = it.kind == "ghost"
        many += GHOST.match(it.signature) is not None if is_ghost else len(it.clauses)
        opened = it.kind in ("mod", "", *BLOCKS)
        many += read_in(it.inside) if opened else len(SAID.findall(blanked(it.body or "")))
    return many


def items_of(text):
    """The items of a file. Raises ValueError if a clause, a ghost member, a variant or a field can't be read."""
    found, said = list(items(text)), len(SAID.findall(blanked(text)))
    if said != read_in(found):
        raise ValueError(f"of {said} clauses and ghost members {read_in(found)} can be read")
    for it in found:
        for part in it.inside if it.kind in PART else []:
            if part.kind != "ghost" and not PART[it.kind].match(part.signature):
                raise ValueError(f"`{part.signature}` in `{it.signature}` can't be read")
    return found


def impl_of(item):
    """(trait or None, type) of an `impl`, as its header has them."""
    header = re.sub(r"^impl(?:<(?:[^<>]|<[^<>]*>)*>)? ", "", item.signature).split(" where ")[0]
    trait, found, kind = header.partition(" for ")
    return (trait, kind) if found else (None, trait)


def type_of(item):
    """The name of the type of an `impl`, without its module."""
    return re.sub(r"<.*", "", impl_of(item)[1]).split("::")[-1]


def targets(use):
    """(path, local name) of each name of a `use`."""
    path, _, inside = use.signature.removeprefix("use ").rstrip("}").partition("::{")
    for word in split_items(inside) or [""]:
        word, _, alias = f"{path}::{word}".rstrip(":").partition(" as ")
        yield word, alias or word.split("::")[-1]


class Crate:
    """The modules of a crate by their paths, each with its items, and the `impl` blocks of all."""

    def __init__(self, name):
        folder, self.modules = CRATES / name / "src", {}
        for path in sorted(folder.rglob("*.rt")):
            words = path.relative_to(folder).with_suffix("").parts
            text = text_of(path.relative_to(ROOT))
            for real, alias in re.findall(r"(?m)^use .*\b(\w+) as (\w+)", text):
                text = re.sub(rf"\b{alias}\b", real, text)
            try:
                self.modules["::".join(it for it in words if it not in ("lib", "main"))] = items_of(text)
            except ValueError as error:
                sys.exit(f"{path.relative_to(ROOT)}: {error}")
        self.impls = [it for module in self.modules.values() for it in module if it.kind == "impl"]

    def impls_of(self, name):
        """(trait or None, item) of each `impl` of a type."""
        return [(impl_of(it)[0], it) for it in self.impls if type_of(it) == name]


class Paths:
    """The items at the crates' paths."""

    def __init__(self):
        lines = (ROOT / "crates.txt").read_text(encoding="utf-8").splitlines()
        self.crates = {re.split("[: ]", line)[0] for line in lines if ":" in line}

    @functools.lru_cache(maxsize=None)
    def crate(self, name):
        return Crate(name)

    def modules(self, crate, module=""):
        """The modules that a crate hands to its users, by their paths."""
        for item in self.crate(crate).modules.get(module, []):
            if item.is_public and item.kind == "mod":
                path = f"{module}::{item.name}" if module else item.name
                yield path
                yield from self.modules(crate, path)

    def public(self, crate, module):
        """(crate, item) of each item that a module hands to its users, of its own or of another, in order."""
        for item in self.crate(crate).modules.get(module, []):
            if item.is_public and item.kind == "use":
                yield from (self.follow(crate, module, path) for path, _ in targets(item))
            elif item.is_public and item.kind in NAMED:
                yield crate, item

    def follow(self, crate, module, path):
        """(crate, item) that a path leads to from a module."""
        *words, name = path.split("::")
        for word in words:
            below = f"{module}::{word}" if module else word
            if word in ("crate", "super"):
                module = module.rpartition("::")[0] if word == "super" else ""
            elif below in self.crate(crate).modules:
                module = below
            elif word in self.crates:
                crate, module = word, ""
            else:
                return None
        for item in self.crate(crate).modules[module]:
            if item.kind in NAMED and item.name == name:
                return crate, item
            for inner, local in targets(item) if item.kind == "use" else []:
                if local == name:
                    return self.follow(crate, module, inner)
        return None
