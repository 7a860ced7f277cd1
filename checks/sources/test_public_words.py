"""What a user of the crate `wkb` can say of its public calls, and what these say.

A crate that lists `wkb` alone can write the names that crates/wkb/specs re-exports. Read is every type, trait and
function that crates/wkb/src exports, with the names in their clauses and ghost members.
"""
import re

from checks import judge
from items import BLOCKS, Paths, impl_of
from specs import NO_API, Specs, use_targets

FACE = "wkb"
# Ghost members that are laws: their values are proofs, and a user cites the law.
LAWS = {"lawful", "one_dimension"}
# A name of a clause, and what may stand behind it if it is a module's alias.
NAME = re.compile(r"((?<![\w.'])[^\W\d][\w'-]*|[◌+\-*/%^<>=≤≡≢⊎×↔&|]+)(?:\.(\w+))?")


def ghost_uses(items):
    """The names that the `ghost use` lines among items bring."""
    uses = [it.signature.removeprefix("ghost use ") for it in items if it.signature.startswith("ghost use ")]
    return {local: (module, name) for use in uses for module, name, local in use_targets(use)}


def exported(paths):
    """(crate, item) of each item that the face exports."""
    modules = ["", *paths.modules(FACE)]
    return [it for module in modules for it in paths.public(FACE, module) if it]


def own_types(paths):
    """The types and the traits of the repository."""
    items = (it for crate in paths.crates for module in paths.crate(crate).modules.values() for it in module)
    return {it.name for it in items if it.kind in ("trait", "struct", "enum")}


def public_members(item):
    """(place, member) of each member of an `impl` that users see."""
    trait, kind = (it and re.sub(r"<.*", "", it).split("::")[-1] for it in impl_of(item))
    for it in item.inside:
        is_law = it.kind == "ghost" and it.name in LAWS
        # The other members of a model speak of private fields.
        is_hidden = it.name != "Value" if trait == "Model" else not (trait or it.is_public or it.kind == "ghost")
        if not (is_law or is_hidden or f"{kind}::{it.name}" in NO_API):
            yield f"{kind}::{it.name}", it


def parts_of(item, names, others):
    """(place, part) of each part of an item that may have clauses: itself, or its members; of an exported item."""
    if item.kind == "impl":
        named = set(re.findall(r"\w+", item.signature))
        # Not of an exported type, or over a type or a trait that is not exported.
        yield from public_members(item) if named & names and not named & others else ()
    elif item.is_public and item.name in names:
        yield item.name, item
        members = item.inside if item.kind in BLOCKS else []
        yield from ((f"{item.name}::{it.name}", it) for it in members if item.kind == "trait" or it.kind == "ghost")


def clauses_of(paths):
    """Each public clause and ghost member that the face exports, with the names in scope and where it stands."""
    every = exported(paths)
    others = own_types(paths) - {item.name for _, item in every}
    for crate in sorted({crate for crate, _ in every}):
        names = {item.name for home, item in every if home == crate}
        for module, items in paths.crate(crate).modules.items():
            scope = ghost_uses(items)
            for item in items:
                own = {**scope, **ghost_uses(item.inside)} if item.kind == "impl" else scope
                for place, part in parts_of(item, names, others):
                    yield from ((f"{place} of {crate}::{module}", text, own) for *_, text in part.clauses)


def words_of(clause, scope):
    """(module, name) of each name of a clause that a `ghost use` brings, also of one behind a module's alias."""
    for word, behind in NAME.findall(clause):
        module, name = scope.get(word, (None, None))
        if module and module.startswith("Rattle.wkb") and (name or behind):
            yield module, name or behind


class PublicWords(judge.Judge):
    """A user can write each name of the public clauses."""

    def wrong(self):
        specs = Specs()
        words = {(module, name) for _, them in specs.words(FACE) for _, module, name in them}
        missing = {}
        for place, clause, scope in clauses_of(Paths()):
            for it in words_of(clause, scope):
                module, name = specs.origin(*it)
                if not words & {(module, name), (module, None)}:
                    missing.setdefault(f"{module}.{name}", place)
        return [f"{word}  named by {place}" for word, place in missing.items()]


def calls():
    """(name, call) of each public call, and of each method that a trait asks for or a type has clauses for."""
    paths = Paths()
    for home, item in exported(paths):
        blocks = [block for _, block in paths.crate(home).impls_of(item.name)] + [item] * (item.kind == "trait")
        members = [it for block in blocks for it in block.inside if it.is_public or it.clauses or block is item]
        for it in [item, *members]:
            yield (item.name if it is item else f"{item.name}::{it.name}"), it


class GivesUp(judge.Judge):
    """A call that returns a Result, and allocates nothing, has a clause that says when it is an Err."""

    def wrong(self):
        for name, call in calls():
            may_fail = call.kind == "fn" and "Result" in call.signature.rpartition("->")[2]
            allocates = "Global" in call.signature or call.name == "clone"
            said = " ".join(text for word, _, text in call.clauses if word == "ensures")
            if may_fail and not allocates and not re.search(r"\bresult\b", said.replace("IfOk result", "")):
                yield f"{name}: a body that always returns an error meets its clauses, which speak of Ok alone"
