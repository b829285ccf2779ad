"""What others can do with constants of a type: use them as patterns, which `derive(PartialEq)` allows, and borrow them, which a cell forbids.

std has traits for both, `StructuralPartialEq` and `Freeze`, which no stable crate can name. So nothing is reported of their impls, but of what is
lost by them, and only where others can have a constant of the type.
"""
from __future__ import annotations

from typing import Iterator, Optional

from ..model.members import Member, shape_of, signature_of
from ..model.surface import Item, Surface
from ..model.world import World
from ..read.rustdoc_json import kind_and_body
from ..read.terms import Array, Bound, Named, Never, Parameter, Primitive, Reference, Slice, Tuple, Type, put, walk
from ..report.messages import Message, at
from .item_changes import change
from .versions import Versions

STRUCTURAL, FREEZE = "StructuralPartialEq", "Freeze"
# Traits that derives bring and no stable crate can name; by `TrivialClone` std copies faster.
MARKERS = (STRUCTURAL, "TrivialClone")
MAXIMAL_DEPTH = 8


def trait_name(bound: Optional[Bound]) -> str:
    """The name of a trait, which may be one that std does not document."""
    return bound.key.split("::")[-1].rsplit("trait.", 1)[-1].removesuffix(".html") if bound is not None else ""


class ConstantChanges:
    """`troubled` are old items that are gone or take other arguments."""

    def __init__(self, versions: Versions, troubled: dict[str, Message]) -> None:
        self.versions = versions
        self.troubled = troubled
        self.messages: list[Message] = []

    def run(self) -> None:
        versions = self.versions
        structural = {id(world): self.structural(world) for world in (versions.old, versions.new)}
        constants = Constants(versions.old, versions.before, structural[id(versions.old)])
        cells = self.cells()
        for old_key, new_key in versions.newer.items():
            old, new = versions.before.items.get(old_key), versions.after.items.get(new_key)
            if old is None or new is None or not old.is_type or old_key in self.troubled:
                continue
            if old_key in structural[id(versions.old)] and new_key not in structural[id(versions.new)] and self.has_equality(new_key):
                if constants.has(old, self.is_as_before(old, new), True):
                    self.tell("constant-pattern-lost", new, "a constant of it is no pattern any more: its `PartialEq` is not derived")
            if old_key in cells and constants.has(old, self.is_as_before(old, new), False):
                self.tell("constant-borrow-lost", new, "a constant of it cannot be borrowed for good any more: there is a cell in it")

    def is_as_before(self, old: Item, new: Item) -> bool:
        """Whether who writes a value of the old type writes one of the new type; if not, that is reported."""
        names: dict[str, Type] = {p.name: q for p, q in zip(new.params, old.itself().arguments)}
        versions = self.versions
        before = [versions.common(versions.old, term) for term in versions.old.get(old.key).fields]
        return before == [versions.common(versions.new, put(term, names)) for term in versions.new.get(new.key).fields]

    def tell(self, code: str, item: Item, text: str) -> None:
        self.messages.append(change(code, f"{item.shown()}: {text}", at(item.place)))

    def structural(self, world: World) -> set[str]:
        return {world.key_of(i.self_type.key) for i in self.versions.impls(world) if trait_name(i.trait) == STRUCTURAL and isinstance(i.self_type, Named)}

    def has_equality(self, key: str) -> bool:
        """Whether the new type has a `PartialEq` at all. A lost one is reported for itself."""
        return any(trait_name(i.trait) == "PartialEq" and isinstance(i.self_type, Named) and self.versions.new.key_of(i.self_type.key) == key
                   for i in self.versions.impls(self.versions.new))

    def cells(self) -> set[str]:
        """Old types that had no cell, and have one now, by what rustdoc found of both versions."""
        found = {}
        for impl in self.versions.after.computed:
            if trait_name(impl.trait) == FREEZE:
                (is_negative, *rest), clauses = self.versions.header(self.versions.new, impl)
                found[tuple(rest)] = None if is_negative else {c for c in clauses if trait_name(c[1]) == FREEZE}
        lost = set()
        for impl in self.versions.before.computed:
            (_, *rest), clauses = self.versions.header(self.versions.old, impl)
            if trait_name(impl.trait) == FREEZE and not impl.is_negative and tuple(rest) in found and isinstance(impl.self_type, Named):
                after = found[tuple(rest)]
                if after is None or not after <= clauses:
                    lost.add(self.versions.old.key_of(impl.self_type.key))
        return lost


class Constants:
    """Of which types others can have constants. `structural` are the types with a derived `PartialEq`."""

    def __init__(self, world: World, surface: Surface, structural: set[str]) -> None:
        self.world = world
        self.surface = surface
        self.structural = structural
        self.given = {world.key_of(part.key) for term in self.terms() for part in walk(term) if isinstance(part, Named)}
        todo = list(self.given)
        while todo:
            item = surface.items.get(todo.pop())
            for key in (self.world.key_of(p.key) for term in self.fields(item) for p in walk(term) if isinstance(p, Named)) if item is not None else ():
                if key not in self.given:
                    self.given.add(key)
                    todo.append(key)

    def terms(self) -> Iterator[Type]:
        """The types of public constants, and what public `const fn`s give."""
        members = [*self.surface.values.values(), *(m for item in self.surface.items.values() for found in item.members.values() for m in found)]
        for member in members:
            if member.crate is not None and member.item and member.is_public:
                yield from self.of_member(member)

    @staticmethod
    def of_member(member: Member) -> Iterator[Type]:
        body = member.body
        if member.kind in ("constant", "associated constant"):
            assert member.crate is not None
            yield member.crate.type(body["type"], member.crate.type(member.impl["for"], None) if "for" in member.impl else None)
        elif member.kind in ("function", "method") and "sig" in body and body["header"]["is_const"]:
            yield signature_of(member).output

    def fields(self, item: Item) -> list[Type]:
        return self.world.get(item.key).fields

    def has(self, item: Item, is_written: bool, as_pattern: bool) -> bool:
        """Whether others can have one of the type: one that is given, or that is written if the type's form allows it."""
        made = [fields for is_made, fields in self.forms(item) if is_made and is_written or item.key in self.given]
        return any(not as_pattern or all(map(self.is_structural, fields)) for fields in made)

    def forms(self, item: Item) -> Iterator[tuple[bool, list[Type]]]:
        """The fields of a struct, or of each variant of an enum, and whether others can write such a value."""
        assert item.crate is not None
        variants = kind_and_body(item.read)[1].get("variants", [])
        for read in filter(None, map(item.crate.item, variants)) if item.kind == "enum" else [item.read]:
            shape = shape_of(item.crate, read)
            yield shape.is_made, [item.crate.type(field.body, None) for field in shape.fields.values()]

    def is_structural(self, term: Type, depth: int = 0) -> bool:
        """Whether a value of the type may be a pattern."""
        match term:
            case Primitive() | Parameter() | Never():
                return True
            case Reference(_, inner) | Array(inner, _) | Slice(inner):
                return self.is_structural(inner, depth)
            case Tuple(items):
                return all(self.is_structural(part, depth) for part in items)
            case Named(key, _):
                own = self.world.key_of(key)
                item = self.surface.items.get(own)
                if item is not None:
                    is_one = own in self.structural
                    return is_one and (depth > MAXIMAL_DEPTH or any(all(self.is_structural(f, depth + 1) for f in fields) for _, fields in self.forms(item)))
                return own in self.structural or self.is_of_std(own)
        return False

    def is_of_std(self, key: str) -> bool:
        """Of a type of std: its page says so."""
        return key.startswith("std:") and STRUCTURAL in (self.world.pages.read(self.world.pages.own_page(key)) or "")
