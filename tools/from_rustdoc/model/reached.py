"""Types that others can have though no path names them: public functions take or give them, public types hold them, or impls name them."""
from __future__ import annotations

from typing import Callable, Iterator

from ..read.rustdoc_json import JsonCrate
from ..read.terms import Bound, Impl, Named, Type, walk
from .members import Member, signature_of

# Takes a type that is found, by its key; what others see of it.
Finder = Callable[[JsonCrate, str], list[Type]]


class Reached:
    """`key_of` gives the own key of an item that another crate names; `names` are the keys of what has a path."""

    def __init__(self, crates: list[JsonCrate], names: set[str], key_of: Callable[[str], str], found: Finder) -> None:
        self.homes = {key: crate for crate in crates for key, declaration in crate.declarations.items() if not declaration.is_trait}
        self.private = {key for crate in crates for key in crate.declarations} - names
        self.impls = [impl for crate in crates for impl in crate.impls if impl.associated and not impl.is_negative]
        self.key_of = key_of
        self.tell = found
        self.found: set[str] = set()

    def by(self, terms: list[Type]) -> None:
        """Finds what these types lead to."""
        while terms:
            keys = dict.fromkeys(self.key_of(part.key) for term in terms for part in walk(term) if isinstance(part, Named))
            terms = []
            for key in keys:
                if key in self.private and key in self.homes and key not in self.found:
                    self.found.add(key)
                    terms += self.tell(self.homes[key], key)
            terms += self.by_impls()

    def by_impls(self) -> list[Type]:
        """The associated types of impls of which others can have or name all."""
        left, values = [], []
        for impl in self.impls:
            if any(key in self.private and key not in self.found for key in self.header(impl)):
                left.append(impl)
            else:
                values += list(impl.associated.values())
        self.impls = left
        return values

    def header(self, impl: Impl) -> Iterator[str]:
        assert impl.trait is not None
        yield self.key_of(impl.trait.key)
        for part in (part for term in (impl.self_type, *impl.trait.arguments) for part in walk(term)):
            if isinstance(part, Named):
                yield self.key_of(part.key)


def terms_of(member: Member) -> Iterator[Type]:
    """The types in what is public of a function, field or constant."""
    if member.crate is None or not member.item or not member.is_public:
        return
    body = member.body
    itself = member.crate.type(member.impl["for"], None) if "for" in member.impl else None
    if member.kind in ("function", "method") and "sig" in body:
        signature = signature_of(member)
        yield from (*signature.inputs, signature.output)
        bounds = [bound for found in signature.results.values() for bound in found] + [bound for _, bound in signature.predicates]
        yield from (term for bound in bounds for term in bound_terms(bound))
    elif member.kind == "field":
        yield member.crate.type(body, itself)
    elif member.kind in ("constant", "static", "associated constant") and "type" in body:
        yield member.crate.type(body["type"], itself)


def bound_terms(bound: Bound) -> list[Type]:
    return [*bound.arguments, *(value for _, value in bound.constraints)]
