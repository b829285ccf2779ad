"""Types whose auto traits cannot have changed: their fields, and what is written of their auto traits, are the same in both versions, and so
it is with the types in them. Of these nothing is asked; of all others it is."""
from __future__ import annotations

from typing import Optional

from ..model.world import World
from ..read.html_docs import is_std_key
from ..read.terms import Constant, Declaration, Dyn, Impl, Lossy, Named, Parameter, Predicate, Projection, Type, Unsayable, put, put_bound, walk
from ..write.render import is_sizedness
from .versions import Versions

Form = tuple[list[str], list[Type], list[Predicate]]


class Unchanged:
    """`autos` are the keys of the auto traits that are asked of."""

    def __init__(self, versions: Versions, autos: set[str]) -> None:
        self.versions = versions
        self.autos = autos
        self.written = {id(world): self.auto_impls(world) for world in (versions.old, versions.new)}
        self.inside: dict[tuple[str, bool], Optional[list[str]]] = {}

    def auto_impls(self, world: World) -> dict[str, list[Impl]]:
        """The impls of auto traits, by the keys of their types."""
        found: dict[str, list[Impl]] = {}
        for crate in world.crates.values():
            for number, (trait, head) in enumerate(crate.heads):
                if world.key_of(trait) in self.autos:
                    found.setdefault(world.key_of(head), []).append(crate.impls[number])
        return found

    def is_so(self, key: str) -> bool:
        """Of an item of the old version: it and all types in it are the same by themselves."""
        todo, seen = [key], set()
        while todo:
            one = todo.pop()
            if one in seen:
                continue
            seen.add(one)
            place = (one, one == key)
            if place not in self.inside:
                self.inside[place] = self.found(*place)
            inner = self.inside[place]
            if inner is None:
                return False
            todo += inner
        return True

    def found(self, key: str, is_asked: bool) -> Optional[list[str]]:
        """The types of this crate that are in a type. None if it is not the same by itself. Of one that is asked itself, with its own
        parameters as arguments, clauses on these are the query's matter; of others they lead to impls that may have changed."""
        versions = self.versions
        try:
            before, after = versions.old.get(key), versions.new.get(versions.newer.get(key, key))
        except Lossy:
            return None
        form, impls = self.form(versions.old, before, is_asked), self.impls(versions.old, before, is_asked)
        if form is None or impls is None or form != self.form(versions.new, after, is_asked) or impls != self.impls(versions.new, after, is_asked):
            return None
        return self.within(before.fields)

    def form(self, world: World, declaration: Declaration, is_asked: bool) -> Optional[Form]:
        """The parameters, fields and bounds of a type, in the form of both versions. None if more than these decides."""
        if declaration.is_opaque or any(decides_more(part, is_asked) for term in declaration.fields for part in walk(term)):
            return None
        values: dict[str, Type] = {p.name: Constant(f"P{n}") if p.kind == "const" else Parameter(f"P{n}") for n, p in enumerate(declaration.params)}
        bounds = [(self.versions.common(world, put(t, values)), self.versions.common_bound(world, put_bound(b, values))) for t, b in declaration.predicates]
        return [p.kind for p in declaration.params], [self.versions.common(world, put(t, values)) for t in declaration.fields], bounds

    def impls(self, world: World, declaration: Declaration, is_asked: bool) -> Optional[set[object]]:
        """What is written of the type's auto traits. None if a clause asks for another trait, of more than a parameter of the type."""
        found: set[object] = set()
        for impl in self.written[id(world)].get(declaration.key, []):
            if any(not is_sizedness(b) and world.key_of(b.key) not in self.autos and not (is_asked and isinstance(t, Parameter)) for t, b in impl.predicates):
                return None
            found.add(self.versions.header(world, impl))
        return found

    def within(self, terms: list[Type]) -> Optional[list[str]]:
        inner: list[str] = []
        for part in (part for term in terms for part in walk(term)):
            if isinstance(part, Dyn) and not all(is_std_key(b.key) for b in part.bounds):
                return None
            key = self.versions.old.key_of(part.key) if isinstance(part, Named) else ""
            home = self.versions.old.homes.get(key)
            if home is not None and home.name == self.versions.crate:
                inner.append(key)
            elif key and not self.is_same_elsewhere(key):
                return None
        return inner

    def is_same_elsewhere(self, key: str) -> bool:
        """Of a type of another crate: std has one version, and another crate is the same if its version and size are."""
        home = self.versions.old.homes.get(key)
        if home is None:
            # One that was not given is not known in either version.
            return is_std_key(key) or (key.startswith("other:") and self.versions.new.key_of(key) == key)
        return self.versions.is_same_crate(home.name)


def decides_more(term: Type, is_asked: bool) -> bool:
    """Whether a type in a field stands for what impls say: an associated type, but for those of the parameters of a type that is asked itself."""
    return isinstance(term, Unsayable) or isinstance(term, Projection) and not (is_asked and is_of_parameter(term))


def is_of_parameter(term: Type) -> bool:
    return isinstance(term, Parameter) or isinstance(term, Projection) and is_of_parameter(term.subject)
