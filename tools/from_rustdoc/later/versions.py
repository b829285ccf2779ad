"""Two versions of one crate: which item of the newer one is which of the older one, and types of either as the other one has them.

Items are the same if a public path names both, wherever they are declared; private ones if they have one key, or are the only ones of their name
that one version alone has.
"""
from __future__ import annotations

from typing import Callable, Iterator

from ..model.reached import terms_of
from ..model.show import Show
from ..model.surface import Surface, surface_of
from ..model.world import World
from ..read.html_docs import is_std_key
from ..read.terms import (Alias, Bound, BoundsOf, Constant, Declaration, Dyn, Impl, Lossy, Named, Param, Parameter, Predicate, Projection, Type, Unsayable,
                          argument_values, keys_of, parameters_of, put, put_bound, rebuilt, walk)
from .open_walk import is_sealed

Header = tuple[object, ...]


class Gone(Exception):
    """An item of the old version that the new one has not."""


class Unsure(Exception):
    """Whether two types are one is not known; the message says why."""


def rekeyed(term: Type, change: Callable[[str], str]) -> Type:
    """The type with other keys for its items."""
    def inner(part: Type) -> Type:
        return rekeyed(part, change)

    match term:
        case Named(key, arguments):
            return Named(change(key), tuple(map(inner, arguments)))
        case Alias(key, arguments):
            return Alias(change(key), tuple(map(inner, arguments)))
        case Dyn(bounds):
            return Dyn(tuple(rekeyed_bound(b, change) for b in bounds))
        case BoundsOf(bounds):
            return BoundsOf(tuple(rekeyed_bound(b, change) for b in bounds))
        case Projection(subject, bound, name):
            return Projection(inner(subject), rekeyed_bound(bound, change) if bound else None, name)
    return rebuilt(term, inner)


def rekeyed_bound(bound: Bound, change: Callable[[str], str]) -> Bound:
    key = bound.key if bound.key.startswith("?") else change(bound.key)
    return Bound(key, tuple(rekeyed(a, change) for a in bound.arguments), tuple((n, rekeyed(v, change)) for n, v in bound.constraints), bound.maybe)


def bound_keys(bound: Bound) -> list[str]:
    return [bound.key] + [key for term in (*bound.arguments, *(v for _, v in bound.constraints)) for key in all_keys(term)]


def all_keys(term: Type) -> list[str]:
    """The keys of items in a type, those of projections' traits too."""
    found = [key for key in keys_of(term) if not key.startswith(("prim:", "tuple:", "fn:"))]
    return found + [part.bound.key for part in walk(term) if isinstance(part, Projection) and part.bound is not None]


class Versions:
    def __init__(self, old: World, new: World, crate: str) -> None:
        self.old = old
        self.new = new
        self.crate = crate
        self.before: Surface = surface_of(old, crate)
        self.after: Surface = surface_of(new, crate)
        self.show_old, self.show_new = Show(old), Show(new)
        self.newer: dict[str, str] = {}
        self.older: dict[str, str] = {}
        self.unwritable: dict[int, set[str]] = {}
        for path in sorted(self.before.by_path, key=lambda p: (p.count("::"), p)):
            if path in self.after.by_path:
                for key, later in pairs_of(self.before, self.before.by_path[path], self.after, self.after.by_path[path]):
                    self.newer.setdefault(key, later)
                    self.older.setdefault(later, key)
        for key, later in [*((key, key) for key in self.before.reached if key in self.after.items), *self.moved()]:
            self.newer.setdefault(key, later)
            self.older.setdefault(later, key)

    def moved(self) -> Iterator[tuple[str, str]]:
        """Traits without a path, and types that others have without one, that are declared elsewhere now: the only ones of a name that one
        version alone has."""
        gone, come = self.without_path(self.old, self.new), self.without_path(self.new, self.old)
        for name, keys in gone.items():
            if len(keys) == len(come.get(name, [])) == 1:
                key, later = keys[0], come[name][0]
                if key in self.before.reached and later in self.after.reached or self.old.get(key).is_trait and self.new.get(later).is_trait:
                    yield key, later

    def without_path(self, world: World, other: World) -> dict[str, list[str]]:
        found: dict[str, list[str]] = {}
        for item in world.crates[self.crate].items:
            if item.public_path is None and item.key not in other.homes:
                found.setdefault(item.name, []).append(item.key)
        return found

    def impls(self, world: World) -> list[Impl]:
        """The impls of the crate, and of crates that only one version has and exports items of: what was moved there is still this crate's."""
        other, surface = (self.new, self.before) if world is self.old else (self.old, self.after)
        homes = {world.homes[key].name for key in surface.kinds if key in world.homes}
        names = [self.crate, *(name for name in world.crates if name in homes and name not in other.crates and name != self.crate)]
        return [impl for name in names for impl in world.crates[name].impls]

    def is_sealed(self, world: World, trait: Declaration) -> bool:
        """Whether nobody else can implement the trait."""
        if id(world) not in self.unwritable:
            self.unwritable[id(world)] = unwritable(world, self.before if world is self.old else self.after, self.impls(world))
        return is_sealed(world, trait, self.unwritable[id(world)])

    def is_same_crate(self, name: str) -> bool:
        """Whether both versions use one version of a crate; its size tells features."""
        before, after = self.old.crates.get(name), self.new.crates.get(name)
        return before is not None and after is not None and (before.version, len(before.impls), len(before.items)) == (
            after.version, len(after.impls), len(after.items))

    # ---- from the old version to the new one
    def new_key(self, key: str) -> str:
        own = self.old.key_of(key)
        if own in self.newer:
            return self.newer[own]
        if is_std_key(own) or own in self.new.homes or own.startswith(("other:", "hidden:")):
            return own
        raise Gone(own)

    def old_key(self, key: str) -> str:
        own = self.new.key_of(key)
        if own in self.older:
            return self.older[own]
        if is_std_key(own) or own in self.old.homes or own.startswith(("other:", "hidden:")):
            return own
        raise Gone(own)

    def to_new(self, term: Type) -> Type:
        return rekeyed(term, self.new_key)

    def bound_to_new(self, bound: Bound) -> Bound:
        return rekeyed_bound(bound, self.new_key)

    def predicates_to_new(self, predicates: list[Predicate]) -> list[Predicate]:
        return [(self.to_new(t), self.bound_to_new(b)) for t, b in predicates]

    def old_type(self, term: Type) -> Type:
        """A type of the old version as one of the new version that is written otherwise, but is the same."""
        return settled(self.new, self.to_new(settled(self.old, term)))

    def new_type(self, term: Type) -> Type:
        return settled(self.new, rekeyed(settled(self.new, term), self.new.key_of))

    def to_old(self, term: Type) -> Type:
        return rekeyed(term, self.old_key)

    # ---- what is equal in both
    def common_key(self, world: World, key: str) -> str:
        """One key for both versions: that of the old one, if there is one. What is declared in a body goes by its name."""
        own = world.key_of(key)
        if own.startswith("hidden:"):
            _, crate, _, name = own.split(":", 3)
            return f"hidden:{crate}::{name}"
        return self.older.get(own, own) if world is self.new else own

    def common(self, world: World, term: Type) -> Type:
        return rekeyed(term, lambda key: self.common_key(world, key))

    def common_bound(self, world: World, bound: Bound) -> Bound:
        return rekeyed_bound(bound, lambda key: self.common_key(world, key))

    def header(self, world: World, impl: Impl) -> tuple[Header, frozenset[Predicate]]:
        """The header and the clauses of an impl, parameters by their order, items by their common keys."""
        assert impl.trait is not None
        values = numbered(impl)
        kinds = tuple(p.kind for name in values for p in impl.params if p.name == name)
        trait = self.common_bound(world, put_bound(impl.trait, values))
        itself = self.common(world, put(impl.self_type, values))
        clauses = frozenset((self.common(world, put(t, values)), self.common_bound(world, put_bound(b, values))) for t, b in impl.predicates)
        return (impl.is_negative, kinds, trait, itself), clauses

    def values(self, world: World, impl: Impl) -> dict[str, Type]:
        """The associated types of an impl, in the same form."""
        return {name: self.common(world, put(value, numbered(impl))) for name, value in values_of(impl).items()}


def values_of(impl: Impl) -> dict[str, Type]:
    """The associated types of an impl, those that take parameters too."""
    return {**impl.associated, **impl.generic}


def pairs_of(before: Surface, key: str, after: Surface, later: str) -> list[tuple[str, str]]:
    """What one path names in both versions, and what comes after it where it is an alias of one."""
    found = [(before.behind.get(key, key), after.behind.get(later, later))]
    return found + [(key, later)] if key in before.behind and later in after.behind else found


def numbered(impl: Impl) -> dict[str, Type]:
    consts = {p.name for p in impl.params if p.kind == "const"}
    return {n: Constant(f"P{k}") if n in consts else Parameter(f"P{k}") for k, n in enumerate(parameter_order(impl))}


def parameter_order(impl: Impl) -> list[str]:
    """An impl's parameters in the order in which they are in its header."""
    own = [p.name for p in impl.params]
    names: list[str] = []
    assert impl.trait is not None
    for term in [impl.self_type, *impl.trait.arguments]:
        found = in_order(term)
        names += [n for n in found if n in own]
        names += sorted((n for n in parameters_of(term) - set(found) if n in own), key=own.index)
    return list(dict.fromkeys(names + own))


def in_order(term: Type) -> list[str]:
    return [part.name for part in walk(term) if isinstance(part, Parameter)]


# ---- types that are written otherwise
def unsure(world: World, part: Type) -> str:
    """Why a part of a type may be the same as one that is written otherwise; empty if it cannot."""
    if isinstance(part, Projection):
        return "it names an associated type"
    if isinstance(part, (Unsayable, Alias, BoundsOf)):
        return part.why if isinstance(part, Unsayable) else "it names an alias of another crate"
    if isinstance(part, Named):
        declaration = world.known(world.key_of(part.key))
        if part.key.startswith(("hidden:", "?")) or (declaration is not None and is_private(world, declaration)):
            return "it names a type that has no path"
    return ""


def settled(world: World, term: Type) -> Type:
    """The type with what aliases of std stand for, with omitted arguments, and with the bounds of a `dyn` in one order."""
    if isinstance(term, Alias):
        try:
            declaration = world.get(term.key)
            return settled(world, put(declaration.fields[0], argument_values(declaration.params, term.arguments)))
        except (Lossy, IndexError):
            return term
    term = rebuilt(term, lambda part: settled(world, part))
    if isinstance(term, Dyn):
        return Dyn(tuple(sorted(term.bounds, key=lambda bound: bound.key)))
    if isinstance(term, Named):
        try:
            params = world.get(term.key, "struct", term.arguments).params
        except Lossy:
            return term
        values = argument_values(params, term.arguments)
        return Named(term.key, tuple(values[param.name] for param in params)) if len(term.arguments) < len(params) else term
    return term


# ---- who can name what
def is_private(world: World, declaration: Declaration) -> bool:
    return declaration.crate in world.crates and declaration.public_path is None


def unwritable(world: World, surface: Surface, impls: list[Impl]) -> set[str]:
    """The traits that ask for an item whose type nobody else can write: it names one that has no path, and is no associated type of an impl."""
    values = {world.key_of(value.key) for impl in impls for value in impl.associated.values() if isinstance(value, Named)}

    def is_unnamed(term: Type) -> bool:
        declaration = world.known(world.key_of(term.key)) if isinstance(term, Named) else None
        return declaration is not None and is_private(world, declaration) and declaration.key not in surface.kinds and declaration.key not in values

    return {item.key for item in surface.items.values() for (_, name), members in item.members.items() if item.kind == "trait" and name in item.required
            and any(is_unnamed(part) for member in members for term in terms_of(member) for part in walk(term))}


def names_private(world: World, surface: Surface, keys: list[str]) -> bool:
    """Whether one of the items is of a given crate, no path of this one, or of its own, names it, and nothing public is of it."""
    for key in keys:
        declaration = world.known(world.key_of(key))
        if key.startswith(("?", "hidden:")) or (declaration is not None and is_private(world, declaration) and declaration.key not in surface.kinds
                                                and declaration.key not in surface.reached):
            return True
    return False


def plain_params(params: list[Param]) -> list[Param]:
    """The parameters of a query: defaults say nothing there."""
    return [Param(p.kind, p.name) for p in params]
