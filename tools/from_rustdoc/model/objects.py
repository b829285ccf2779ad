"""Types `dyn Trait<Item = u8>`, which a text has not: a struct for each shape, with the impls that such a type has by itself.

A shape is the trait, the associated types that are given, and the auto traits. `dyn Iterator<Item = u8> + Send` is `Dyn1_<u8>`, declared where
Iterator is, with one field, `dyn Object_ + Send`, so that it is unsized and has the auto traits that are written and no others. It has an impl
of the trait and of each one above it, with the values that are given, or that a supertrait fixes.
"""
from __future__ import annotations

from dataclasses import dataclass
from typing import TYPE_CHECKING, Iterator

from ..read.terms import Bound, BoundsOf, Declaration, Dyn, Impl, Lossy, Param, Parameter, Type, argument_values, put, put_bound

if TYPE_CHECKING:
    from .world import World

OBJECT = "object:"
SOURCE = "built in: a dyn"
MAXIMAL_DEPTH = 20
UNSIZED = Bound("?Sized", maybe=True)

Place = tuple[str, str]


@dataclass(frozen=True)
class Shape:
    """`places` are the associated types that are given, each with the key of its trait."""
    declaration: Declaration
    trait: str
    places: tuple[Place, ...]
    autos: tuple[str, ...]
    impls: tuple[Impl, ...]

    def dyn(self, arguments: tuple[Type, ...]) -> Dyn:
        """The type as Rust has it."""
        kinds = [p.kind for p in self.declaration.params]
        types = kinds.count("type") - len(self.places)
        given = arguments[:types] + arguments[types + len(self.places):]
        constraints = tuple((name, value) for (_, name), value in zip(self.places, arguments[types:]))
        return Dyn((Bound(self.trait, given, constraints), *map(Bound, self.autos)))


def is_object(impl: Impl) -> bool:
    return impl.source == SOURCE


def above(world: World, bound: Bound, depth: int = 0) -> Iterator[Bound]:
    """The bound and the supertraits of it, with what they fix."""
    yield bound
    try:
        declaration = world.get(bound.key, "trait", bound.arguments)
    except Lossy:
        return
    values = argument_values(declaration.params, bound.arguments)
    for further in declaration.supers if depth < MAXIMAL_DEPTH else []:
        if not further.maybe and not further.key.endswith(("trait.PointeeSized", "trait.MetaSized")):
            yield from above(world, put_bound(further, values), depth + 1)


def has_values(world: World, bound: Bound) -> bool:
    """Whether a `dyn` of the trait has associated types."""
    for one in above(world, Bound(bound.key, bound.arguments)):
        try:
            if world.get(one.key, "trait", one.arguments).associated:
                return True
        except Lossy:
            pass
    return bool(bound.constraints)


def shape_of(world: World, bound: Bound, places: tuple[Place, ...], autos: tuple[str, ...]) -> Shape:
    key = (bound.key, places, autos)
    if key not in world.shapes:
        if OBJECT not in world.declarations:
            world.add_special(Declaration("trait", OBJECT, "alloc", "Object_", source="built in"))
        trait = world.get(bound.key)
        values = [Param("type", f"Value{n}") for n in range(1, len(places) + 1)]
        params = [p for p in trait.params if p.kind == "type"] + values + [p for p in trait.params if p.kind == "const"]
        number = len(world.shapes) + 1
        declaration = Declaration("struct", f"dyn:{number}", trait.crate, f"Dyn{number}_", source=SOURCE, params=[Param(p.kind, p.name) for p in params],
                                  fields=[Dyn((Bound(OBJECT), *map(Bound, autos)))])
        world.add_special(declaration)
        impls = tuple(impls_of(world, trait, declaration, {place: Parameter(v.name) for place, v in zip(places, values)}))
        world.shapes[key] = world.shape_of_key[declaration.key] = Shape(declaration, bound.key, places, autos, impls)
    return world.shapes[key]


def impls_of(world: World, trait: Declaration, declaration: Declaration, given: dict[Place, Type]) -> Iterator[Impl]:
    """What the type has by itself: the trait and those above it."""
    itself = declaration.itself()
    found: dict[tuple[str, tuple[Type, ...]], dict[str, Type]] = {}
    for bound in above(world, Bound(trait.key, trait.itself().arguments)):
        one = put_bound(bound, {"Self": itself})
        try:
            key = world.get(one.key, "trait", one.arguments).key
            associated = world.get(key).associated
        except Lossy:
            continue
        values = found.setdefault((key, one.arguments), {})
        values.update({name: given[(key, name)] for name in associated if (key, name) in given})
        values.update({name: value for name, value in one.constraints if not isinstance(value, BoundsOf)})
    for (key, arguments), values in found.items():
        predicates = [(Parameter(p.name), UNSIZED) for p in declaration.params if p.kind == "type"]
        yield Impl(declaration.crate, SOURCE, Bound(key, arguments), itself, list(declaration.params), list(predicates),
                   associated={name: put(value, {"Self": itself}) for name, value in values.items()})

