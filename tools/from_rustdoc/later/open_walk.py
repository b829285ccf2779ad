"""Which impls another crate may have, by the walk of the orphan rule: through references and fundamental structs, and into nothing else."""
from __future__ import annotations

from typing import Optional

from ..model.world import World
from ..read.terms import Declaration, Impl, Lossy, Named, Parameter, Projection, Reference, Type, Unsayable, argument_values, put


def met_parameter(world: World, term: Type) -> Optional[Type]:
    """The parameter (or unknown type) that the open walk of a type meets."""
    match term:
        case Parameter() | Projection() | Unsayable():
            return term
        case Reference(_, target):
            return met_parameter(world, target)
        case Named(key, arguments):
            try:
                declaration = world.get(key, "struct", arguments)
            except Lossy:
                return None
            if declaration.is_fundamental:
                for argument in arguments:
                    found = met_parameter(world, argument)
                    if found is not None:
                        return found
    return None


def written_arguments(trait: Declaration, impl: Impl) -> list[Type]:
    """The self type, and the trait's type arguments with defaults put in."""
    assert impl.trait is not None
    values = argument_values(trait.params, impl.trait.arguments)
    return [impl.self_type] + [put(values[p.name], {"Self": impl.self_type}) for p in trait.params if p.kind == "type"]


def met_in_header(world: World, trait: Declaration, impl: Impl) -> Optional[Type]:
    return next((met for met in (met_parameter(world, term) for term in written_arguments(trait, impl)) if met is not None), None)


def is_sealed(world: World, trait: Declaration, unwritable: set[str]) -> bool:
    """Whether nobody else can implement the trait: of it, or of a trait above it, nobody else can have an impl. That is so if it has no
    public path, and no impl of its own is for types of others, or if it is one of those that ask for an item which nobody else can write."""
    return closed(world, trait, set(), unwritable)


def closed(world: World, trait: Declaration, above: set[str], unwritable: set[str]) -> bool:
    todo, seen = [trait], set(above)
    while todo:
        declaration = todo.pop()
        if declaration.key in seen:
            continue
        seen.add(declaration.key)
        is_private = declaration.crate in world.crates and declaration.public_path is None
        if declaration.key in unwritable or is_private and not is_for_others(world, declaration, seen, unwritable):
            return True
        todo += supertraits(world, declaration)
    return False


def supertraits(world: World, trait: Declaration) -> list[Declaration]:
    found = []
    for bound in trait.supers:
        try:
            found.append(world.get(bound.key, "trait", bound.arguments))
        except Lossy:
            pass
    return found


def is_for_others(world: World, trait: Declaration, above: set[str], unwritable: set[str]) -> bool:
    """Whether some impl of the trait may be for a type of another crate: not if it asks the very trait, or one like it, of that type."""
    for impl in world.impls_of(trait.key, None):
        met = None if impl.is_negative else met_in_header(world, trait, impl)
        asked = [world.known(world.key_of(b.key)) for t, b in impl.predicates if t == met]
        if met is not None and not any(d is not None and (d.key == trait.key or closed(world, d, above, unwritable)) for d in asked):
            return True
    return False
