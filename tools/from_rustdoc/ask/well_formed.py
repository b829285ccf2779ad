"""Whether what a query writes fits the items: as many arguments as they take, and associated types that their traits have."""
from __future__ import annotations

from typing import Iterable, Optional

from ..model.show import Show
from ..model.world import World
from ..read.terms import (Alias, BadInput, Bound, BoundsOf, Constant, Declaration, Dyn, Lossy, Named, Predicate, Projection, Type, Unsayable, argument_values,
                          put_bound, walk)

MAXIMAL_DEPTH = 8


def counted(number: int, what: str) -> str:
    return f"{number or 'no'} {what}{'' if number == 1 else 's'}"


def listed(words: list[str]) -> str:
    return " or ".join(f"`{word}`" for word in words)


class Fitting:
    """Each of its calls raises an error that says what the item takes."""

    def __init__(self, world: World) -> None:
        self.world = world
        self.show = Show(world)

    def all(self, subject: Type, bounds: Iterable[Bound], predicates: Iterable[Predicate]) -> None:
        for term, bound in [(subject, bound) for bound in bounds] + list(predicates):
            self.type(term)
            self.bound(bound)

    def type(self, term: Type) -> None:
        for part in walk(term):
            match part:
                case Named(key, arguments) | Alias(key, arguments):
                    self.takes(key, arguments)
                case Dyn(bounds) | BoundsOf(bounds):
                    for bound in bounds:
                        self.bound(bound)
                case Projection(_, bound, name) if bound is not None:
                    self.bound(bound)
                    self.has(bound, name)

    def bound(self, bound: Bound) -> None:
        self.takes(bound.key, bound.arguments)
        for argument in (*bound.arguments, *(value for _, value in bound.constraints)):
            self.type(argument)
        for name, _ in bound.constraints:
            self.has(bound, name)

    def declared(self, key: str) -> Optional[Declaration]:
        """The item. None if it is not known, of which something else is said."""
        try:
            found = self.world.get(key)
            return None if found.is_opaque else found
        except Lossy:
            return None

    def takes(self, key: str, arguments: tuple[Type, ...]) -> None:
        declaration = self.declared(key)
        if declaration is None:
            return
        params = declaration.params
        fewest = sum(p.default is None for p in params)
        kinds = all(isinstance(a, Unsayable) or not isinstance(a, Constant) or p.kind == "const" for p, a in zip(params, arguments))
        if fewest <= len(arguments) <= len(params) and kinds:
            return
        types, consts = (sum(p.kind == kind for p in params) for kind in ("type", "const"))
        least = sum(p.kind == "type" and p.default is None for p in params)
        needs = counted(types, "type") if least == types else f"{least} to {counted(types, 'type')}"
        more = f" and {counted(consts, 'constant')}" if consts else ""
        written = f"{counted(len(arguments), 'argument')} {'is' if len(arguments) == 1 else 'are'} written"
        raise BadInput(f"`{self.show.path(declaration.key)}` takes {needs}{more}, and {written}")

    def has(self, bound: Bound, name: str) -> None:
        known = self.associated(bound, 0)
        if known is None or name in known:
            return
        import difflib
        near = difflib.get_close_matches(name, sorted(known)) or sorted(known)[:3]
        raise BadInput(f"`{self.show.path(bound.key)}` has no associated type `{name}`" + (f": is it {listed(near)}?" if near else ""))

    def associated(self, bound: Bound, depth: int) -> Optional[set[str]]:
        """The associated types of a trait and of those above it. None if they are not all known."""
        declaration = self.declared(bound.key)
        if declaration is None or depth > MAXIMAL_DEPTH:
            return None
        found = set(declaration.associated)
        for above in declaration.supers:
            if not above.maybe:
                more = self.associated(put_bound(above, argument_values(declaration.params, bound.arguments)), depth + 1)
                if more is None:
                    return None
                found |= more
        return found
