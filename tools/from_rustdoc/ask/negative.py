"""What negative impls rule out for good: `impl !Send for Rc<T>` says that no version of its crate makes an `Rc` that is `Send`.

The program refutes a reference only if no crate may add an impl, and a text has no negative impls. So this is said next to the program, for auto
traits alone: of a type with a negative impl, and of types whose every rule asks one of these. A type of another crate than the asking one
has such rules only by its own negative impl, since a later version may have other fields.
"""
from __future__ import annotations

from typing import Optional

from ..model.show import Show
from ..model.world import World
from ..read.terms import Array, Dyn, Impl, Lossy, Named, Slice, Tuple, Type, parts, put, put_bound
from ..write.build import Piece
from ..write.render import is_sizedness
from ..write.text_form import TextLine
from .reach import Reacher, bind

# What is in for types of the language: nobody but core has impls of auto traits for them.
OF_STD = ("alloc", "std")
OF_LANGUAGE = ("Ref_", "RefMut_", "PtrConst_", "PtrMut_")


class Negatives:
    """By the lines of the upper text, for queries of one crate."""

    def __init__(self, world: World, reacher: Reacher, crate: str) -> None:
        self.world = world
        self.reacher = reacher
        self.crate = crate

    def ruled_out(self, trait: str, term: Type, above: frozenset[Type] = frozenset()) -> str:
        """Why the type has no impl of the auto trait in any version; empty where nothing says so."""
        declared = self.reacher.text.names.get(trait)
        if declared is None or not declared.is_auto or term in above:
            return ""
        if isinstance(term, Named):
            return self.of_struct(trait, term, above | {term})
        if isinstance(term, Dyn):
            has = {name for bound in term.bounds for name in self.reacher.text.above(bound.key)}
            return "" if trait in has or declared.crate not in OF_STD else "a `dyn` has the auto traits that it names, and no others"
        inside = parts(term) if isinstance(term, (Tuple, Array, Slice)) else ()
        return self.first(trait, inside, above | {term})

    def first(self, trait: str, terms: tuple[Type, ...], above: frozenset[Type]) -> str:
        return next(filter(None, (self.ruled_out(trait, term, above) for term in terms)), "")

    def of_struct(self, trait: str, term: Named, above: frozenset[Type]) -> str:
        lines = [(line, piece) for line, piece in self.reacher.impls.get(trait, [])
                 if isinstance(line.self_type, Named) and line.self_type.key == term.key]
        for line, piece in lines:
            impl = piece.written.impl if piece.written is not None else None
            if impl is not None and self.is_promise(impl) and self.values(line, term) is not None:
                return f"`{Show(self.world).header(impl)}` ({impl.source}) is written"
        declared = self.reacher.text.names.get(term.key)
        is_dyn = self.world.named.get(term.key, "") in self.world.shape_of_key
        if declared is None or not (term.key in OF_LANGUAGE or is_dyn or declared.crate == self.crate):
            return ""
        if not lines:
            values = {p.name: a for p, a in zip(declared.params, term.arguments)}
            return self.first(trait, tuple(put(f, values) for f in declared.fields), above)
        return self.by_lines(trait, term, lines, above)

    def by_lines(self, trait: str, term: Named, lines: list[tuple[TextLine, Piece]], above: frozenset[Type]) -> str:
        """Each impl that may be one for the type asks an auto trait of what has none."""
        found = ""
        for line, _ in lines:
            values = self.values(line, term)
            if values is None:
                continue
            asked = [(bound.key, put(subject, values)) for subject, bound in line.clauses if not bound.arguments]
            found = next(filter(None, (self.ruled_out(key, subject, above) for key, subject in asked)), "")
            if not found:
                return ""
        return found

    @staticmethod
    def values(line: TextLine, term: Named) -> Optional[dict[str, Type]]:
        values: dict[str, Type] = {}
        return values if bind(line.self_type, term, {p.name for p in line.params}, values) else None

    def is_promise(self, impl: Impl) -> bool:
        """Whether it was written, for all that the type may be: rustdoc computes others, which another version may not have."""
        if not impl.is_negative or impl.is_computed:
            return False
        allowed = set()
        if isinstance(impl.self_type, Named):
            try:
                declaration = self.world.get(impl.self_type.key, "struct", impl.self_type.arguments)
            except Lossy:
                return False
            values = {p.name: a for p, a in zip(declaration.params, impl.self_type.arguments)}
            allowed = {(put(t, values), put_bound(b, values)) for t, b in declaration.predicates}
        return all(is_sizedness(b) or (t, b) in allowed for t, b in impl.predicates)

