"""Which impl another crate may have of the old version that an added one meets, or why there is none.

The program says of a header that some impl of another crate may overlap it. Whether somebody can have one is said here: it is written with
names of the old version, and the clauses of the added impl hold for it, by impls that its crate may have too.
"""
from __future__ import annotations

from typing import Iterator, Optional

from ..ask.reach import bind
from ..model.show import Show
from ..read.standard import FN_TRAITS
from ..read.terms import (UNIT, Bound, Declaration, Dyn, Impl, Lossy, Named, Param, Parameter, Primitive, Projection, Reference, Tuple, Type, Unknown,
                          Unsayable, argument_values, head_of, parameters_of, put, put_bound, rebuilt, walk)
from ..write.render import is_sizedness
from .open_walk import met_in_header, met_parameter, written_arguments
from .versions import Gone, Versions, all_keys, bound_keys, is_private, names_private, rekeyed, rekeyed_bound

# The other crate's own type, and the `dyn` of its own trait.
MINE, DYN = Parameter("Mine"), Parameter("dyn Mine")
BOX = "alloc/boxed/struct.Box.html"
# Traits that nobody implements by hand, unless by a feature of the nightly compiler.
BUILT_IN = (*FN_TRAITS, "AsyncFn", "AsyncFnMut", "AsyncFnOnce", "Tuple", "FnPtr", "Unsize", "Pointee", "DiscriminantKind", "Freeze")
MAXIMAL_DEPTH = 4
MAXIMAL_TYPES = 4


def some(term: Type) -> Type:
    """A type in place of what may be any."""
    return Primitive("u8") if isinstance(term, Unknown) else rebuilt(term, some)


class Nobody(Exception):
    """No other crate has an impl that the added one meets; says why."""


class OtherImpls:
    """`with_private`: items without a path are taken for public ones."""

    def __init__(self, versions: Versions, with_private: bool) -> None:
        self.versions = versions
        self.with_private = with_private
        self.world = versions.new
        self.show = Show(versions.old, pasted=True)

    # ---- what is written in the old version
    def narrowed(self, impl: Impl) -> Impl:
        """The part of an added impl that an impl of an older crate can meet: new parameters of its trait and types have their defaults there."""
        assert impl.trait is not None
        values: dict[str, Type] = {}
        own = {p.name for p in impl.params}
        for param, default in self.new_arguments(impl):
            if isinstance(param, Parameter) and param.name in own and default is not None and param != default:
                values[param.name] = default
        found = impl.copy()
        found.trait, found.self_type = put_bound(impl.trait, values), put(impl.self_type, values)
        found.predicates = [(put(t, values), put_bound(b, values)) for t, b in impl.predicates]
        found.params = [p for p in impl.params if p.name not in values]
        return found

    def new_arguments(self, impl: Impl) -> Iterator[tuple[Type, Optional[Type]]]:
        """The arguments of a header that the old version has no parameters for, each with the default."""
        for key, arguments in self.lists(impl):
            yield from self.new_of_list(key, arguments)

    def new_of_list(self, key: str, arguments: tuple[Type, ...]) -> Iterator[tuple[Type, Optional[Type]]]:
        item = self.versions.after.items.get(self.world.key_of(key))
        if item is not None:
            for param, argument in list(zip(item.params, arguments))[self.old_count(key, len(arguments)):]:
                yield argument, put(param.default, argument_values(item.params, arguments)) if param.default is not None else None

    @staticmethod
    def lists(impl: Impl) -> Iterator[tuple[str, tuple[Type, ...]]]:
        """The lists of arguments in a header, each with the key of its item."""
        assert impl.trait is not None
        yield impl.trait.key, impl.trait.arguments
        for part in (part for term in (impl.self_type, *impl.trait.arguments) for part in walk(term)):
            if isinstance(part, Named):
                yield part.key, part.arguments

    def old_count(self, key: str, count: int) -> int:
        before = self.versions.before.items.get(self.versions.older.get(self.world.key_of(key), ""))
        return min(count, len(before.params)) if before is not None else count

    def in_old(self, impl: Impl) -> Impl:
        """The header of a narrowed impl as the old version has it."""
        assert impl.trait is not None
        for key, arguments in self.lists(impl):
            self.fits(key, arguments)
        for key in bound_keys(impl.trait) + all_keys(impl.self_type):
            self.nameable(key)
        found = impl.copy()
        found.self_type = self.to_old(impl.self_type)
        found.trait = self.to_old_bound(impl.trait)
        return found

    def fits(self, key: str, arguments: tuple[Type, ...]) -> None:
        """Arguments of parameters that the old version has not are their defaults."""
        for argument, default in self.new_of_list(key, arguments):
            if argument != default:
                raise Nobody(f"the old version has no parameter that is `{self.versions.show_new.type(argument)}`")

    def nameable(self, key: str) -> None:
        try:
            old = self.versions.old_key(key)
        except Gone:
            raise Nobody(f"`{self.versions.show_new.path(key)}` is new")
        declaration = self.versions.old.known(old)
        is_unnamed = declaration is not None and is_private(self.versions.old, declaration) and declaration.key not in self.versions.before.kinds
        if not self.with_private and (is_unnamed or old.startswith("hidden:")):
            raise Nobody(f"nobody else can name `{self.versions.show_old.path(old)}`")

    def to_old(self, term: Type) -> Type:
        return rekeyed(self.cut(term), self.versions.old_key)

    def to_old_bound(self, bound: Bound) -> Bound:
        arguments = tuple(map(self.cut, bound.arguments[:self.old_count(bound.key, len(bound.arguments))]))
        return rekeyed_bound(Bound(bound.key, arguments, tuple((n, self.cut(v)) for n, v in bound.constraints), bound.maybe), self.versions.old_key)

    def cut(self, term: Type) -> Type:
        """Without arguments of parameters that the old version has not."""
        found = rebuilt(term, self.cut)
        return Named(found.key, found.arguments[:self.old_count(found.key, len(found.arguments))]) if isinstance(found, Named) else found

    # ---- what other crates have
    def met(self, trait: Declaration, impl: Impl) -> str:
        """An impl of another crate, by its header, and what its crate has next to it."""
        header, needs = self.search(trait, impl)
        beside = ", ".join(f"`{text}`" for text in dict.fromkeys(needs))
        return f"`{header}`" + (f" (with {beside})" if beside else "")

    def search(self, trait: Declaration, impl: Impl, depth: int = 0) -> tuple[str, list[str]]:
        """The added impl with a type of the other crate where the walk of the orphan rule meets a parameter; or with another type there that
        the clauses allow, and one's own type further on."""
        met = met_in_header(self.world, trait, impl)
        why = Nobody("its where-clauses hold of no type that another crate has")
        if met is None:
            raise why
        for form in self.forms(impl, met):
            special = self.special(impl, met, form)
            needs = self.clauses(special)
            try:
                if needs is not None:
                    return self.shown(trait, self.in_old(self.widened(special))), needs
            except Nobody as nobody:
                why = nobody
        for term in self.other_types(impl, met) if depth < MAXIMAL_DEPTH else ():
            try:
                return self.search(trait, self.special(impl, met, term), depth + 1)
            except Nobody:
                pass
        raise why

    def shown(self, trait: Declaration, header: Impl) -> str:
        item = self.versions.before.items.get(self.versions.older.get(trait.key, ""))
        return ("unsafe " if item is not None and item.is_unsafe else "") + self.show.header(header)

    def widened(self, special: Impl) -> Impl:
        """With parameters in place of what the old version has no name for: where they come after one's own type, or in a struct that is
        not fundamental, the orphan rule allows any."""
        assert special.trait is not None
        found, names = special.copy(), [f"X{n}" for n in range(1, MAXIMAL_TYPES + 1)]
        is_local = False

        def wide(term: Type, is_free: bool) -> Type:
            try:
                self.name_of(term)
            except Nobody:
                if not is_free or not names:
                    raise
                found.params = [*found.params, Param("type", names[0])]
                return Parameter(names.pop(0))
            is_free |= not isinstance(term, Reference) and not (isinstance(term, Named) and self.is_fundamental(term))
            return rebuilt(term, lambda part: wide(part, is_free))

        terms = []
        for term in (special.self_type, *special.trait.arguments):
            terms.append(wide(term, is_local))
            is_local |= met_parameter(self.world, term) in (MINE, DYN)
        found.self_type, found.trait = terms[0], Bound(special.trait.key, tuple(terms[1:]))
        return found

    def name_of(self, term: Type) -> None:
        """Whether the old version has a name for what the type begins with."""
        match term:
            case Named(key, arguments):
                self.nameable(key)
                self.fits(key, arguments)
            case Dyn() | Projection():
                for key in all_keys(term):
                    self.nameable(key)

    def is_fundamental(self, term: Named) -> bool:
        try:
            return self.world.get(term.key, "struct", term.arguments).is_fundamental
        except Lossy:
            return False

    def forms(self, impl: Impl, met: Type) -> Iterator[Type]:
        """What is local to another crate: its types, its `dyn`s, and references and boxes of these."""
        box = self.world.pages.key(BOX)
        for itself in (MINE, DYN):
            if itself is MINE or any(t == met and is_sizedness(b) for t, b in impl.predicates):
                yield itself
            yield from (Reference(False, itself), Reference(True, itself))
            if box is not None:
                yield Named(box, (itself,))

    @staticmethod
    def special(impl: Impl, met: Type, form: Type) -> Impl:
        def changed(term: Type) -> Type:
            return form if term == met else rebuilt(term, changed)

        def changed_bound(bound: Bound) -> Bound:
            return Bound(bound.key, tuple(map(changed, bound.arguments)), tuple((n, changed(v)) for n, v in bound.constraints), bound.maybe)

        assert impl.trait is not None
        found = impl.copy()
        found.trait, found.self_type, found.is_negative = changed_bound(impl.trait), changed(impl.self_type), False
        found.predicates = [(changed(t), changed_bound(b)) for t, b in impl.predicates]
        left = {n for t in (found.self_type, *found.trait.arguments) for n in parameters_of(t)}
        found.params = [p for p in impl.params if p.name in left]
        return found

    def other_types(self, impl: Impl, met: Type) -> Iterator[Type]:
        """Types without parameters that have a trait which a clause asks of what is met."""
        found: dict[Type, None] = {}
        for bound in (b for t, b in impl.predicates if t == met and not is_sizedness(b)):
            for one in self.impls_of(bound.key, None):
                is_plain = not parameters_of(one.self_type) and not any(isinstance(p, (Unsayable, Projection)) for p in walk(one.self_type))
                if is_plain and not names_private(self.world, self.versions.after, all_keys(one.self_type)):
                    found[one.self_type] = None
        yield from list(found)[:MAXIMAL_TYPES]

    # ---- whether clauses can hold
    def clauses(self, special: Impl) -> Optional[list[str]]:
        """What the other crate has to have for the clauses of the added impl; None if they cannot hold."""
        names = {n for t, b in special.predicates for term in (t, *b.arguments, *(v for _, v in b.constraints)) for n in parameters_of(term)}
        unknown: dict[str, Type] = {name: Unknown("_") for name in names - {MINE.name, DYN.name}}
        return self.all_of([(put(t, unknown), put_bound(b, unknown)) for t, b in special.predicates], ())

    def all_of(self, predicates: list[tuple[Type, Bound]], above: tuple[object, ...]) -> Optional[list[str]]:
        needs: list[str] = []
        for subject, bound in predicates:
            found = [] if is_sizedness(bound) else self.possible(subject, bound, above)
            if found is None:
                return None
            needs += found
        return needs

    def possible(self, subject: Type, bound: Bound, above: tuple[object, ...]) -> Optional[list[str]]:
        """What another crate has to have for a bound to hold; None if it cannot hold. A bound that the crate cannot write an impl for is one
        that rustc takes for possible: this crate may have an impl later."""
        trait = self.trait(bound)
        goal = (subject, bound.key, bound.arguments)
        if trait is None or trait.is_auto or trait.name == "Sized" or isinstance(subject, (Unknown, Projection, Unsayable)):
            return []
        if not self.is_local(trait, Impl("", "", Bound(bound.key, bound.arguments), subject)) or len(above) > MAXIMAL_DEPTH:
            return []
        if goal in above:
            return None
        by_impls = [found for found in self.by_impls(subject, bound, (*above, goal)) if found is not None]
        if [] in by_impls:
            return []
        written = self.written(trait, subject, bound, (*above, goal))
        return written if written is not None else min(by_impls, key=len, default=None)

    def trait(self, bound: Bound) -> Optional[Declaration]:
        try:
            return self.world.get(bound.key, "trait", bound.arguments)
        except Lossy:
            return None

    def by_impls(self, subject: Type, bound: Bound, above: tuple[object, ...]) -> Iterator[Optional[list[str]]]:
        """By each impl that there is: what its clauses need."""
        for impl in self.impls_of(bound.key, head_of(subject)):
            assert impl.trait is not None
            values: dict[str, Type] = {}
            params = {p.name for p in impl.params}
            sides = list(zip((impl.self_type, *impl.trait.arguments), (subject, *bound.arguments)))
            if not impl.is_negative and all(bind(pattern, term, params, values) for pattern, term in sides):
                whole = {**{name: Unknown("_") for name in params}, **values}
                yield self.all_of([(put(t, whole), self.with_output(put_bound(b, whole), bound)) for t, b in impl.predicates], above)

    @staticmethod
    def with_output(clause: Bound, asked: Bound) -> Bound:
        """A closure that is after a reference gives what the reference is asked for."""
        is_fn = any(clause.key.endswith(f"trait.{name}.html") or clause.key.endswith(f"trait.{name}") for name in FN_TRAITS)
        return Bound(clause.key, clause.arguments, asked.constraints) if is_fn and not clause.constraints else clause

    def impls_of(self, key: str, head: Optional[str]) -> Iterator[Impl]:
        trait = self.world.key_of(key)
        yield from (impl for impl in self.world.impls_of(trait, head) if impl.trait is not None)
        if trait.startswith("std:"):
            yield from (impl for impl in self.world.standard.impls_with_head(trait, head) if impl.trait is not None)

    def written(self, trait: Declaration, subject: Type, bound: Bound, above: tuple[object, ...]) -> Optional[list[str]]:
        """By an impl that the other crate writes, or by a supertrait of its own trait."""
        try:
            self.nameable(trait.key)
            bare = Impl("", "", Bound(bound.key, tuple(map(some, bound.arguments))), subject)
            header = self.shown(trait, self.in_old(bare))
            is_dyn = subject == DYN and self.is_dyn(trait)
            if not is_dyn and (trait.name in BUILT_IN or not self.with_private and self.versions.is_sealed(self.world, trait)):
                return None
        except (Nobody, Gone):
            return None
        if is_dyn:
            return [f"trait Mine: {self.as_supertrait(trait, bound)}"]
        values = {**argument_values(trait.params, bound.arguments), "Self": subject}
        needs = self.all_of([(subject, put_bound(b, values)) for b in trait.supers], above)
        return None if needs is None else [*needs, header]

    def as_supertrait(self, trait: Declaration, bound: Bound) -> str:
        show = self.show
        constraints = tuple((name, some(value)) for name, value in bound.constraints)
        inputs = bound.arguments[0] if trait.name in FN_TRAITS and bound.arguments else None
        if not isinstance(inputs, Tuple):
            return show.bound(self.to_old_bound(Bound(bound.key, tuple(map(some, bound.arguments)), constraints)))
        output = [f" -> {show.type(self.to_old(value))}" for name, value in constraints if name == "Output" and value != UNIT]
        return f"{trait.name}({', '.join(show.type(self.to_old(some(item))) for item in inputs.items)}){''.join(output)}"

    def is_dyn(self, trait: Declaration) -> bool:
        """Whether there may be a `dyn` of it."""
        item = self.versions.after.items.get(trait.key)
        return item.is_dyn if item is not None else not is_private(self.world, trait)

    def is_local(self, trait: Declaration, bare: Impl) -> bool:
        """Whether the orphan rule lets the other crate have it: its own type comes before anything unknown."""
        for term in written_arguments(trait, bare):
            if met_parameter(self.world, term) in (MINE, DYN):
                return True
            if isinstance(term, Unknown):
                return False
        return False
