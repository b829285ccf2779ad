"""Checks that the two texts keep the rules under which answers carry over to the crates that were read.

It reads the written texts back and compares them with the intermediate form, line by line: it shares no code with what wrote them
but the names of items. The rules, with the reason for each, are in docs/RUSTDOC.md.
"""
from __future__ import annotations

import functools
from collections import Counter
from typing import Callable, Iterator, Optional

from ..read.headers import FLOATS
from ..read.html_docs import is_std_key
from ..read.standard import FN_TRAITS
from ..read.terms import (FUNCTIONS, Alias, Array, Bound, BoundsOf, Constant, Declaration, Dyn, Form, Function, Impl, Lossy, Named, Never, Parameter, Part,
                          Pointer, Predicate, Primitive, Projection, Reference, Slice, Tuple, Type, Unsayable, argument_values, parts, put, walk)
from .build import Piece, Translation
from .render import FIELD, Scope, is_packed, is_sizedness, names_of, packed
from .text_form import Text, TextLine, read_text
from .unfold import Unfolder


class Checker:
    def __init__(self, translation: Translation) -> None:
        self.translation = translation
        self.world = translation.world
        self.renderer = translation.renderer
        self.problems: list[str] = []
        self.unfolders: dict[str, Unfolder] = {}
        self.equations: list[tuple[Projection, Type]] = []
        self.hidden: set[str] = set()
        self.own: list[Predicate] = []

    def check(self, written: dict[str, str]) -> list[str]:
        """What is wrong with the texts. Nothing if they keep the rules."""
        pieces = {mode: [p for p in self.translation.text(mode)[1] if p is not None] for mode in written}
        texts = {mode: read_text(text) for mode, text in written.items()}
        owners = [(self.world.get(key), name) for key, name in self.renderer.thens]
        thens = {self.renderer.then_name(declaration, name): (self.world.name(declaration), name) for declaration, name in owners}
        self.unfolders = {mode: Unfolder(text, thens) for mode, text in texts.items()}
        for mode, text in texts.items():
            self.problems += [f"{mode} text, {p}" for p in text.problems]
            items = [line for line in text.lines if line.kind != "question"]
            if len(items) != len(pieces[mode]):
                self.problems.append(f"{mode} text: {len(items)} items, where the crates have {len(pieces[mode])}: each impl has its own line")
                continue
            for line, piece in zip(items, pieces[mode]):
                try:
                    self.item(mode, text, line, piece)
                except Lossy as error:
                    self.complain(mode, line, f"cannot be compared: {error}")
            self.no_lost_dyn(mode, text)
            self.problems += [f"{mode} text: {p}" for p in self.unfolders[mode].problems]
        self.each_impl_once()
        return self.problems

    def complain(self, mode: str, line: TextLine, what: str) -> None:
        self.problems.append(f"{mode} text, line {line.number}: {what}: `{line.text[:100]}`")

    # ---- supertraits
    def no_lost_dyn(self, mode: str, text: Text) -> None:
        """No `dyn` of a trait, or of one below it, of which a supertrait could not be said."""
        lost = {self.world.name(d) for d in self.renderer.traits.values() if self.renderer.lost(d)}
        for line in text.lines:
            bounds = line.bounds + ([line.trait] if line.trait else []) + [b for _, b in line.clauses]
            terms = line.fields + [line.self_type] + [t for t, _ in line.clauses] + [a for b in bounds for a in b.arguments]
            for term in terms:
                for part in walk(term):
                    if isinstance(part, Dyn):
                        for bound in part.bounds:
                            if text.above(bound.key) & lost:
                                self.complain(mode, line, f"a dyn of `{bound.key}`, whose supertraits are not all said")

    def item(self, mode: str, text: Text, line: TextLine, piece: Piece) -> None:
        if line.kind == "trait" and piece.declaration is not None:
            self.trait(mode, line, piece.declaration)
        elif line.kind == "struct" and piece.declaration is not None:
            self.struct(mode, text, line, piece.declaration)
        elif line.kind == "impl" and piece.written is not None:
            if not piece.is_impl:
                self.complain(mode, line, "an impl in the place of an item")
            elif piece.cut is not None:
                self.auto_impl_of_cut(mode, line, piece)
            else:
                self.impl(mode, line, piece)
        elif line.kind == "impl" and (piece.upper != piece.lower or piece.upper is None or piece.upper.text != line.text):
            self.complain(mode, line, "no crate has this impl")

    def trait(self, mode: str, line: TextLine, declaration: Declaration) -> None:
        if line.name != self.world.name(declaration):
            if line.name not in self.further_traits(declaration):
                self.complain(mode, line, f"in the place of the trait {declaration.name}")
            return
        if (mode == "upper" or is_std_key(declaration.key)) and line.is_auto != declaration.is_auto:
            self.complain(mode, line, "an auto trait, or not one, unlike the crate's")
        written = Counter(b.key for b in line.bounds)
        lost = len(self.renderer.supertraits(declaration)[1])
        wanted: Counter[str] = Counter()
        for bound in declaration.supers:
            if is_sizedness(bound):
                continue
            try:
                above = self.world.get(bound.key, "trait", bound.arguments)
            except Lossy:
                continue
            wanted[self.world.name(above)] += 1
            for name, value in bound.constraints:
                if not isinstance(value, BoundsOf):
                    wanted[self.renderer.companion_name(above, name)] += 1
        missing = [n for n in wanted if n not in written]
        if missing and not lost:
            self.complain(mode, line, f"the supertrait `{missing[0]}` is dropped")
        if any(n not in wanted for n in written):
            self.complain(mode, line, "a supertrait that the crate has not")

    def value_traits(self, declaration: Declaration, name: str) -> tuple[str, str]:
        return self.renderer.companion_name(declaration, name), self.renderer.then_name(declaration, name)

    def further_traits(self, declaration: Declaration) -> set[str]:
        """The traits that the text has next to a trait."""
        found = {n for a in declaration.associated for n in self.value_traits(declaration, a)}
        return found | {self.renderer.any_name(declaration)} if self.renderer.is_fn_trait(declaration) else found

    # ---- structs
    def struct(self, mode: str, text: Text, line: TextLine, declaration: Declaration) -> None:
        if line.name != self.world.name(declaration) or line.is_fundamental != declaration.is_fundamental:
            self.complain(mode, line, f"in the place of the struct {declaration.name}")
            return
        is_cut = any(c.declaration is declaration for c in self.translation.cuts)
        if is_std_key(declaration.key) or declaration.is_opaque:
            if declaration.tail is not None and not line.fields:
                self.complain(mode, line, "the last field is dropped")
            return
        if is_cut:
            if not line.fields:
                self.complain(mode, line, "the last field is dropped")
            elif mode == "lower" and line.fields[-1] == Tuple(()) and self.ends_with_unsized_value(declaration):
                self.complain(mode, line, "sized, where its last field is an associated type that may be unsized")
            return
        extra = 1 if declaration.is_enum and declaration.fields else 0
        if len(line.fields) != len(declaration.fields) + extra:
            self.complain(mode, line, f"{len(line.fields)} fields, where the crate has {len(declaration.fields)}")
            return
        names = names_of(declaration.params)
        for written, real in zip(line.fields, declaration.fields):
            if not self.matches(written, real, names, set(), in_field=True):
                self.complain(mode, line, "a field that is not the crate's")

    def ends_with_unsized_value(self, declaration: Declaration) -> bool:
        """Whether the last field is an associated type that is not said to be sized."""
        last = declaration.fields[-1] if declaration.fields and not declaration.is_enum else None
        if not isinstance(last, Projection):
            return False
        try:
            owner = self.renderer.owner(last, Scope(FIELD, names_of(declaration.params), predicates=declaration.predicates))
            return any(is_sizedness(bound) for bound in self.world.get(owner.key).item_bounds.get(last.name, []))
        except Lossy:
            return True

    # ---- auto traits
    def auto_impl_of_cut(self, mode: str, line: TextLine, piece: Piece) -> None:
        """Its clauses are fields of the struct, each with this trait; where one is missing the lower text has a void impl."""
        assert piece.cut is not None and piece.written is not None and line.trait is not None
        declaration = piece.cut.declaration
        void = is_void(line)
        if mode == "upper" and void:
            self.complain(mode, line, "a void impl of an auto trait in the upper text")
        if is_packed(declaration.params) and line.clauses and not void:
            self.complain(mode, line, "fields of a struct whose parameters are packed")
        if mode == "lower" and not void and (piece.written.losses or len(line.clauses) < len(set(declaration.fields))
                                             and len(line.clauses) < len({self.shape(f) for f in declaration.fields})):
            self.complain(mode, line, "an auto trait by some of the fields alone in the lower text")
        names = names_of(declaration.params)
        self.own, self.equations, self.hidden = declaration.predicates, [], set()
        for clause in [] if void else line.clauses:
            said = self.unfolders[mode].unfold(*clause)
            subject, bound = said.subject, said.bound
            if bound is None or bound.key != line.trait.key or not any(self.matches(subject, f, names, set(), in_field=True) for f in declaration.fields):
                self.complain(mode, line, "a clause that is no field of the struct")

    def shape(self, term: Type) -> str:
        """Fields that the text writes alike: fn pointers are all one."""
        return "fn" if isinstance(term, Function) else repr(term)

    # ---- impls
    def impl(self, mode: str, line: TextLine, piece: Piece) -> None:
        written = piece.written
        assert written is not None and line.trait is not None
        impl = written.impl
        if impl.trait is None:
            self.complain(mode, line, "an impl whose header was not understood")
            return
        trait = self.world.get(impl.trait.key, "trait", impl.trait.arguments)
        predicates = self.own = self.predicates(impl)
        self.equations = [(Projection(subject, bound, name), value) for subject, bound in predicates for name, value in bound.constraints
                          if not isinstance(value, BoundsOf)]
        here = {p.name for p in line.params}
        self.hidden = {name for name, said in names_of(impl.params).items() if said not in here}
        is_companion = line.trait.key != self.world.name(trait)
        if is_companion and line.trait.key not in self.further_traits(trait):
            self.complain(mode, line, f"an impl of another trait than {trait.name}")
            return
        if is_void(line) and not (impl.is_negative or (mode == "lower" and trait.is_auto and written.losses)):
            self.complain(mode, line, "a void impl, where the crate has none")
        if impl.is_negative and not is_void(line):
            self.complain(mode, line, "a negative impl that is not void")
        if mode == "lower" and written.losses and not is_void(line):
            self.complain(mode, line, "an impl with a loss in the lower text")
        self.header(mode, line, impl, trait, is_companion, bool(written.losses), bool(written.unknown))
        if not is_void(line):
            # That a type has a trait of functions for some arguments is said with fewer clauses.
            self.clauses(mode, line, impl, bool(written.losses) or line.trait.key == self.renderer.any_name(trait))

    def header(self, mode: str, line: TextLine, impl: Impl, trait: Declaration, is_companion: bool, lossy: bool, unknown: bool) -> None:
        """The written header is the crate's, with fresh parameters for what the text cannot say, and for projections."""
        assert impl.trait is not None and line.trait is not None
        names = names_of(impl.params)
        fresh = {p.name for p in line.params} - set(names.values())
        values = argument_values(trait.params, impl.trait.arguments)
        wanted = [put(values[p.name], {"Self": impl.self_type}) for kind in ("type", "const") for p in trait.params if p.kind == kind]
        arguments = list(line.trait.arguments)
        if line.trait.key == self.renderer.any_name(trait):
            wanted = []
        elif is_companion:
            # Behind the types comes what the line has more: the value, or a pattern.
            place = sum(p.kind == "type" for p in trait.params)
            argument = arguments.pop(place) if place < len(arguments) else None
            self.value(mode, line, impl, trait, argument, names, fresh, unknown and mode == "upper")
        pairs = list(zip([line.self_type] + arguments, [impl.self_type] + wanted))
        if len(arguments) != len(wanted) or not all(self.matches(w, r, names, fresh, lossy=lossy) for w, r in pairs):
            self.complain(mode, line, f"a header that is not the crate's ({impl.source})")

    def clauses(self, mode: str, line: TextLine, impl: Impl, lossy: bool) -> None:
        """Each clause is one of the impl's own: none is new, and none is turned into a clause by another trait. Without a loss on record
        each of the impl's own is there, `Sized` of its parameters too."""
        names = names_of(impl.params)
        fresh = {p.name for p in line.params} - set(names.values())
        wanted = [p for p in self.predicates(impl) if not is_sizedness(p[1]) and not p[1].key.endswith("trait.Destruct")]
        companions = set(self.companions_of(impl, wanted))
        found: set[int] = set()
        sized: set[str] = set()
        for clause in line.clauses:
            said = self.unfolders[mode].unfold(*clause)
            if said.bound is None:
                if not any(self.matches(said.subject, p, names, fresh) and self.has_form(said.form, v, names, fresh) for p, v in self.equations):
                    self.complain(mode, line, "an equation that the impl has not")
                continue
            subject, bound = said.subject, said.bound
            if bound.key == "Apply_":
                continue
            if bound.key == "Sized":
                sized |= {p.name for p in impl.params if self.matches(subject, Parameter(p.name), names, fresh)}
            same = [n for n, p in enumerate(wanted) if self.same_clause(subject, bound, p, names, fresh)]
            found |= set(same)
            if bound.key in self.fn_traits:
                if not any(self.fn_traits.get(bound.key, 9) <= self.rank_of(b) and self.matches(subject, t, names, fresh) for t, b in wanted):
                    self.complain(mode, line, f"a clause by `{bound.key}`, which the impl has not")
                continue
            is_size = bound.key == "Sized" and any(self.matches(subject, Parameter(p.name), names, fresh) for p in impl.params)
            if not same and not is_size and bound.key not in companions:
                self.complain(mode, line, f"a clause by `{bound.key}`, which the impl has not")
        if lossy:
            return
        if len(found) < len(wanted):
            self.complain(mode, line, "clauses are dropped, and no loss is on record")
        unsized = {t.name for t, b in impl.predicates if is_sizedness(b) and isinstance(t, Parameter)}
        if any(p.kind == "type" and p.name not in unsized and p.name not in sized for p in impl.params):
            self.complain(mode, line, "clauses are dropped: `Sized` of a parameter")

    @functools.cached_property
    def fn_traits(self) -> dict[str, int]:
        """The traits that say that a type has `FnOnce`, `FnMut` or `Fn` for some arguments; one has those of a lower rank too."""
        return {self.renderer.any_name(d): FN_TRAITS.index(d.name) for d in self.renderer.traits.values() if self.renderer.is_fn_trait(d)}

    def rank_of(self, bound: Bound) -> int:
        try:
            declaration = self.world.get(bound.key, "trait", bound.arguments)
        except Lossy:
            return -1
        return FN_TRAITS.index(declaration.name) if self.renderer.is_fn_trait(declaration) else -1

    def same_clause(self, subject: Type, bound: Bound, real: Predicate, names: dict[str, str], fresh: set[str]) -> bool:
        try:
            above = self.world.get(real[1].key, "trait", real[1].arguments)
        except Lossy:
            return False
        values = argument_values(above.params, real[1].arguments)
        wanted = [put(values[p.name], {"Self": real[0]}) for kind in ("type", "const") for p in above.params if p.kind == kind]
        return (self.world.name(above) == bound.key and self.matches(subject, real[0], names, fresh, lossy=True)
                and len(wanted) == len(bound.arguments) and all(self.matches(w, r, names, fresh, lossy=True) for w, r in zip(bound.arguments, wanted)))

    def predicates(self, impl: Impl) -> list[Predicate]:
        """The impl's predicates, with those inside them: `I: Iterator<Item: Debug>` has one on `I::Item`."""
        found: list[Predicate] = []
        todo = list(impl.predicates)
        while todo:
            subject, bound = todo.pop(0)
            found.append((subject, bound))
            for name, value in bound.constraints:
                if isinstance(value, BoundsOf):
                    todo += [(Projection(subject, bound, name), inner) for inner in value.bounds]
        return found

    def companions_of(self, impl: Impl, wanted: list[Predicate]) -> Iterator[str]:
        """The traits of clauses that equations and projections bring: companions, and the traits of what is projected."""
        for _, bound in wanted:
            for name, value in bound.constraints:
                owner = None if isinstance(value, BoundsOf) else self.renderer.bound_with(bound, name)
                if owner:
                    # The trait itself too: a header may have what the equation determines.
                    yield self.world.name(self.world.get(owner.key))
                    yield self.renderer.companion_name(self.world.get(owner.key), name)
        for term in [impl.self_type, *(impl.trait.arguments if impl.trait else ()), *impl.associated.values(), *(v for _, v in self.equations)]:
            yield from self.traits_of_projections(term, impl)

    def traits_of_projections(self, term: Type, impl: Impl) -> Iterator[str]:
        """A projection in a header brings two clauses: that its trait holds, and the companion."""
        for part in walk(term):
            meant = self.meant(part) if isinstance(part, Alias) else None
            if meant is not None:
                yield from self.traits_of_projections(meant, impl)
            if isinstance(part, Projection):
                for declaration in self.renderer.traits.values():
                    if part.name in declaration.associated:
                        yield self.world.name(declaration)
                        yield self.renderer.companion_name(declaration, part.name)

    def each_impl_once(self) -> None:
        """Each impl has at most one line of its own trait in each text."""
        for mode in ("upper", "lower"):
            seen: Counter[int] = Counter()
            for crate in self.translation.crates:
                for piece in crate.pieces:
                    line = piece.upper if mode == "upper" else piece.lower
                    if piece.written is not None and line is not None and line.role != "companion":
                        seen[id(piece.written)] += 1
            if any(count > 1 for count in seen.values()):
                self.problems.append(f"{mode} text: an impl has two lines")

    # ---- types
    def meant(self, alias: Alias) -> Optional[Type]:
        """The type that an alias stands for. None if its crate was not given."""
        try:
            declaration = self.world.get(alias.key)
        except Lossy:
            return None
        return put(declaration.fields[0], argument_values(declaration.params, alias.arguments))

    def matches(self, written: Type, real: Type, names: dict[str, str], fresh: set[str], lossy: bool = False, in_field: bool = False) -> bool:
        """Whether the written type is the real one in the text's form, with fresh parameters for what has none there."""
        def inside(w: Type, r: Type) -> bool:
            return self.matches(w, r, names, fresh, lossy, in_field)

        def all_inside(ws: tuple[Type, ...], rs: tuple[Type, ...]) -> bool:
            return len(ws) == len(rs) and all(inside(w, r) for w, r in zip(ws, rs))

        if isinstance(real, Alias):
            meant = self.meant(real)
            return inside(written, meant) if meant is not None else lossy and isinstance(written, Parameter) and written.name in fresh
        if isinstance(written, (Projection, Part)):
            return self.is_projection(written, real, names, fresh)
        if isinstance(real, Projection):
            # It goes by a fresh name of the header, or by what an equation of the impl says.
            return isinstance(written, Parameter) and written.name in fresh or any(
                place.name == real.name and self.renderer.same_subject(place.subject, real.subject) and inside(written, value)
                for place, value in self.equations)
        if isinstance(written, Parameter) and written.name in fresh:
            return lossy or isinstance(real, Parameter) and real.name in self.hidden
        match real:
            case Parameter(name):
                return written == Parameter(names.get(name, ""))
            case Primitive(name):
                return written == (Named(name, ()) if name in FLOATS else real)
            case Never():
                return written == real
            case Reference(mutable, target):
                return isinstance(written, Named) and written.key == ("RefMut_" if mutable else "Ref_") and inside(written.arguments[0], target)
            case Pointer(mutable, target):
                return isinstance(written, Named) and written.key == ("PtrMut_" if mutable else "PtrConst_") and inside(written.arguments[0], target)
            case Slice(element):
                return isinstance(written, Slice) and inside(written.element, element)
            case Array(element, length):
                return isinstance(written, Array) and inside(written.element, element) and (
                    in_field and written.length == "0" or self.same_constant(written.length, length, names, fresh, lossy))
            case Tuple(items):
                if len(items) > 12:
                    chunks = tuple(Tuple(items[n:n + 12]) for n in range(0, len(items), 12))
                    return isinstance(written, Named) and written.key == f"Tuple{len(items)}_" and all_inside(written.arguments, chunks)
                return isinstance(written, Tuple) and all_inside(written.items, items)
            case Function(inputs, output, how):
                if in_field:
                    return written == Function((), Tuple(()))
                if how:
                    return isinstance(written, Named) and written.key == FUNCTIONS.get(how) and all_inside(written.arguments, (Tuple(inputs), output))
                return isinstance(written, Function) and all_inside(written.inputs, inputs) and inside(written.output, output)
            case Dyn(bounds) if isinstance(written, Named):
                return self.is_shape(written, bounds, inside)
            case Dyn(bounds):
                return isinstance(written, Dyn) and sorted(b.key for b in written.bounds) == sorted(
                    self.world.name(self.world.get(b.key, "trait", b.arguments)) for b in bounds)
            case Named(key, arguments):
                declaration = self.world.get(key, "struct", arguments)
                if not isinstance(written, Named) or written.key != self.world.name(declaration):
                    return False
                values = argument_values(declaration.params, arguments)
                types, consts = (tuple(put(values[p.name], {"Self": real}) for p in declaration.params if p.kind == kind) for kind in ("type", "const"))
                return all_inside(written.arguments, (packed(types) if is_packed(declaration.params) else types) + consts)
            case Constant(text):
                value = written.text if isinstance(written, Constant) else written.name if isinstance(written, Parameter) else ""
                return self.same_constant(value, text, names, fresh, lossy)
            case Unsayable():
                return False
        return False

    def is_shape(self, written: Named, bounds: tuple[Bound, ...], inside: Callable[[Type, Type], bool]) -> bool:
        """Whether the struct stands for the `dyn`: of its trait and auto traits, with its arguments and the values that it gives."""
        shape = self.world.shape_of_key.get(self.world.named.get(written.key, ""))
        if shape is None:
            return False
        known = [(self.world.get(b.key, "trait", b.arguments), b) for b in bounds]
        principal = [(d, b) for d, b in known if not d.is_auto]
        if len(principal) != 1 or principal[0][0].key != shape.trait or tuple(sorted(d.key for d, _ in known if d.is_auto)) != shape.autos:
            return False
        declaration, bound = principal[0]
        values = argument_values(declaration.params, bound.arguments)
        said = shape.dyn(written.arguments).bounds[0]
        wanted = [values[p.name] for p in declaration.params]
        return (len(said.arguments) == len(wanted) and all(map(inside, said.arguments, wanted)) and len(said.constraints) == len(bound.constraints)
                and all(name in dict(bound.constraints) and inside(value, dict(bound.constraints)[name]) for name, value in said.constraints))

    def is_projection(self, written: Projection | Part, real: Type, names: dict[str, str], fresh: set[str]) -> bool:
        """Whether a projection is the real one, or what an equation of the impl says a parameter, or a part of it, to be."""
        if isinstance(written, Part):
            return isinstance(real, Parameter) and any(
                self.matches(written.whole, place, names, fresh) and self.has_form(written.form, value, names, fresh, {written.name: real.name})
                for place, value in self.equations)
        if not isinstance(real, Projection):
            return any(value == real and self.matches(written, place, names, fresh) for place, value in self.equations)
        if written.name != real.name or not self.matches(written.subject, real.subject, names, fresh):
            return False
        if written.bound is None or real.bound is None:
            return True
        declaration = self.world.get(real.bound.key, "trait", real.bound.arguments)
        if self.world.name(declaration) != written.bound.key:
            return real.name not in declaration.associated
        if self.renderer.is_short(real.bound):
            found = [(s, self.renderer.bound_with(b, real.name)) for s, b in self.own if self.renderer.same_subject(s, real.subject)]
            return any(self.is_projection(written, Projection(s, b, real.name), names, fresh)
                       for s, b in found if b is not None and not self.renderer.is_short(b) and self.world.get(b.key).key == declaration.key)
        values = argument_values(declaration.params, real.bound.arguments)
        wanted = [put(values[p.name], {"Self": real.subject}) for kind in ("type", "const") for p in declaration.params if p.kind == kind]
        return len(wanted) == len(written.bound.arguments) and all(self.matches(w, r, names, fresh) for w, r in zip(written.bound.arguments, wanted))

    def has_form(self, form: Optional[Form], value: Type, names: dict[str, str], fresh: set[str], known: Optional[dict[str, str]] = None) -> bool:
        """Whether the written form is the value of an equation, with its names for parameters of the impl, each for one."""
        assert form is not None
        pairs = [p for p in self.pairs(form.pattern, value) if isinstance(p[0], Parameter) and p[0].name in form.names]
        stands = {w.name: r.name for w, r in pairs if isinstance(w, Parameter) and isinstance(r, Parameter)}
        if len(stands) != len(form.names) or len(set(stands.values())) != len(stands) or any(stands.get(n) != r for n, r in (known or {}).items()):
            return False
        return self.matches(form.pattern, value, {**names, **{r: n for n, r in stands.items()}}, fresh)

    def pairs(self, written: Type, real: Type) -> Iterator[tuple[Type, Type]]:
        """The parts of two types that are at one place."""
        yield written, real
        inner = parts(real)
        if isinstance(real, Alias):
            declaration = self.world.get(real.key)
            inner = ()
            yield from self.pairs(written, put(declaration.fields[0], argument_values(declaration.params, real.arguments)))
        elif isinstance(real, Named):
            declaration = self.world.get(real.key, "struct", real.arguments)
            values = argument_values(declaration.params, real.arguments)
            inner = tuple(values[p.name] for kind in ("type", "const") for p in declaration.params if p.kind == kind)
        for left, right in zip(parts(written), inner):
            yield from self.pairs(left, right)

    def value(self, mode: str, line: TextLine, impl: Impl, trait: Declaration, argument: Optional[Type], names: dict[str, str],
              fresh: set[str], unknown: bool) -> None:
        """A line of a companion has the value of its associated type; one that asks patterns asks its own of that value. In the upper text
        one whose value is not known may hold of all."""
        assert line.trait is not None
        name = next(a for a in trait.associated if line.trait.key in self.value_traits(trait, a))
        real = impl.associated.get(name)
        if line.trait.key == self.renderer.companion_name(trait, name):
            if (real is None or argument is None) and not unknown:
                self.complain(mode, line, "a value that is not known")
            return
        pattern = argument.arguments[0] if isinstance(argument, Named) and argument.key == "Wrap_" else None
        asked = [u for u in (self.unfolders[mode].unfold(*c) for c in line.clauses) if u.bound is not None and u.bound.key == "Apply_"]
        if not isinstance(pattern, Parameter) or pattern.name not in fresh or len(asked) > 1:
            self.complain(mode, line, "a pattern that is no parameter")
        elif not asked:
            if not unknown:
                self.complain(mode, line, "a value of which no pattern is asked")
        elif asked[0].subject != pattern or real is None or asked[0].bound is None or not self.is_value(
                asked[0].bound.arguments[0], real, impl, names, fresh):
            self.complain(mode, line, "a pattern that is asked of another value than the impl's")

    def is_value(self, written: Type, real: Type, impl: Impl, names: dict[str, str], fresh: set[str]) -> bool:
        """Whether the type is the value of the associated type, where `Self::Item` may stand for another one of the impl."""
        for _ in impl.associated:
            if isinstance(real, Projection) and real.subject in (Parameter("Self"), impl.self_type) and real.name in impl.associated and impl.trait and (
                    real.bound is None or self.world.get(real.bound.key).key == self.world.get(impl.trait.key).key):
                real = impl.associated[real.name]
        return self.matches(written, put(real, {"Self": impl.self_type}), names, fresh)

    @staticmethod
    def same_constant(written: str, real: str, names: dict[str, str], fresh: set[str], lossy: bool) -> bool:
        real = real.strip("{} ")
        if real in names:
            return written == names[real]
        if written in fresh:
            return lossy
        digits = "".join(c for c in real.split("u")[0].split("i")[0] if c.isdigit())
        return real in ("true", "false") or written == digits or real.startswith("0x")


def is_void(line: TextLine) -> bool:
    return line.text.endswith(" where u8: Never_")


def check_texts(translation: Translation, texts: dict[str, str]) -> list[str]:
    """What is wrong with the texts, which are "upper", "lower", or both."""
    return Checker(translation).check(texts)
