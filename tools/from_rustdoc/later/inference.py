"""What Rust infers by an impl alone: where one impl could apply to what is known of a bound's types, and an added one could too, types have to
be written out. That breaks crates in rare uses, so it is reported as `changed`."""
from __future__ import annotations

from typing import Iterator, Optional

from ..ask.reach import bind
from ..read.terms import Impl, Lossy, Parameter, Primitive, Type, Unknown, parameters_of, parts, put, rebuilt
from ..report.messages import Message, at
from .item_changes import change
from .open_walk import written_arguments
from .other_impls import Nobody, OtherImpls
from .versions import Gone, Versions

INTEGERS = ("i8", "i16", "i32", "i64", "i128", "isize", "u8", "u16", "u32", "u64", "u128", "usize")
FLOATS = ("f16", "f32", "f64", "f128")
# What is known of a type: nothing, or that a literal without a suffix stands for it.
ANY, INTEGER, FLOAT = Unknown("_"), Unknown("integer"), Unknown("float")
Terms = tuple[Type, ...]


class Inference:
    """`others` says what added impls are in the old version; `told` are old impls that are reported already."""

    def __init__(self, versions: Versions, others: OtherImpls, told: set[int]) -> None:
        self.versions = versions
        self.others = others
        self.told = set(told)

    def by(self, impl: Impl) -> Optional[Message]:
        """What is reported of an added impl: of one old impl that was the only one that could apply, once."""
        assert impl.trait is not None
        try:
            header, trait = self.others.in_old(impl), self.versions.old.get(self.versions.old_key(impl.trait.key))
        except (Gone, Lossy, Nobody):
            return None
        added = tuple(written_arguments(trait, header))
        if len(added) == 1 or impl.is_negative:
            return None
        before = [(one, tuple(written_arguments(trait, one))) for one in self.candidates(trait.key)]
        for one, terms in before:
            known = tuple(common(a, b) for a, b in zip(added, terms))
            is_known = known[0] in (INTEGER, FLOAT) or not has_unknown(known[0])
            if isinstance(one.self_type, Parameter) or not is_known or not any(has_unknown(t) for t in known) or id(one) in self.told:
                continue
            if [other for other, its in before if fits(known, its, other)] == [one]:
                self.told.add(id(one))
                show = self.versions.show_old
                return change("annotations-needed", f"`{self.versions.show_new.header(impl)}`: types that were inferred may have to be written",
                              at(impl.place), word="changed").note(f"`{show.header(one)}` was the only impl that could apply")
        return None

    def candidates(self, key: str) -> Iterator[Impl]:
        """The old version's impls of a trait, std's too."""
        world = self.versions.old
        yield from (impl for impl in world.impls_of(key, None) if impl.trait is not None)
        if key.startswith("std:"):
            yield from (impl for impl in world.standard.impls_with_head(key, None) if impl.trait is not None)


def common(one: Type, other: Type) -> Type:
    """What is known of a type that may be either of both."""
    if one == other and not parameters_of(one):
        return one
    if isinstance(one, Primitive) and isinstance(other, Primitive):
        for names, known in ((INTEGERS, INTEGER), (FLOATS, FLOAT)):
            if one.name in names and other.name in names:
                return known
    if not parts(one) or len(parts(one)) != len(parts(other)) or rebuilt(one, lambda _: ANY) != rebuilt(other, lambda _: ANY):
        return ANY
    sides = iter(list(zip(parts(one), parts(other))))
    return rebuilt(one, lambda _: common(*next(sides)))


def has_unknown(term: Type) -> bool:
    return isinstance(term, Unknown) or any(map(has_unknown, parts(term)))


def fits(known: Terms, terms: Terms, impl: Impl) -> bool:
    """Whether an impl could apply to types of which so much is known."""
    params, values = {p.name for p in impl.params}, dict[str, Type]()
    return all(bind(pattern, term, params, values) for pattern, term in zip(terms, known)) and all(
        literals_fit(put(pattern, values), term) for pattern, term in zip(terms, known))


def literals_fit(pattern: Type, term: Type) -> bool:
    if term in (INTEGER, FLOAT):
        return isinstance(pattern, Parameter) or isinstance(pattern, Primitive) and pattern.name in (INTEGERS if term == INTEGER else FLOATS)
    left, right = parts(pattern), parts(term)
    return len(left) != len(right) or all(map(literals_fit, left, right))
