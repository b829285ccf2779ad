"""What a release changes of signatures. The new parameters are what the old ones say that they are; that a call goes on is then asked, as of
bounds: each bound of the new version by those of the old one."""
from __future__ import annotations

from dataclasses import dataclass, field
from typing import Any, Iterator, Optional

from ..model.members import Member, Signature, signature_of
from ..model.surface import Item
from ..read.terms import (UNIT, Array, Bound, Constant, Dyn, Function, Named, Param, Parameter, Predicate, Primitive, Projection, Reference, Slice, Type,
                          Unsayable, parts, put, put_bound, rebuilt, rebuilt_bound, walk)
from ..report.messages import at
from ..write.build import AUTO_TRAITS
from ..write.render import is_sizedness
from .item_changes import ITSELF, ItemChanges, split
from .versions import Gone, Unsure, plain_params, rekeyed_bound, unsure
from .written import STATIC, Form, attributes, clauses

Owners = tuple[Optional[Item], Optional[Item]]
NOBODY: Owners = (None, None)
# What is in front of the names of the new version's parameters, next to those of the old one.
NEW = "~"
UNSIZED = (Slice, Dyn, Named, Projection, Unsayable)


@dataclass
class Match:
    """What parameters of a pattern stand for; `equations` are associated types that have to be some type, which is asked."""
    free: set[str]
    values: dict[str, Type] = field(default_factory=dict)
    equations: list[tuple[Projection, Type]] = field(default_factory=list)

    def holds(self, pattern: Type, term: Type) -> bool:
        name = pattern.name if isinstance(pattern, Parameter) else pattern.text if isinstance(pattern, Constant) else ""
        if name in self.free:
            return self.values.setdefault(name, term) == term
        if isinstance(pattern, Array) and isinstance(term, Array) and pattern.length in self.free:
            return self.values.setdefault(pattern.length, Constant(term.length)) == Constant(term.length) and self.holds(pattern.element, term.element)
        if pattern == term:
            return True
        if rebuilt(pattern, lambda _: UNIT) == rebuilt(term, lambda _: UNIT) and len(parts(pattern)) == len(parts(term)):
            before = dict(self.values), list(self.equations)
            if all(self.holds(p, t) for p, t in zip(parts(pattern), parts(term))):
                return True
            self.values, self.equations = before
        for projection, other in ((pattern, term), (term, pattern)):
            if isinstance(projection, Projection) and projection.bound is not None:
                self.equations.append((projection, other))
                return True
        return False


class SignatureChanges:
    def __init__(self, items: ItemChanges) -> None:
        self.items = items
        self.versions = items.versions
        self.count = items.count

    def tell(self, new: Member, code: str, text: str, word: str = "breaking") -> None:
        self.items.tell(code, f"{new.shown()} {text}", at(new.place), word=word)

    def nearest(self, old: Member, again: list[Member]) -> Member:
        """Of several methods of one name that whose impl is for the old one's type."""
        for new in again if len(again) > 1 and old.kind == "method" else []:
            try:
                before, after = signature_of(old), signature_of(new)
                if self.is_for(self.matched(before, after, NOBODY), before, after, NOBODY):
                    return new
            except (Gone, Unsure):
                pass
        return again[0]

    def compare(self, old: Member, new: Member, owners: Owners) -> None:
        before, after = signature_of(old), signature_of(new)
        is_trait = "for" not in old.impl and owners[0] is not None
        is_implemented = is_trait and owners[0] is not None and not self.versions.is_sealed(self.versions.old, self.versions.old.get(owners[0].key))
        self.header(old, new, before, after, is_implemented)
        if self.hides(before) and (not self.hides(after) or not self.items.is_same()):
            self.count("hidden type", new.shown(), "which auto traits its result has is not known", new.place)
        forms = [self.form(member, signature, version) for version, (member, signature) in enumerate(((old, before), (new, after)))]
        if forms[0][:2] == forms[1][:2]:
            return
        try:
            told = len(self.items.messages)
            if any(not erased and unit not in forms[0][1] for unit, erased in forms[1][1].items()):
                self.tell(new, "lifetime-bound-added", "has a new bound on lifetimes", "changed")
            self.judge(new, before, after, owners, is_implemented)
            if told == len(self.items.messages) and not self.same_lifetimes(forms[0], forms[1]):
                self.count("function signature", new.shown(), "its lifetimes have changed", new.place)
        except Unsure as why:
            self.count("function signature", new.shown(), str(why), new.place)
        except Gone as gone:
            self.count("function signature", new.shown(), f"it names `{gone}`, which is gone", new.place)

    def hides(self, signature: Signature) -> bool:
        """Whether the result is of a type that rustdoc does not tell, and of which auto traits are not asked by name."""
        named = [{bound.key.split("trait.")[-1].split(".")[0] for bound in bounds} for bounds in signature.results.values()]
        return bool(signature.header["is_async"]) or any(not set(AUTO_TRAITS) <= names for names in named)

    # ---- what is written
    def form(self, member: Member, signature: Signature, version: int) -> tuple[Any, Any, list[str], int]:
        """The types and the bounds as they are written, and the lifetimes in the types, with the place where those of the result begin."""
        assert member.crate is not None
        world = (self.versions.old, self.versions.new)[version]

        def common(key: str) -> str:
            return self.versions.common_key(world, key)

        form = Form(member.crate, common, signature.names)
        written = form.of([signature.written, {"for": member.impl.get("for")}, signature.own])
        inputs = Form(member.crate, common, signature.names)
        inputs.of([{**signature.written, "output": None}])
        return written, clauses(member.crate, common, {"generics": signature.generics}, signature.names, form.met), form.tokens, len(inputs.tokens)

    @staticmethod
    def same_lifetimes(old: tuple[Any, Any, list[str], int], new: tuple[Any, Any, list[str], int]) -> bool:
        """Whether lifetimes tie nothing, or the same in both versions."""
        if any(erased and unit not in old[1] and erased in old[1].values() for unit, erased in new[1].items()):
            return False
        tied = [bool(tokens[count:]) or len(set(tokens)) < len(tokens) or STATIC in tokens for _, _, tokens, count in (old, new)]
        return old[2] == new[2] or not any(tied)

    def header(self, old: Member, new: Member, before: Signature, after: Signature, is_implemented: bool) -> None:
        was, now = before.header, after.header
        if was["is_const"] and not now["is_const"]:
            self.tell(new, "const-lost", "is not `const` any more")
        if now["is_unsafe"] and not was["is_unsafe"]:
            self.tell(new, "function-made-unsafe", "is `unsafe` now")
        elif was["is_unsafe"] and not now["is_unsafe"] and is_implemented:
            self.tell(new, "signature-changed", "is not `unsafe` any more, and may not be so in an impl")
        features = [attributes(member.item, "target_feature") for member in (old, new)]
        if features[1] and not features[0]:
            self.tell(new, "function-made-unsafe", "needs features of the processor")
        elif features[1] and features[0] != features[1]:
            self.count("attribute", new.shown(), "needs other features of the processor", new.place)
        if was["is_async"] != now["is_async"]:
            self.tell(new, "signature-changed", f"is {'' if now['is_async'] else 'not '}`async` now")
        if was["abi"] != now["abi"] or before.written["is_c_variadic"] != after.written["is_c_variadic"]:
            self.tell(new, "signature-changed", "has another ABI")

    # ---- whether old calls go on
    def judge(self, new: Member, before: Signature, after: Signature, owners: Owners, is_implemented: bool) -> None:
        if before.has_self and not after.has_self or is_implemented and before.has_self != after.has_self:
            return self.tell(new, "signature-changed", f"is {'a' if after.has_self else 'no'} method of a value now")
        if len(before.inputs) != len(after.inputs):
            return self.tell(new, "signature-changed", f"takes {len(after.inputs)} parameters now, and took {len(before.inputs)}")
        if (before.own or is_implemented) and (self.kinds(before) != self.kinds(after) or is_implemented and before.made != after.made):
            return self.tell(new, "signature-changed", "has other generic parameters")
        match = self.matched(before, after, owners)
        if not self.is_for(match, before, after, owners):
            return self.other(new, "is for another type", self.old_terms([before.itself], owners)[0], self.new_terms([after.itself], after, owners)[0])
        own = {f"{NEW}{name}" for name in after.own}
        terms = list(zip(self.old_terms(before.inputs, owners), self.new_terms(after.inputs, after, owners)))
        for (name, _), (old_type, new_type) in zip(before.written["inputs"], terms):
            if match.holds(new_type, old_type):
                continue
            both = isinstance(old_type, Reference) and isinstance(new_type, Reference)
            if not both or not old_type.mutable or not match.holds(new_type.target, old_type.target):
                return self.other(new, f"has another parameter `{name}`", old_type, put(new_type, match.values))
            self.tell(new, "signature-changed", "takes a `&` where it took a `&mut`: calls go on, and pointers to it are of another type", "changed")
        given = list(match.values.values())
        if any(isinstance(part, Unsayable) or isinstance(part, Function) and not part.plain for pair in terms for term in pair for part in walk(term)):
            raise Unsure("it names a type that is not read whole")
        if is_implemented and match.equations:
            raise Unsure("it names another associated type, or the same")
        if is_implemented and (len(set(given)) < len(given) or not all(isinstance(value, (Parameter, Constant)) for value in given)):
            return self.tell(new, "signature-changed", "is more general now, as an impl may not be")
        if own - set(match.values):
            name = min(own - set(match.values))[1:]
            return self.tell(new, "signature-changed", f"has a new generic parameter that no argument tells: `{name}`")
        self.result(new, before, after, owners, match, is_implemented)
        self.bounds(new, before, after, owners, match, is_implemented)

    def other(self, new: Member, what: str, old: Type, now: Type) -> None:
        for part in (*walk(old), *walk(now)):
            why = unsure(self.versions.new, part)
            if why:
                raise Unsure(f"it {what}, or not: {why}")
        show = self.versions.show_new
        self.tell(new, "signature-changed", f"{what}: `{show.type(now)}`, and it was `{show.type(old)}`".replace(ITSELF, "Self").replace(NEW, ""))

    @staticmethod
    def kinds(signature: Signature) -> list[bool]:
        """Of each parameter that is the function's own and can be named, whether it is a type."""
        return ["type" in p["kind"] for p in signature.generics["params"] if p["name"] in signature.own]

    def old_terms(self, terms: list[Type], owners: Owners) -> list[Type]:
        """Types of the old version, by the new one's keys."""
        return [self.versions.old_type(put(whole(term, owners[0]), {"Self": Parameter(ITSELF)})) for term in terms]

    def old_bound(self, bound: Bound, owners: Owners) -> Bound:
        return self.versions.bound_to_new(put_bound(rebuilt_bound(bound, lambda term: whole(term, owners[0])), {"Self": Parameter(ITSELF)}))

    def fresh(self, signature: Signature, owners: Owners) -> dict[str, Type]:
        """What the new version's parameters are called next to the old one's."""
        types = {p["name"] for p in signature.generics["params"] if "type" in p["kind"]}
        found: dict[str, Type] = {name: Parameter(f"{NEW}{name}") if name in types else Constant(f"{NEW}{name}") for name in signature.names}
        found |= {name: Parameter(f"New{name}") for name in signature.results}
        if signature.itself == Parameter("Self"):
            found |= self.items.arguments(*owners) if owners[0] is not None and owners[1] is not None else {"Self": Parameter(ITSELF)}
        return found

    def new_terms(self, terms: list[Type], signature: Signature, owners: Owners) -> list[Type]:
        names = self.fresh(signature, owners)
        return [self.versions.new_type(put(whole(term, owners[1]), names)) for term in terms]

    def new_bound(self, bound: Bound, signature: Signature, owners: Owners) -> Bound:
        names = self.fresh(signature, owners)
        return rekeyed_bound(put_bound(rebuilt_bound(bound, lambda term: whole(term, owners[1])), names), self.versions.new.key_of)

    def matched(self, before: Signature, after: Signature, owners: Owners) -> Match:
        """What the new version's parameters are by the type that the impl is for, and by the order of those that can be named."""
        match = Match({f"{NEW}{name}" for name in after.names})
        if before.own:
            match.values = {f"{NEW}{new}": Parameter(old) if is_type else Constant(old) for new, old, is_type in zip(after.own, before.own, self.kinds(before))}
        self.is_for(match, before, after, owners)
        return match

    def is_for(self, match: Match, before: Signature, after: Signature, owners: Owners) -> bool:
        """Whether the impl is for what the old one was for."""
        return match.holds(self.new_terms([after.itself], after, owners)[0], self.old_terms([before.itself], owners)[0])

    def result(self, new: Member, before: Signature, after: Signature, owners: Owners, match: Match, is_implemented: bool) -> None:
        """That the result is what it was; where it was an `impl Trait`, that it has the bounds."""
        old = self.old_terms([before.output], owners)[0]
        now = put(self.new_terms([after.output], after, owners)[0], match.values)
        found = Match(set(before.results))
        if not found.holds(old, now):
            return self.other(new, "has another result", old, now)
        match.equations += found.equations
        known: list[Predicate] = [(Parameter(f"New{n}"), put_bound(self.new_bound(b, after, owners), match.values))
                                  for n, bounds in after.results.items() for b in bounds]
        had = [(found.values.get(n, Parameter(n)), put_bound(self.old_bound(b, owners), found.values))
               for n, bounds in before.results.items() for b in bounds]
        params = [Param("type", f"New{name}") for name in after.results]
        for subject, bound in had:
            if (subject, bound) not in known and not is_sizedness(bound):
                for _, goal in split((subject, bound)):
                    text = f"has lost a bound of its result: `{self.versions.show_new.bound(goal)}`"
                    self.claim(new, "result-bound-removed", text, before, owners, subject, goal, known, params)
        if is_implemented and set(known) - set(had):
            self.tell(new, "signature-changed", "asks for more of its result")

    def bounds(self, new: Member, before: Signature, after: Signature, owners: Owners, match: Match, is_implemented: bool) -> None:
        """That the new version's bounds follow from the old one's, and the other way round where others implement it."""
        values = match.values
        has = self.old_predicates(before, owners)
        asks = [(put(self.new_terms([t], after, owners)[0], values), put_bound(self.new_bound(b, after, owners), values)) for t, b in after.predicates]
        goals = [g for p in asks if p not in has and not is_sizedness(p[1]) for g in split(p)]
        goals += [(put(p.subject, values), Bound(p.bound.key, tuple(put(a, values) for a in p.bound.arguments), ((p.name, put(term, values)),)))
                  for p, term in match.equations if p.bound is not None]
        goals += [(value, self.items.sized()) for value in self.to_be_sized(before, after, values)]
        for subject, bound in goals:
            self.claim(new, "bound-added", f"has a new bound: `{self.items.shown((subject, bound))}`", before, owners, subject, bound)
        if is_implemented:
            for subject, bound in [g for p in has if p not in asks and not is_sizedness(p[1]) for g in split(p)]:
                text = f"asks less of its callers than an impl may do: `{self.items.shown((subject, bound))}`"
                self.claim(new, "signature-changed", text, before, owners, subject, bound, asks, instead=True)

    def to_be_sized(self, before: Signature, after: Signature, values: dict[str, Type]) -> Iterator[Type]:
        """What stands for a parameter that is `Sized`, and may not be so."""
        for param in after.params:
            value = values.get(f"{NEW}{param.name}")
            if param.kind == "type" and value is not None and not is_unsized(after.predicates, param.name):
                if isinstance(value, UNSIZED) or value == Primitive("str") or isinstance(value, Parameter) and is_unsized(before.predicates, value.name):
                    yield value

    def old_predicates(self, before: Signature, owners: Owners) -> list[Predicate]:
        return [(self.old_terms([t], owners)[0], self.old_bound(b, owners)) for t, b in before.predicates]

    def claim(self, new: Member, code: str, text: str, before: Signature, owners: Owners, subject: Type, bound: Bound, more: list[Predicate] = [],
              params: list[Param] = [], instead: bool = False) -> None:
        """That a bound follows from those of the old version."""
        known = [] if instead else self.old_predicates(before, owners)
        around = plain_params(before.params)
        if before.itself == Parameter("Self") and owners[0] is not None:
            old = owners[0]
            around = [Param("type", ITSELF), *plain_params(old.params), *(p for p in around if p.name not in {q.name for q in old.params})]
            trait = self.versions.bound_to_new(Bound(old.key, old.itself().arguments))
            known = [self.items.unsized(), (Parameter(ITSELF), trait), *known]
        self.items.claim(code, f"{new.shown()} {text}".replace(NEW, ""), at(new.place), around + params, known + more, subject, bound)


def whole(term: Type, owner: Optional[Item]) -> Type:
    """`Self::Name` in a trait, with the trait's own parameters."""
    if isinstance(term, Projection) and owner is not None and owner.kind == "trait" and term.bound is not None and term.bound.key == owner.key:
        if term.subject == Parameter("Self") and not term.bound.arguments:
            return Projection(term.subject, Bound(owner.key, owner.itself().arguments), term.name)
    return rebuilt(term, lambda part: whole(part, owner))


def is_unsized(predicates: list[Predicate], name: str) -> bool:
    return any(t == Parameter(name) and is_sizedness(b) for t, b in predicates)
