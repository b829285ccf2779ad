"""What a release changes of items that others can name: paths, parameters, bounds, supertraits, associated types, and what a trait asks.

Items that are compared as they are written are reported at once. For bounds a query decides whether the old ones prove the new ones, so
that nothing is reported if nothing is lost.
"""
from __future__ import annotations

from collections import Counter
from typing import Callable, Iterator, Optional

from ..ask.questions import Question
from ..model.reached import bound_terms
from ..model.surface import Associated, Generics, Item
from ..read.html_docs import is_std_key
from ..read.terms import Bound, Declaration, Lossy, Param, Parameter, Place, Predicate, Projection, Type, argument_values, parameters_of, put, put_bound, walk
from ..report.messages import Message, Span, at
from ..write.render import is_sizedness
from .claims import Claim
from .versions import Gone, Versions, is_private, plain_params

ITSELF = "Self_"
SIZED = "core/marker/trait.Sized.html"
MAXIMAL_DEPTH = 8
# What rustc says of a crate that a change breaks.
RUSTC = {"item-removed": "E0425 or E0432", "alias-removed": "E0425 or E0432", "alias-retargeted": "E0277 or E0308",
         "kind-changed": "E0404, E0423, E0530, E0532 or E0782",
         "parameter-added": "E0107", "parameter-removed": "E0107", "parameter-kind-changed": "E0308 or E0747", "default-removed": "E0107",
         "default-changed": "E0308", "lifetime-added": "E0106", "lifetime-removed": "E0107", "bound-added": "E0271, E0277, E0308 or E0599",
         "lifetime-bound-added": "E0310, E0477, E0521 or E0597", "supertrait-added": "E0271 or E0277", "supertrait-removed": "E0277, E0308 or E0599",
         "associated-type-added": "E0046 or E0191", "associated-type-removed": "E0220", "associated-type-bound-added": "E0277",
         "associated-type-bound-removed": "E0277, E0308 or E0599", "associated-type-changed": "E0107 or E0049", "required-item-added": "E0046",
         "trait-item-removed": "E0407 or E0599", "trait-made-unsafe": "E0200", "trait-made-safe": "E0199", "trait-made-auto": "E0119",
         "dyn-lost": "E0038 or E0393", "impl-added": "E0119", "impl-removed": "E0277 or E0599", "impl-bounds-changed": "E0277, E0308 or E0599",
         "associated-value-changed": "E0271 or E0308", "auto-trait-lost": "E0277", "constant-pattern-lost": "`constant of non-structural type`",
         "constant-borrow-lost": "E0492 or E0716", "sized-lost": "E0277 or E0599", "unsizing-lost": "E0277, E0308 or E0605",
         "annotations-needed": "E0277, E0282, E0283, E0284 or E0308",
         "function-removed": "E0425 or E0432", "constant-removed": "E0425 or E0432", "static-removed": "E0425 or E0432", "macro-removed": "E0432 or E0433",
         "module-removed": "E0432 or E0433",
         "glob-re-export-removed": "E0405, E0412, E0425, E0432 or E0433", "extern-type-removed": "E0412 or E0432",
         "method-removed": "E0599 or E0624", "associated-constant-removed": "E0599 or E0624", "field-removed": "E0026, E0560 or E0609",
         "field-made-private": "E0451 or E0616", "field-added": "E0023, E0027, E0061, E0063, E0423, E0451 or E0532", "field-type-changed": "E0308",
         "form-changed": "E0308, E0423, E0532, E0533 or E0618", "non-exhaustive-added": "E0004, E0603, E0638 or E0639", "variant-removed": "E0599",
         "variant-added": "E0004", "discriminant-changed": "E0308", "repr-changed": "E0793", "constant-type-changed": "E0308",
         "associated-constant-type-changed": "E0308 or E0326", "static-type-changed": "E0308", "static-made-mutable": "E0133 or E0594",
         "signature-changed": "E0049, E0050, E0053, E0061, E0107, E0185, E0186, E0276, E0277, E0282, E0283, E0308, E0507 or E0599",
         "const-lost": "E0015 or E0658", "function-made-unsafe": "E0053 or E0133", "result-bound-removed": "E0277, E0308 or E0599",
         "drop-added": "E0493, E0505, E0509, E0597 or E0716"}


def change(code: str, text: str, new: list[Span], old: Optional[list[Span]] = None, word: str = "breaking", rustc: str = "") -> Message:
    """A change of a class; where the new version has no place for it the old one has. `rustc` is what it says, if not that of the class."""
    message = Message(text, code, word, spans=new or old or [])
    if rustc or code in RUSTC:
        message.help(f"a crate that breaks gets {rustc or RUSTC[code]}")
    return message


def is_unsized(generics: Generics, name: str) -> bool:
    return any(t == Parameter(name) and is_sizedness(b) for t, b in generics.predicates)


class ItemChanges:
    """`messages` are reported as they are; `claims` are to be asked in the new version; `not_judged` counts what is neither. `troubled` are items,
    by their old keys, whose impls cannot be compared: they are gone, or take other arguments. `is_same` says whether all sources are the
    same."""

    def __init__(self, versions: Versions, is_same: Callable[[], bool] = lambda: False) -> None:
        self.versions = versions
        self.is_same = is_same
        self.messages: list[Message] = []
        self.claims: list[Claim] = []
        self.troubled: dict[str, Message] = {}
        self.new_items: list[Message] = []
        self.unjudged: list[Message] = []
        self.not_judged: Counter[str] = Counter()

    def run(self) -> None:
        self.removed_paths()
        for old_key, new_key in self.versions.newer.items():
            before, after = self.versions.before.items.get(old_key), self.versions.after.items.get(new_key)
            if before is not None and after is not None:
                if old_key not in self.versions.before.reached:
                    self.item(before, after)
                elif [p.kind for p in before.params] != [p.kind for p in after.params] or before.is_type != after.is_type:
                    self.count("type without a path", after.shown(), "has other parameters", after.place)
                    self.troubled[old_key] = self.unjudged[-1]
        self.aliased()
        self.find_new()

    def tell(self, code: str, text: str, new: list[Span], old: Optional[list[Span]] = None, word: str = "breaking") -> Message:
        self.messages.append(change(code, text, new, old, word))
        return self.messages[-1]

    def count(self, kind: str, what: str, why: str, place: Optional[Place] = None) -> None:
        """What changed and has no class, by kind."""
        self.not_judged[kind] += 1
        self.unjudged.append(Message(f"{what}: {why}", "not-judged", "not judged", spans=at(place), counted_as=kind))

    # ---- paths
    def removed_paths(self) -> None:
        lost: dict[str, list[str]] = {}
        for path, key in self.versions.before.by_path.items():
            if path not in self.versions.after.by_path:
                lost.setdefault(key, []).append(path)
        for key, paths in lost.items():
            self.removed(key, sorted(paths, key=lambda p: (p.count("::"), p)))

    def removed(self, key: str, paths: list[str]) -> None:
        before, after = self.versions.before, self.versions.after
        item = before.items.get(key)
        kind = before.kinds[key]
        code = "alias-removed" if kind == "alias" else "item-removed"
        what = "type" if kind == "alias" else kind
        unknown = sorted(after.closed - before.closed)
        message = self.tell(code, f"{what} `{paths[0]}` is removed", [], at(item.place, "it was here", "old") if item else [],
                            "not settled" if unknown else "breaking")
        for path in paths[1:]:
            message.note(f"so is `{path}`")
        if unknown:
            message.note(f"it may come by `{unknown[0]}`, which is exported and was not given")
        still = self.versions.newer.get(key)
        here = [path for path, its in after.by_path.items() if its in (still, key)]
        if here:
            message.note(f"it is `{here[0]}` still")
        if item is not None and item.is_hidden:
            message.note("it is `#[doc(hidden)]`")
        if key not in self.versions.newer:
            self.troubled[key] = message

    def find_new(self) -> None:
        for key, kind in self.versions.after.kinds.items():
            if key not in self.versions.older:
                item = self.versions.after.items.get(key)
                paths = item.paths if item else [p for p, k in self.versions.after.by_path.items() if k == key]
                self.new_items.append(Message(f"{'type' if kind == 'alias' else kind} {paths[0]}", "item-added", "new", spans=at(item.place if item else None)))

    # ---- one item
    def item(self, old: Item, new: Item) -> None:
        if not self.same_kind(old, new):
            return
        if old.kind == "alias" and new.kind == "alias":
            if self.parameters(old, new):
                self.alias(old, new)
            return
        if new.kind == "alias" or old.kind == "alias":
            return
        if not self.parameters(old, new):
            return
        self.bounds(old, new)
        if old.kind == "trait":
            self.trait(old, new)

    def same_kind(self, old: Item, new: Item) -> bool:
        """Whether the rest can be compared. A struct whose form nobody else can name may become an enum."""
        if old.kind == new.kind or (old.is_type and new.is_type and not old.is_open):
            return True
        if old.kind == "alias" and new.is_type:
            self.tell("alias-retargeted", f"type `{old.paths[0]}` is a {new.kind} now", at(new.place), at(old.place, "", "old"))
            return False
        now = "type alias" if new.kind == "alias" else new.kind
        self.troubled[old.key] = self.tell("kind-changed", f"{old.shown()} is a {now} now", at(new.place), at(old.place, "", "old"))
        return False

    def aliased(self) -> None:
        """Types that a path names by an alias now: their form has another name."""
        before, after = self.versions.before, self.versions.after
        for path, key in before.by_path.items():
            later = after.by_path.get(path, "")
            item = before.items.get(key)
            if item is not None and item.is_made_by_name and later in after.behind:
                self.tell("kind-changed", f"{item.kind} `{path}` is a type alias now, which is no name of its values", at(after.items[later].place))

    def alias(self, old: Item, new: Item) -> None:
        assert old.target is not None and new.target is not None
        versions = self.versions
        names: dict[str, Type] = {p.name: q for p, q in zip([p for p in new.params], old.itself().arguments)}
        before, after = versions.common(versions.old, old.target), versions.common(versions.new, put(new.target, names))
        if before == after:
            return
        unsure = any(isinstance(part, Projection) for term in (before, after) for part in walk(term))
        self.tell("alias-retargeted", f"type `{old.paths[0]}` is `{versions.show_new.type(new.target)}`, and was `{versions.show_old.type(old.target)}`",
                  at(new.place), word="not settled" if unsure else "breaking")

    # ---- parameters
    def parameters(self, old: Item, new: Item) -> bool:
        """Whether arguments of the old item are arguments of the new one."""
        told = len(self.messages)
        self.lifetimes(old, new)
        if len(self.messages) == told:
            self.kinds(old, new)
        if len(self.messages) == told:
            self.defaults(old, new)
            return True
        self.troubled[old.key] = self.messages[-1]
        return False

    def lifetimes(self, old: Item, new: Item) -> None:
        before, after = len(old.lifetimes), len(new.lifetimes)
        if before < after:
            self.tell("lifetime-added", f"{new.shown()} has a new lifetime parameter: `{new.lifetimes[before]}`", at(new.place))
        elif before > after:
            self.tell("lifetime-removed", f"{new.shown()} has lost a lifetime parameter: `{old.lifetimes[after]}`", at(new.place))

    def kinds(self, old: Item, new: Item) -> None:
        before, after = len(old.params), len(new.params)
        for b, a in zip(old.params, new.params):
            if b.kind != a.kind:
                self.tell("parameter-kind-changed", f"{new.shown()}: the parameter `{a.name}` is a {a.kind}, and `{b.name}` was a {b.kind}", at(new.place))
                return
            if b.kind == "const" and old.consts.get(b.name) != new.consts.get(a.name):
                self.tell("parameter-kind-changed", f"{new.shown()}: the parameter `{a.name}` is `{new.consts.get(a.name)}`, and was `{old.consts.get(b.name)}`",
                          at(new.place))
                return
        if after > before and any(p.default is None for p in new.params[before:]):
            name = next(p.name for p in new.params[before:] if p.default is None)
            self.tell("parameter-added", f"{new.shown()} has a new parameter without a default: `{name}`", at(new.place))
        elif after < before:
            self.tell("parameter-removed", f"{new.shown()} has lost a parameter: `{old.params[after].name}`", at(new.place))

    def defaults(self, old: Item, new: Item) -> None:
        names: dict[str, Type] = {p.name: q for p, q in zip(new.params, old.itself().arguments)}
        for b, a in zip(old.params, new.params):
            if b.default is not None and a.default is None:
                self.tell("default-removed", f"{new.shown()}: the parameter `{a.name}` has no default any more", at(new.place))
            elif b.default is not None and a.default is not None:
                before = self.versions.common(self.versions.old, b.default)
                if before != self.versions.common(self.versions.new, put(a.default, names)):
                    self.tell("default-changed", f"{new.shown()}: the default of `{a.name}` is another one", at(new.place))

    def arguments(self, old: Item, new: Item) -> dict[str, Type]:
        """What the new item's parameters are by the old one's: each by its place, a new one by its default."""
        values: dict[str, Type] = {"Self": Parameter(ITSELF)}
        given = old.itself().arguments
        for number, param in enumerate(new.params):
            if number < len(given):
                values[param.name] = given[number]
            elif param.default is not None:
                values[param.name] = put(param.default, values)
        return values

    # ---- bounds
    def bounds(self, old: Item, new: Item) -> None:
        """That the new item's bounds follow from the old one's, for whoever names it."""
        params = ([Param("type", ITSELF)] if old.kind == "trait" else []) + plain_params(old.params)
        known = [self.unsized()] if old.kind == "trait" else []
        self.added(old, new, self.arguments(old, new), params, known, "bound-added", f"{new.shown()} has a new bound", new.place)
        self.outlives(old, new, "lifetime-bound-added", new.shown(), new)

    def outlives(self, old: Generics, new: Generics, code: str, what: str, item: Item | Associated) -> None:
        for key, shown in new.outlives.items():
            if key not in old.outlives:
                self.tell(code, f"{what} has a new bound: `{shown}`", at(item.place), word="changed").note(
                    "answers are up to lifetimes: whether a crate loses something is not asked")

    def added(self, old: Generics, new: Generics, values: dict[str, Type], params: list[Param], known: list[Predicate], code: str, what: str,
              place: Optional[Place]) -> None:
        """Claims that each bound of the new item, its parameters as the old one has them, has a proof by the old one's bounds."""
        span = at(place)
        try:
            before = self.versions.predicates_to_new([(put(t, {"Self": Parameter(ITSELF)}), put_bound(b, {"Self": Parameter(ITSELF)})) for t, b in old.predicates])
        except Gone as gone:
            self.tell(code, f"{what}, or it is as before: an old one names `{gone}`, which is gone", span, word="not settled")
            return
        after = [(put(t, values), put_bound(b, values)) for t, b in new.predicates]
        goals = [g for predicate in after if predicate not in before and not is_sizedness(predicate[1]) for g in split(predicate)]
        goals += [(Parameter(p.name), self.sized()) for p, q in zip(old.params, new.params)
                  if p.kind == "type" and is_unsized(old, p.name) and not is_unsized(new, q.name)]
        for subject, bound in goals:
            self.claim(code, f"{what}: `{self.shown((subject, bound))}`", span, params, known + before, subject, bound)

    def claim(self, code: str, text: str, span: list[Span], params: list[Param], predicates: list[Predicate], subject: Type, bound: Bound) -> None:
        terms = [subject, *bound_terms(bound), *(t for s, b in predicates if not is_sizedness(b) for t in (s, *bound_terms(b)))]
        named = set().union(*map(parameters_of, terms))
        params = [p for p in params if p.name in named]
        predicates = [p for p in predicates if not is_sizedness(p[1]) or parameters_of(p[0]) <= named]
        self.claims.append(Claim(Question(self.asked(params, predicates, subject, bound), subject, bound, params, predicates, crate=self.versions.crate),
                                 change(code, text, span)))

    def asked(self, params: list[Param], predicates: list[Predicate], subject: Type, bound: Bound) -> str:
        """A query as it is written."""
        names = ", ".join(("const " if p.kind == "const" else "") + p.name for p in params if p.name != ITSELF)
        where = ", ".join(self.shown(p) for p in predicates if p != self.unsized())
        return (f"<{names}> " if names else "") + self.shown((subject, bound)) + (f" where {where}" if where else "")

    def shown(self, predicate: Predicate) -> str:
        return f"{self.versions.show_new.type(predicate[0])}: {self.versions.show_new.bound(predicate[1])}".replace(ITSELF, "Self")

    def sized(self, maybe: bool = False) -> Bound:
        return Bound(self.versions.new.pages.key(SIZED) or "", maybe=maybe)

    def unsized(self) -> Predicate:
        """Whoever implements a trait may be unsized."""
        return Parameter(ITSELF), self.sized(maybe=True)

    # ---- traits
    def trait(self, old: Item, new: Item) -> None:
        declaration = self.versions.old.get(old.key)
        sealed = self.versions.is_sealed(self.versions.old, declaration)
        if old.is_unsafe != new.is_unsafe and not sealed:
            code, word = ("trait-made-unsafe", "is `unsafe` now") if new.is_unsafe else ("trait-made-safe", "is not `unsafe` any more")
            self.tell(code, f"{new.shown()} {word}", at(new.place))
        if old.is_auto != new.is_auto:
            self.tell("trait-made-auto", f"{new.shown()} is {'an' if new.is_auto else 'no'} auto trait now", at(new.place))
        self.dyn(old, new)
        self.supertraits(old, new, declaration, sealed)
        self.associated(old, new, sealed)
        self.inside(old, new, sealed)

    def dyn(self, old: Item, new: Item) -> None:
        if not old.is_dyn:
            return
        if not new.is_dyn:
            self.tell("dyn-lost", f"`dyn {new.paths[0]}` is no type any more", at(new.place))
            return
        for param in new.params[len(old.params):]:
            if param.default is not None and any(part == Parameter("Self") for part in walk(param.default)):
                self.tell("dyn-lost", f"`dyn {new.paths[0]}` has to name the new parameter `{param.name}`, whose default is `Self`", at(new.place))

    def supertraits(self, old: Item, new: Item, declaration: Declaration, sealed: bool) -> None:
        values, me = self.arguments(old, new), Parameter(ITSELF)
        params = [Param("type", ITSELF), *plain_params(old.params)]
        try:
            context = [self.unsized()] + self.versions.predicates_to_new(old.predicates)
        except Gone as gone:
            self.tell("supertrait-removed", f"{new.shown()}: a bound names `{gone}`, which is gone", at(new.place), word="not settled")
            return
        above = list(self.above(declaration, me))
        direct = [bound for bound in map(self.there, [put_bound(b, {"Self": me}) for b in old.supers]) if bound is not None] + above
        after = [put_bound(b, values) for b in new.supers]
        if not sealed:
            implementor = context + [(me, b) for b in direct]
            for bound in after:
                for _, goal in split((me, bound)) if bound not in direct and not is_sizedness(bound) else []:
                    self.claim("supertrait-added", f"{new.shown()} has a new supertrait: `{self.versions.show_new.bound(goal)}`", at(new.place), params,
                               implementor, me, goal)
        itself = Bound(new.key, tuple(values[p.name] for p in new.params))
        kept = set(after)
        for bound in above:
            for _, goal in split((me, bound)) if bound not in kept else []:
                self.claim("supertrait-removed", f"{new.shown()} has lost a supertrait: `{self.versions.show_new.bound(goal)}`", at(new.place), params,
                           context + [(me, itself)], me, goal)

    def above(self, declaration: Declaration, itself: Type) -> Iterator[Bound]:
        """The strict supertraits that others can name, by the new version's keys."""
        todo: list[tuple[Declaration, dict[str, Type], int]] = [(declaration, {"Self": itself}, 0)]
        seen: set[Bound] = set()
        while todo:
            trait, values, depth = todo.pop(0)
            for bound in trait.supers:
                found = put_bound(bound, values)
                if found in seen or is_sizedness(found) or depth > MAXIMAL_DEPTH:
                    continue
                seen.add(found)
                try:
                    above = self.versions.old.get(found.key, "trait", found.arguments)
                except Lossy:
                    continue
                arguments = {n: put(v, {"Self": itself}) for n, v in argument_values(above.params, found.arguments).items()}
                todo.append((above, {**arguments, "Self": itself}, depth + 1))
                if is_std_key(above.key) or not is_private(self.versions.old, above) or above.key in self.versions.before.kinds:
                    later = self.there(found)
                    if later is not None:
                        yield later

    def there(self, bound: Bound) -> Optional[Bound]:
        """A bound of the old version in the new one. None if what it names is gone, which is reported of that."""
        try:
            return self.versions.bound_to_new(bound)
        except Gone:
            return None

    # ---- associated types
    def associated(self, old: Item, new: Item, sealed: bool) -> None:
        for name, before in old.associated.items():
            after = new.associated.get(name)
            if after is None:
                self.tell("associated-type-removed", f"{new.shown()} has no associated type `{name}` any more", at(new.place), at(before.place, "", "old"))
            elif len(before.lifetimes) != len(after.lifetimes) or [p.kind for p in before.params] != [p.kind for p in after.params]:
                self.tell("associated-type-changed", f"{new.shown()}: the associated type `{name}` has other parameters", at(after.place))
            else:
                self.associated_bounds(old, new, name, before, after, sealed)
        for name, after in new.associated.items():
            if name not in old.associated and not after.has_default and (not sealed or (old.is_dyn and not after.is_for_sized)):
                self.tell("associated-type-added", f"{new.shown()} has a new associated type: `{name}`", at(after.place))

    def associated_bounds(self, old: Item, new: Item, name: str, before: Associated, after: Associated, sealed: bool) -> None:
        """Who implements the trait has to prove new bounds, who uses it may have used old ones."""
        values, item = self.arguments(old, new), Parameter(name)
        inner = {**values, **{p.name: q for p, q in zip(after.params, (Parameter(p.name) for p in before.params))}}
        itself: dict[str, Type] = {"Self": Parameter(ITSELF)}
        params = [Param("type", ITSELF), *plain_params(old.params), *plain_params(before.params), Param("type", name)]
        try:
            had = [self.versions.bound_to_new(put_bound(b, itself)) for b in before.bounds]
            context = [self.unsized()] + self.versions.predicates_to_new(old.predicates)
            own = self.versions.predicates_to_new([(put(t, itself), put_bound(b, itself)) for t, b in before.predicates])
        except Gone as gone:
            self.tell("associated-type-bound-added", f"{new.shown()}: a bound of `{name}` names `{gone}`, which is gone", at(after.place), word="not settled")
            return
        has = [put_bound(b, inner) for b in after.bounds]
        if [(put(t, inner), put_bound(b, inner)) for t, b in after.predicates] != own:
            self.tell("associated-type-changed", f"{new.shown()}: the associated type `{name}` has other where-clauses", at(after.place), word="not settled")
        if not sealed:
            self.outlives(before, after, "lifetime-bound-added", f"{new.shown()}: the associated type `{name}`", after)
            self.item_bounds("associated-type-bound-added", f"{new.shown()}: the associated type `{name}` has a new bound", after, had, has, params, context, item)
        self.item_bounds("associated-type-bound-removed", f"{new.shown()}: the associated type `{name}` has lost a bound", after, has, had, params, context, item)

    def item_bounds(self, code: str, what: str, place: Associated, known: list[Bound], wanted: list[Bound], params: list[Param], context: list[Predicate],
                    item: Parameter) -> None:
        """Claims that what has the known bounds has the wanted ones."""
        goals = [goal for bound in wanted if bound not in known and not is_sizedness(bound) for _, goal in split((item, bound))]
        if any(map(is_sizedness, known)) and not any(map(is_sizedness, wanted)):
            goals.append(self.sized())
        for goal in goals:
            self.claim(code, f"{what}: `{self.versions.show_new.bound(goal)}`", at(place.place), params, context + [(item, b) for b in known], item, goal)

    # ---- methods and constants
    def inside(self, old: Item, new: Item, sealed: bool) -> None:
        for name in {**old.required, **old.provided}:
            if name not in new.required and name not in new.provided:
                self.tell("trait-item-removed", f"{new.shown()} has no `{name}` any more", at(new.place))
        for name, place in new.required.items():
            if name not in old.required and not sealed:
                what = "has a new required item" if name not in old.provided else "provides an item no more"
                self.tell("required-item-added", f"{new.shown()} {what}: `{name}`", at(place))


def split(predicate: Predicate) -> list[Predicate]:
    """A bound with equations as one without, and one for each."""
    subject, bound = predicate
    found = [(subject, Bound(bound.key, bound.arguments))]
    return found + [(subject, Bound(bound.key, bound.arguments, (constraint,))) for constraint in bound.constraints]

