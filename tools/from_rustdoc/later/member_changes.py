"""What a release changes of functions, constants, statics, macros, and of what is in types and traits; and the count of what changed and
is not judged. Two things are the same if they are written in one form (`written`). Of what is not, a class is reported, or nothing where old uses
go on, or it is counted: silent is nothing."""
from __future__ import annotations

import re
from typing import Any, Callable, Iterable, Optional

from ..model.members import Member, Shape, shape_of
from ..model.reached import terms_of
from ..model.surface import Item
from ..model.world import World
from ..read.html_docs import is_std_key
from ..read.rustdoc_json import STD_CRATES, JsonCrate, kind_and_body
from ..read.terms import Array, Bound, Function, Impl, Named, Never, Parameter, Pointer, Primitive, Reference, Slice, Tuple, Type, parts, put, walk
from ..report.messages import at
from .item_changes import ItemChanges
from .signature_changes import SignatureChanges
from .versions import Gone, all_keys, names_private, parameter_order, unsure
from .written import ATTRIBUTES, Form, attributes, clauses, text

FORM_NAMES = {"unit": "without fields", "tuple": "a tuple", "plain": "with named fields"}
COPY = "core/marker/trait.Copy.html"
# Types of std that have something to drop.
OWNING = ("struct.Vec", "struct.String", "struct.Box", "struct.Rc", "struct.Arc", "struct.HashMap", "struct.BTreeMap")
PACKED = r"packed(?!': None)"


class MemberChanges:
    def __init__(self, items: ItemChanges) -> None:
        self.items = items
        self.versions = items.versions
        self.tell = items.tell
        self.count = items.count
        self.seen: set[tuple[int, int]] = set()
        self.signatures = SignatureChanges(items)

    def run(self) -> None:
        before, after = self.versions.before, self.versions.after
        lost: dict[object, list[Member]] = {}
        for place, old in before.values.items():
            new = after.values.get(place)
            if new is None:
                lost.setdefault((old.kind, id(old.item) if old.item else old.other), []).append(old)
            else:
                self.member(old, new)
        for members in sorted(lost.values(), key=lambda its: its[0].kind == "module"):
            self.removed(sorted(members, key=lambda m: (m.path.count("::"), m.path)))
        self.impls()
        self.outside()
        for old_key, new_key in self.versions.newer.items():
            item, later = before.items.get(old_key), after.items.get(new_key)
            if item is not None and later is not None and old_key not in self.items.troubled:
                self.item(item, later)

    # ---- what is the same but for lifetimes, or is elsewhere
    def impls(self) -> None:
        """Impls with one header and one set of clauses in both versions, but with other lifetimes, or values of constants."""
        found: list[dict[object, tuple[Impl, Any, Any]]] = [{}, {}]
        for version, (world, surface) in enumerate(((self.versions.old, self.versions.before), (self.versions.new, self.versions.after))):
            for crate in surface.walked:
                for impl, body in zip(crate.impls, crate.impl_bodies()):
                    keys = [] if impl.trait is None else [impl.trait.key, *all_keys(impl.self_type)]
                    if not names_private(world, surface, keys) and any(world.key_of(key) in surface.items for key in keys):
                        found[version][self.versions.header(world, impl)] = (impl, *self.of_impl(crate, impl, body, version))
        for key, (_, form, values) in found[0].items():
            impl, later, others = found[1].get(key, (None, form, values))
            changed = [name for name, value in values.items() if others.get(name, value) != value]
            if impl is not None and (form != later or changed):
                why = f"its `{changed[0]}` is another one" if changed else "has other lifetimes"
                self.count("impl", f"`{self.versions.show_new.header(impl)}`", why, impl.place)

    def of_impl(self, crate: JsonCrate, impl: Impl, body: dict[str, Any], version: int) -> tuple[Any, dict[str, Any]]:
        """What is written of an impl, and its constants."""
        names, common = parameter_order(impl), self.common(version)
        header = Form(crate, common, names)
        found = [header.of([body["trait"], body["for"]]), set(clauses(crate, common, body, names, header.met))]
        inside = {i["name"]: kind_and_body(i) for i in map(crate.item, body["items"]) if i is not None}
        return found, {name: its["value"] for name, (kind, its) in inside.items() if kind == "assoc_const"}

    def outside(self) -> None:
        """What is exported of crates that were not given: if these are not the very same, it is not known what has changed."""
        before, after = self.versions.before, self.versions.after
        shown = {path: key[len("other:"):] for path, key in before.by_path.items() if key.startswith("other:") and path in after.by_path}
        shown |= {path: m.other for (kind, path), m in before.values.items() if not m.item and m.other and (kind, path) in after.values}
        for path, other in shown.items():
            name = other.split("::")[0]
            if name not in STD_CRATES and (not before.outside.get(name) or before.outside.get(name) != after.outside.get(name)):
                self.count("re-export", path, f"is of {name}, which was not given")

    # ---- what is gone
    def removed(self, members: list[Member]) -> None:
        """One item, by all paths by which it is gone."""
        old, after = members[0], self.versions.after
        told = [m.text.split("`")[1] for m in self.items.messages if m.code.endswith("-removed") and "`" in m.text]
        if old.kind == "module" and any(path.startswith(old.path + "::") or old.path.startswith(path + "::") for path in told):
            return
        now = next((kind for kind in ("constant", "static") if kind != old.kind in ("constant", "static") and (kind, old.path) in after.values), None)
        if now == "constant":
            self.count(old.kind, old.shown(), "is a constant now")
            return
        code = "kind-changed" if now else f"{old.kind.replace(' ', '-')}-removed"
        unknown = sorted(after.closed - self.versions.before.closed)
        message = self.tell(code, f"{old.kind} `{old.path}` is " + (f"a {now} now" if now else "removed"), [], at(old.place, "it was here", "old"),
                            "not settled" if unknown else "breaking")
        for member in members[1:]:
            message.note(f"so is `{member.path}`")
        if unknown:
            message.note(f"it may come by `{unknown[0]}`, which is exported and was not given")

    # ---- types and traits
    def item(self, old: Item, new: Item) -> None:
        self.lifetimes(old, new)
        self.attributes(old, new)
        for name, members in old.members.items():
            if name[0] in ("field", "variant"):
                continue
            for member in members:
                again = [m for m in new.members.get(name, []) if ("for" in m.impl) == ("for" in member.impl)]
                if again:
                    self.member(member, self.signatures.nearest(member, again), old, new)
                elif "for" in member.impl:
                    self.tell(f"{name[0].replace(' ', '-')}-removed", f"{name[0]} `{member.path}` is removed", [], at(member.place, "it was here", "old"))
        if old.kind == new.kind and old.is_type:
            self.form_of(old, new)
        if old.is_type:
            self.drop(old, new)

    def attributes(self, old: Item, new: Item) -> None:
        before, after = attributes(old.read, *ATTRIBUTES), attributes(new.read, *ATTRIBUTES)
        if before == after:
            return
        has_fields = any(m.is_public for (kind, _), members in old.members.items() if kind == "field" for m in members)
        if re.search(PACKED, str(after)) and not re.search(PACKED, str(before)) and has_fields:
            self.tell("repr-changed", f"{new.shown()} is packed now, so that nobody can refer to its fields", at(new.place))
        else:
            self.count("attribute", new.shown(), "its attributes have changed", new.place)

    def lifetimes(self, old: Item, new: Item) -> None:
        """What is asked of bounds is asked up to lifetimes, so other lifetimes in them are counted."""
        (before, erased_before), (after, _) = self.bounds(old, 0), self.bounds(new, 1)
        if any(unit not in before and erased in erased_before for unit, erased in after.items()):
            self.count(f"{new.kind}'s lifetime", new.shown(), "a bound or type has other lifetimes", new.place)

    def bounds(self, item: Item, version: int) -> tuple[dict[str, str], set[str]]:
        """Each bound of an item as it is written, with that without lifetimes."""
        assert item.crate is not None
        body, names = kind_and_body(item.read)[1], [*item.lifetimes, *(p.name for p in item.params)]
        found = clauses(item.crate, self.common(version), body, names)
        if item.kind == "alias":
            full, erased = (text(Form(item.crate, self.common(version), names, erased).of(body["type"])) for erased in (False, True))
            found[full] = erased
        for inside in filter(None, map(item.crate.item, body["items"] if item.kind == "trait" else [])):
            kind, its = kind_and_body(inside)
            if kind == "assoc_type":
                own = [p["name"] for p in its["generics"]["params"]]
                found |= {f"{inside['name']}: {unit}": f"{inside['name']}: {erased}"
                          for unit, erased in clauses(item.crate, self.common(version), its, names + own).items()}
        return found, set(found.values()) - {""}

    # ---- fields and variants
    def form_of(self, old: Item, new: Item) -> None:
        """What others can name of a type's form."""
        is_reached = old.key in self.versions.before.reached
        if old.kind != "enum":
            shape = shape_of(old.crate, old.read)
            shape.is_exhaustive &= not is_reached
            self.shape(shape, shape_of(new.crate, new.read), new.shown(), (old, new))
        if old.kind != "enum" or is_reached:
            return
        before, after = ({m.name: m for (kind, _), members in item.members.items() for m in members if kind == "variant"} for item in (old, new))
        is_open = not attributes(old.read, "non_exhaustive")
        if is_open and attributes(new.read, "non_exhaustive"):
            self.tell("non-exhaustive-added", f"{new.shown()} is `#[non_exhaustive]` now", at(new.place))
            is_open = False
        for name, member in before.items():
            if name not in after:
                self.tell("variant-removed", f"variant `{member.path}` is removed", at(new.place), at(member.place, "it was here", "old"))
            else:
                self.shape(shape_of(old.crate, member.item), shape_of(new.crate, after[name].item), f"variant {after[name].path}", (old, new))
        added = [member for name, member in after.items() if name not in before]
        if added and is_open:
            self.tell("variant-added", f"{new.shown()} has a new variant: `{added[0].name}`", at(added[0].place))
        values = discriminants(before.values()), discriminants(after.values())
        if None not in values:
            changed = [n for n, value in (values[0] or {}).items() if (values[1] or {}).get(n, value) != value]
            if changed:
                self.tell("discriminant-changed", f"variant {after[changed[0]].path} is another number now", at(after[changed[0]].place))
        elif any(m.body["discriminant"] != after[n].body["discriminant"] for n, m in before.items() if n in after):
            self.count("discriminant", new.shown(), "a number of a variant has changed", new.place)

    def shape(self, old: Shape, new: Shape, what: str, owners: tuple[Item, Item]) -> None:
        """The fields of a struct, a union or a variant."""
        place = at(new.place)
        is_closed = old.is_made and not new.is_exhaustive
        if is_closed:
            self.tell("non-exhaustive-added", f"{what} is `#[non_exhaustive]` now", place)
        elif old.is_made and old.kind in ("unit", "tuple") and old.kind != new.kind:
            self.tell("form-changed", f"{what} is {FORM_NAMES[new.kind]} now, and was {FORM_NAMES[old.kind]}", place)
            return
        for name, field in old.fields.items():
            later = new.fields.get(name)
            if not field.is_public:
                continue
            if later is None:
                self.tell("field-removed", f"{what} has no field `{name}` any more", place, at(field.place, "it was here", "old"))
            elif not later.is_public:
                self.tell("field-made-private", f"{what}: the field `{name}` is private now", at(later.place))
            else:
                self.typed("field", field, later, f"{what}: the field `{name}`", owners)
        added = [field for name, field in new.fields.items() if name not in old.fields]
        if added and old.is_made and not is_closed and owners[0].kind != "union":
            self.tell("field-added", f"{what} has a new field: `{added[0].name.split('::')[-1]}`", at(added[0].place))

    def typed(self, kind: str, old: Member, new: Member, what: str, owners: tuple[Optional[Item], Optional[Item]]) -> None:
        """The type of a field, constant or static."""
        if any(not isinstance(m.body, (dict, str)) or (kind != "field" and "type" not in m.body) for m in (old, new)):
            return
        forms, types = [], []
        for version, (member, owner) in enumerate(zip((old, new), owners)):
            assert member.crate is not None
            written, names = member.body if kind == "field" else member.body["type"], self.names(member, owner)
            form = Form(member.crate, self.common(version), names)
            forms.append((form.of(written), form.tokens))
            itself = member.crate.type(member.impl["for"], None) if "for" in member.impl else owner.itself() if owner is not None and owner.is_type else None
            types.append(put(member.crate.type(written, itself), {name: Parameter(f"P{number}") for number, name in enumerate(names)}))
        if forms[0][0] == forms[1][0]:
            return
        try:
            before, after = self.versions.old_type(types[0]), self.versions.new_type(types[1])
        except Gone as gone:
            return self.count(kind, what, f"its type names `{gone}`, which is gone", new.place)
        inside = [part for term in (before, after) for part in walk(term)]
        why = next(filter(None, (unsure(self.versions.new, part) for part in inside)), "")
        if before == after and (why or forms[0][1] != forms[1][1] or any(isinstance(part, Function) for part in inside)):
            self.count(kind, what, "its type has other lifetimes, or what is not read", new.place)
        elif before != after and why:
            self.count(kind, what, f"its type is another one, or not: {why}", new.place)
        elif before != after:
            shown = [self.versions.show_new.type(term) for term in (after, before)]
            self.tell(f"{kind.replace(' ', '-')}-type-changed", f"{what} is of another type: `{shown[0]}`, and was `{shown[1]}`", at(new.place))

    @staticmethod
    def names(member: Member, owner: Optional[Item]) -> list[str]:
        around = member.impl or (kind_and_body(owner.read)[1] if owner is not None else {"generics": {"params": []}})
        return [p["name"] for p in around["generics"]["params"]]

    # ---- destructors
    def drop(self, old: Item, new: Item) -> None:
        """An impl of `Drop` that is new. Nothing can be moved out of such a type, no `const fn` can take one that had nothing to drop, and
        what its parameters borrow has to live longer."""
        impl = self.dropped(self.versions.new, new.key)
        if impl is None or self.dropped(self.versions.old, old.key) is not None:
            return
        owns = self.owns(old.itself())
        why = "a `const fn` cannot take one any more" if owns is False else \
            "what it borrows has to live longer" if old.lifetimes or old.params else ""
        fields = [term for (kind, _), members in new.members.items() if kind == "field" for m in members if m.is_public for term in terms_of(m)]
        told, span = f"{new.shown()} has a destructor now", at(impl.place)
        if why or not fields and owns is None:
            self.tell("drop-added", told, span, word="breaking" if why else "changed").note(why or "whether it had something to drop before is not known")
        elif fields:
            copy = Bound(self.versions.new.pages.key(COPY) or "")
            self.items.claim("drop-added", f"{told}: its fields cannot be moved out", span, [], [], Tuple(tuple(fields)), copy)

    def dropped(self, world: World, key: str) -> Optional[Impl]:
        home = world.homes.get(key)
        return next((i for i in (home.impls if home is not None else []) if i.trait is not None and is_std_key(i.trait.key)
                     and i.trait.key.endswith("trait.Drop") and isinstance(i.self_type, Named) and world.key_of(i.self_type.key) == key), None)

    def owns(self, term: Type, above: tuple[str, ...] = ()) -> Optional[bool]:
        """Whether a type of the old version has something to drop. None if that is not known."""
        world = self.versions.old
        inside: Iterable[Type] = parts(term)
        if isinstance(term, (Primitive, Never, Reference, Pointer, Function)):
            return False
        if isinstance(term, Named):
            key = world.key_of(term.key)
            if key in above or term.key.endswith(OWNING):
                return key not in above
            if key not in world.homes:
                return None
            if above and self.dropped(world, key) is not None:
                return True
            inside, above = world.get(key).fields, (*above, key)
        elif not isinstance(term, (Tuple, Array, Slice)):
            return None
        found = [self.owns(part, above) for part in inside]
        return True if True in found else None if None in found else False

    # ---- one member
    def common(self, version: int) -> Callable[[str], str]:
        world = (self.versions.old, self.versions.new)[version]
        return lambda key: self.versions.common_key(world, key)

    def member(self, old: Member, new: Member, before: Optional[Item] = None, after: Optional[Item] = None) -> None:
        if (id(old.item), id(new.item)) in self.seen:
            return
        self.seen.add((id(old.item), id(new.item)))
        if not old.item or not new.item:
            if old.other != new.other:
                self.count("re-export", new.shown(), "is another one")
            return
        if attributes(old.item, *ATTRIBUTES) != attributes(new.item, *ATTRIBUTES):
            self.count("attribute", new.shown(), "its attributes have changed", new.place)
        owners = before, after
        if old.kind in ("function", "method"):
            if "sig" in old.body and "sig" in new.body:
                self.signatures.compare(old, new, owners)
            elif max(map(len, (old.body, new.body))) > 1:
                self.count("function signature", new.shown(), "it is not read", new.place)
        elif old.kind in ("constant", "associated constant", "static"):
            self.value(old, new, owners)
        elif self.form(old, 0, before) != self.form(new, 1, after):
            self.count(old.kind, new.shown(), "how it is declared", new.place)

    def value(self, old: Member, new: Member, owners: tuple[Optional[Item], Optional[Item]]) -> None:
        told = len(self.items.messages)
        self.typed(old.kind, old, new, new.shown(), owners)
        if old.kind == "static":
            if old.body["is_mutable"] != new.body["is_mutable"] or (new.body.get("is_unsafe") and not old.body.get("is_unsafe")):
                self.tell("static-made-mutable", f"{new.shown()} is {'mutable' if new.body['is_mutable'] else 'not as mutable as before'} now", at(new.place))
            return
        values = [(m.body.get("const") or {}).get("value") or (m.body.get("const") or {}).get("expr") or m.body.get("value") for m in (old, new)]
        if values[0] != values[1] and told == len(self.items.messages):
            self.count(old.kind, new.shown(), "its value is another one", new.place)

    def form(self, member: Member, version: int, owner: Optional[Item]) -> Any:
        assert member.crate is not None
        return Form(member.crate, self.common(version), self.names(member, owner)).of([() if member.kind == "module" else member.body])


def discriminants(variants: Iterable[Member]) -> Optional[dict[str, int]]:
    """The number of each variant of an enum without fields, as `as` gives it; None of another enum."""
    found: dict[str, int] = {}
    following = 0
    for variant in variants:
        written = variant.body["discriminant"]
        assert variant.crate is not None
        shape = shape_of(variant.crate, variant.item)
        if shape.fields or not shape.is_exhaustive:
            return None
        following = int("".join(re.findall(r"^-?\d+", written["value"]))) if written else following
        found[variant.name] = following
        following += 1
    return found
