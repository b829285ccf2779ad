"""What others can name of a crate: each public item with all its paths, and what they may rely on of it. Read from rustdoc's JSON."""
from __future__ import annotations

from dataclasses import dataclass, field
from typing import Any, Optional

from ..read.rustdoc_json import ITEMS, STD_CRATES, JsonCrate, kind_and_body, stem_of
from ..read.terms import BadInput, Bound, Constant, Impl, Named, Param, Parameter, Place, Predicate, Type, put
from .members import VALUES, Member, Members, inherent_impls, members_of
from .reached import Reached, bound_terms, terms_of
from .world import World

KINDS = {**{kind: kind for kind in ITEMS}, "type_alias": "alias"}
MAXIMAL_PATH = 8


@dataclass
class Generics:
    """The parameters of an item, with its clauses on types, and those on lifetimes as text in which parameters go by their number; `consts`
    are the types of those that are constants."""
    params: list[Param] = field(default_factory=list)
    predicates: list[Predicate] = field(default_factory=list)
    lifetimes: list[str] = field(default_factory=list)
    consts: dict[str, str] = field(default_factory=dict)
    outlives: dict[str, str] = field(default_factory=dict)


@dataclass
class Associated(Generics):
    """An associated type of a trait; `supports` are its bounds."""
    place: Optional[Place] = None
    bounds: list[Bound] = field(default_factory=list)
    has_default: bool = False
    is_for_sized: bool = False


@dataclass
class Item(Generics):
    """`target` is what an alias stands for. `required` and `provided` are the methods and constants of a trait. `is_open` says of a struct,
    enum or union that others can name its form: a variant, a public field, or that it has none; `is_made_by_name` that its name is also a
    value, or has variants, which an alias of it has not. `read` is what the JSON says of it."""
    kind: str = ""
    key: str = ""
    name: str = ""
    place: Optional[Place] = None
    paths: list[str] = field(default_factory=list)
    is_hidden: bool = False
    supers: list[Bound] = field(default_factory=list)
    associated: dict[str, Associated] = field(default_factory=dict)
    required: dict[str, Optional[Place]] = field(default_factory=dict)
    provided: dict[str, Optional[Place]] = field(default_factory=dict)
    is_unsafe: bool = False
    is_auto: bool = False
    is_dyn: bool = False
    is_open: bool = False
    is_made_by_name: bool = False
    target: Optional[Type] = None
    crate: Optional[JsonCrate] = field(default=None, repr=False)
    read: dict[str, Any] = field(default_factory=dict, repr=False)
    members: Members = field(default_factory=dict, repr=False)

    @property
    def is_type(self) -> bool:
        return self.kind in ("struct", "enum", "union")

    def itself(self) -> Named:
        return Named(self.key, tuple(Constant(p.name) if p.kind == "const" else Parameter(p.name) for p in self.params))

    def same_as(self) -> Optional[str]:
        """The key of the type that an alias is another name of."""
        if isinstance(self.target, Named) and self.target.arguments == self.itself().arguments:
            return self.target.key
        return None

    def shown(self) -> str:
        return f"{'type' if self.kind == 'alias' else self.kind} {self.paths[0] if self.paths else self.key}"


@dataclass
class Surface:
    """`by_path` has the key of what each public path names; `items` those that are read; `behind` the types that aliases are other names
    of; `closed` are the globs of crates that were not given. `values` are the public items that are no types or traits, by kind and path, and
    `reached` the types without a path that others can have all the same, by what is public; `computed` is what rustdoc found of auto traits.
    `walked` are the crates that were read for it, and `outside` the compiled files of those that are named."""
    items: dict[str, Item] = field(default_factory=dict)
    by_path: dict[str, str] = field(default_factory=dict)
    kinds: dict[str, str] = field(default_factory=dict)
    behind: dict[str, str] = field(default_factory=dict)
    closed: set[str] = field(default_factory=set)
    computed: list[Impl] = field(default_factory=list)
    values: dict[tuple[str, str], Member] = field(default_factory=dict)
    reached: dict[str, Item] = field(default_factory=dict)
    walked: list[JsonCrate] = field(default_factory=list)
    outside: dict[str, str] = field(default_factory=dict)


class SurfaceReader:
    """Walks the modules of one crate, and those of other given crates that it exports."""

    def __init__(self, world: World, crate: str) -> None:
        self.world = world
        self.crates: dict[str, Optional[JsonCrate]] = {}
        self.surface = Surface()
        self.numbers: dict[str, tuple[JsonCrate, int]] = {}
        self.seen: set[tuple[str, int, tuple[str, ...]]] = set()
        self.by_glob: dict[str, tuple[str, str]] = {}
        self.globs: dict[tuple[str, str], Member] = {}
        self.inherent: dict[str, dict[str, list[dict[str, Any]]]] = {}
        top = self.crate(crate)
        assert top is not None
        self.module(top, top.json["root"], (crate.split("@")[0],), False, {})
        for path, (key, kind) in self.by_glob.items():
            self.take(path, key, kind)
        for path, key in self.surface.by_path.items():
            if key in self.numbers:
                self.item(key).paths.append(path)
        for item in list(self.surface.items.values()):
            self.behind(top, item)
        for item in self.surface.items.values():
            item.paths.sort(key=lambda path: (path.count("::"), path))
        self.surface.computed = [impl for read in self.crates.values() if read is not None for impl in read.computed_impls()]
        self.surface.values = {**self.globs, **self.surface.values}
        for item in self.surface.items.values():
            self.find_members(item)
        self.find_reached()
        self.surface.outside = {other["name"]: stem_of(other) for other in top.json["external_crates"].values()}

    def crate(self, name: str) -> Optional[JsonCrate]:
        if name not in self.crates:
            self.crates[name] = None
            if name in self.world.crates:
                read = JsonCrate(self.world.crates[name].file, self.world.pages, name if "@" in name else "", self.world.artifacts)
                read.load()
                self.crates[name] = read
        return self.crates[name]

    # ---- paths
    def module(self, crate: JsonCrate, number: int, path: tuple[str, ...], is_glob: bool, stack: dict[tuple[str, int], int]) -> None:
        place = (crate.name, number)
        module = crate.item(number)
        if module is None or (*place, path) in self.seen or len(path) > MAXIMAL_PATH or stack.get(place, 0) > 1:
            return
        self.seen.add((*place, path))
        if len(path) > 1:
            self.value(Member("module", path[-1], "::".join(path), crate, module), is_glob)
        inner = {**stack, place: stack.get(place, 0) + 1}
        for child in module["inner"]["module"]["items"]:
            item = crate.item(child)
            if item is None or item["visibility"] != "public":
                continue
            kind, body = kind_and_body(item)
            if kind == "module":
                self.module(crate, child, path + (item["name"],), is_glob, inner)
            elif kind == "use":
                self.use(crate, body, path, is_glob, inner)
            elif kind in KINDS:
                self.add(path + (item["name"],), crate.key(child) or "", KINDS[kind], is_glob, (crate, child))
            elif kind in VALUES:
                self.value(Member(VALUES[kind], item["name"], "::".join(path + (item["name"],)), crate, item), is_glob)

    def use(self, crate: JsonCrate, body: dict[str, Any], path: tuple[str, ...], is_glob: bool, stack: dict[tuple[str, int], int]) -> None:
        number = body["id"]
        target = crate.item(number)
        inside = path if body["is_glob"] else path + (body["name"],)
        if target is not None:
            kind = kind_and_body(target)[0]
            if kind == "module":
                self.module(crate, number, inside, is_glob or body["is_glob"], stack)
            elif kind in KINDS and not body["is_glob"]:
                self.add(inside, crate.key(number) or "", KINDS[kind], is_glob, (crate, number))
            elif kind in VALUES:
                self.value(Member(VALUES[kind], inside[-1], "::".join(inside), crate, target), is_glob)
            return
        found = crate.json["paths"].get(str(number))
        if found is None or found["crate_id"] == 0:
            return
        self.foreign(crate, number, found, inside, body["is_glob"], is_glob, stack)

    def foreign(self, crate: JsonCrate, number: int, found: dict[str, Any], inside: tuple[str, ...], is_all: bool, is_glob: bool,
                stack: dict[tuple[str, int], int]) -> None:
        """An item or module of another crate that is exported."""
        name = crate.external.get(found["crate_id"], found["path"][0])
        other = self.crate(name)
        there = self.number_of(other, found["path"]) if other is not None else None
        if found["kind"] == "module":
            if other is not None and there is not None:
                self.module(other, there, inside, is_glob or is_all, stack)
                return
            path = "::".join(found["path"])
            kind, name_of = ("glob re-export", "*") if is_all else ("module", inside[-1])
            self.value(Member(kind, name_of, "::".join(inside + ((path, "*") if is_all else ())), other=path), is_glob)
            if name not in STD_CRATES:
                self.surface.closed.add(path)
        elif found["kind"] in KINDS and not is_all:
            key = self.world.key_of(crate.key(number) or "")
            self.add(inside, key, KINDS[found["kind"]], is_glob, (other, there) if other is not None and there is not None else None)
        elif found["kind"] in VALUES:
            item = other.item(there) if other is not None else None
            self.value(Member(VALUES[found["kind"]], inside[-1], "::".join(inside), other, item or {}, other="::".join(found["path"])), is_glob)

    @staticmethod
    def number_of(crate: JsonCrate, path: list[str]) -> Optional[int]:
        if len(path) == 1:
            return int(crate.json["root"])
        return next((int(n) for n, p in crate.json["paths"].items() if p["crate_id"] == 0 and p["path"][1:] == path[1:]), None)

    def add(self, path: tuple[str, ...], key: str, kind: str, is_glob: bool, number: Optional[tuple[JsonCrate, int]]) -> None:
        """What is in a module itself hides what a glob brings."""
        if number is not None:
            self.numbers.setdefault(key, number)
        if is_glob:
            self.by_glob.setdefault("::".join(path), (key, kind))
        else:
            self.take("::".join(path), key, kind)

    def take(self, path: str, key: str, kind: str) -> None:
        self.surface.by_path.setdefault(path, key)
        self.surface.kinds.setdefault(key, kind)

    def value(self, member: Member, is_glob: bool) -> None:
        (self.globs if is_glob else self.surface.values).setdefault((member.kind, member.path), member)

    # ---- items
    def find_members(self, item: Item) -> None:
        if item.crate is not None and item.kind != "alias":
            if item.crate.name not in self.inherent:
                self.inherent[item.crate.name] = inherent_impls(item.crate)
            item.members = members_of(item.crate, item.read, item.paths[0] if item.paths else item.key, self.inherent[item.crate.name].get(item.key, []))

    def find_reached(self) -> None:
        crates = self.surface.walked = [crate for crate in self.crates.values() if crate is not None]
        terms = [term for member in self.surface.values.values() for term in terms_of(member)]
        terms += [term for item in self.surface.items.values() for term in terms_of_item(item)]
        Reached(crates, set(self.surface.kinds), self.world.key_of, self.without_path).by(terms)

    def without_path(self, crate: JsonCrate, key: str) -> list[Type]:
        """Reads a type that has no path; what others see of it."""
        item = self.surface.reached[key] = self.surface.items[key] = read_item(crate, crate.declarations[key].item, key)
        self.find_members(item)
        return terms_of_item(item)

    def behind(self, crate: JsonCrate, alias: Item) -> None:
        """What an alias is another name of goes by its path too."""
        key = self.world.key_of(alias.same_as() or "")
        number = next((n for n, k in crate.keys.items() if k == key), None) if key else None
        if number is not None and crate.item(number) is not None:
            self.numbers.setdefault(key, (crate, number))
            self.surface.behind[alias.key] = key
            self.surface.kinds.setdefault(key, self.item(key).kind)
            self.item(key).paths += [path for path in alias.paths if path not in self.item(key).paths]

    def item(self, key: str) -> Item:
        if key not in self.surface.items:
            crate, number = self.numbers[key]
            read = crate.item(number)
            assert read is not None
            self.surface.items[key] = read_item(crate, read, key)
        return self.surface.items[key]


def terms_of_item(item: Item) -> list[Type]:
    """The types that are in what others see of a type or trait."""
    bounds = [b for found in item.associated.values() for b in found.bounds] + item.supers
    found = [term for members in item.members.values() for member in members for term in terms_of(member)]
    return [*found, *filter(None, [item.target, *(p.default for p in item.params)]), *(term for bound in bounds for term in bound_terms(bound))]


def read_item(crate: JsonCrate, read: dict[str, Any], key: str) -> Item:
    kind, body = kind_and_body(read)
    item = Item(kind=KINDS[kind], key=key, name=read["name"], place=crate.place(read), is_hidden=is_hidden(read), crate=crate, read=read)
    read_generics(crate, body["generics"], item)
    if kind == "trait":
        read_trait(crate, body, item)
    elif kind == "type_alias":
        item.target = crate.type(body["type"], None)
    else:
        item.is_open = has_open_form(crate, kind, body)
        item.is_made_by_name = kind == "enum" or (item.is_open and not (isinstance(body.get("kind"), dict) and "plain" in body["kind"]) and kind == "struct")
    return item


def is_hidden(item: dict[str, Any]) -> bool:
    return any("doc(hidden)" in str(attribute).replace(" ", "") for attribute in item.get("attrs", []))


def read_generics(crate: JsonCrate, generics: dict[str, Any], into: Generics) -> None:
    into.params, into.predicates = crate.generics(generics, None)
    into.lifetimes = [p["name"] for p in generics["params"] if "lifetime" in p["kind"]]
    for param in generics["params"]:
        kind, body = next(iter(param["kind"].items()))
        if kind == "const":
            into.consts[param["name"]] = body["type"].get("primitive", "") if isinstance(body["type"], dict) else ""
        for name in body["outlives"] if kind == "lifetime" else []:
            add_outlives(into, param["name"], name)
        for bound in body["bounds"] if kind == "type" else []:
            if "outlives" in bound:
                add_outlives(into, Parameter(param["name"]), bound["outlives"])
    for predicate in generics["where_predicates"]:
        kind, body = next(iter(predicate.items()))
        if kind == "lifetime_predicate":
            for name in body["outlives"]:
                add_outlives(into, body["lifetime"], name)
        elif kind == "bound_predicate":
            for bound in body["bounds"]:
                if "outlives" in bound:
                    add_outlives(into, crate.type(body["type"], None), bound["outlives"])


def add_outlives(into: Generics, subject: Type | str, lifetime: str) -> None:
    """That a type or lifetime outlives another one, in the order of the parameters and as it is written."""
    lifetimes = {name: f"'{n}" for n, name in enumerate(into.lifetimes)}
    types: dict[str, Type] = {p.name: Parameter(f"P{n}") for n, p in enumerate(into.params)}
    left = lifetimes.get(subject, subject) if isinstance(subject, str) else repr(put(subject, types))
    shown = subject if isinstance(subject, str) else subject.name if isinstance(subject, Parameter) else "a type"
    into.outlives[f"{left}: {lifetimes.get(lifetime, lifetime)}"] = f"{shown}: {lifetime}"


def read_trait(crate: JsonCrate, body: dict[str, Any], item: Item) -> None:
    item.is_auto, item.is_unsafe, item.is_dyn = body["is_auto"], body["is_unsafe"], body["is_dyn_compatible"]
    item.supers = crate.bounds(body["bounds"], None) + [bound for subject, bound in item.predicates if subject == Parameter("Self")]
    item.predicates = [(subject, bound) for subject, bound in item.predicates if subject != Parameter("Self")]
    for bound in body["bounds"]:
        if "outlives" in bound:
            add_outlives(item, Parameter("Self"), bound["outlives"])
    for number in body["items"]:
        inside = crate.item(number)
        if inside is None:
            continue
        kind, inner = kind_and_body(inside)
        if kind == "assoc_type":
            item.associated[inside["name"]] = read_associated(crate, inside, inner)
        else:
            is_provided = inner["has_body"] if kind == "function" else inner.get("value") is not None
            (item.provided if is_provided else item.required)[inside["name"]] = crate.place(inside)


def read_associated(crate: JsonCrate, item: dict[str, Any], body: dict[str, Any]) -> Associated:
    found = Associated(place=crate.place(item), bounds=crate.bounds(body["bounds"], None), has_default=body["type"] is not None)
    read_generics(crate, body["generics"], found)
    found.is_for_sized = any(subject == Parameter("Self") and bound.key.endswith("trait.Sized") for subject, bound in found.predicates)
    for bound in body["bounds"]:
        if "outlives" in bound:
            add_outlives(found, Parameter(item["name"]), bound["outlives"])
    return found


def has_open_form(crate: JsonCrate, kind: str, body: dict[str, Any]) -> bool:
    if kind == "enum":
        return True
    fields = [crate.item(number) for number in crate.field_numbers(kind, body)]
    return not fields and body.get("kind") == "unit" or any(f is not None and f["visibility"] == "public" for f in fields)


def surface_of(world: World, crate: str) -> Surface:
    if crate not in world.crates:
        raise BadInput(f"the crate {crate} was not given")
    return SurfaceReader(world, crate).surface
