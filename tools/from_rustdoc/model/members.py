"""What is public and is no type or trait of its own: functions, constants, statics, macros, modules, and what is in types and traits."""
from __future__ import annotations

from dataclasses import dataclass, field
from typing import Any, Optional

from ..read.rustdoc_json import ITEMS, JsonCrate, kind_and_body
from ..read.terms import UNIT, Bound, Dyn, Named, Param, Parameter, Place, Predicate, Type

# Items of modules that are values, macros, or have no form that is read.
VALUES = {"function": "function", "constant": "constant", "static": "static", "macro": "macro", "proc_macro": "macro", "proc_derive": "macro",
          "proc_attribute": "macro", "extern_type": "extern type", "trait_alias": "trait alias", "module": "module"}
INSIDE = {"function": "method", "assoc_const": "associated constant"}


@dataclass
class Member:
    """`item` is what the JSON of `crate` says of it; both are missing if its crate was not given, and `other` is its key then. `impl` is the
    inherent impl or the trait that it is in."""
    kind: str
    name: str
    path: str
    crate: Optional[JsonCrate] = None
    item: dict[str, Any] = field(default_factory=dict)
    impl: dict[str, Any] = field(default_factory=dict)
    other: str = ""

    @property
    def body(self) -> Any:
        return kind_and_body(self.item)[1]

    @property
    def place(self) -> Optional[Place]:
        return self.crate.place(self.item) if self.crate is not None and self.item else None

    @property
    def is_public(self) -> bool:
        return self.item["visibility"] in ("public", "default") or not self.item

    def shown(self) -> str:
        return f"{self.kind} {self.path}"


Members = dict[tuple[str, str], list[Member]]


def inherent_impls(crate: JsonCrate) -> dict[str, list[dict[str, Any]]]:
    """The inherent impls of a crate, by the keys of their types."""
    found: dict[str, list[dict[str, Any]]] = {}
    for item in crate.index.values():
        kind, body = kind_and_body(item)
        if kind == "impl" and item["crate_id"] == 0 and body["trait"] is None:
            head = crate.type(body["for"], None)
            key = head.key if isinstance(head, Named) else head.bounds[0].key if isinstance(head, Dyn) and head.bounds else ""
            found.setdefault(key, []).append(body)
    return found


def members_of(crate: JsonCrate, item: dict[str, Any], path: str, impls: list[dict[str, Any]]) -> Members:
    """What is in a type or trait: fields and variants, private fields too, public methods and constants, and a trait's own."""
    found: Members = {}

    def take(kind: str, name: str, inside: dict[str, Any], **more: Any) -> None:
        found.setdefault((kind, name), []).append(Member(kind, name, f"{path}::{name}", crate, inside, **more))

    kind, body = kind_and_body(item)
    if kind == "trait":
        for inside in filter(None, map(crate.item, body["items"])):
            if kind_and_body(inside)[0] in INSIDE:
                take(INSIDE[kind_and_body(inside)[0]], inside["name"], inside, impl=body)
    elif kind in ITEMS:
        variants = crate.variants_of_fields(body) if kind == "enum" else {}
        for number in crate.field_numbers(kind, body):
            inside = crate.item(number)
            if inside is not None:
                take("field", (variants.get(number, "") + inside["name"]).replace(".", "::"), inside)
        for inside in filter(None, map(crate.item, body.get("variants", []))):
            take("variant", inside["name"], inside)
    for impl in impls:
        for inside in filter(None, map(crate.item, impl["items"])):
            if inside["visibility"] == "public" and kind_and_body(inside)[0] in INSIDE:
                take(INSIDE[kind_and_body(inside)[0]], inside["name"], inside, impl=impl)
    return found


@dataclass
class Shape:
    """The form of a struct, union or variant: `kind` is unit, tuple or plain; fields by name, private ones too."""
    kind: str
    is_exhaustive: bool
    place: Optional[Place]
    fields: dict[str, Member]

    @property
    def is_made(self) -> bool:
        """Whether others can make one, and take it apart without `..`."""
        return self.is_exhaustive and all(field.is_public for field in self.fields.values())


def shape_of(crate: JsonCrate, item: dict[str, Any]) -> Shape:
    kind, body = kind_and_body(item)
    form = body.get("kind", "plain")
    word = {"plain": "unit" if kind == "variant" else "plain", "struct": "plain"}.get(form, form) if isinstance(form, str) else next(iter(form))
    numbers = crate.field_numbers("enum", {"variants": [item["id"]]}) if kind == "variant" else crate.field_numbers(kind, body)
    fields = {found["name"]: Member("field", found["name"], found["name"], crate, found) for found in filter(None, map(crate.item, numbers))}
    is_exhaustive = not any("non_exhaustive" in str(attribute) for attribute in item["attrs"])
    return Shape({"struct": "plain"}.get(word, word), is_exhaustive, crate.place(item), fields)


@dataclass
class Signature:
    """A function's parameters and result. `params` are those of its impl or trait, its own, and one for each `impl Trait` among its
    parameters; `own` are its own that can be named, `made` counts the `impl Trait`s. `results` are the bounds of each `impl Trait` of the
    result, which is in `output` as a parameter. `written` is the whole as JSON."""
    generics: dict[str, Any]
    written: dict[str, Any]
    inputs: list[Type]
    output: Type
    itself: Type
    params: list[Param]
    predicates: list[Predicate]
    own: list[str]
    made: int
    results: dict[str, list[Bound]]
    header: dict[str, Any]

    @property
    def has_self(self) -> bool:
        return bool(self.written["inputs"]) and self.written["inputs"][0][0] == "self"

    @property
    def names(self) -> list[str]:
        return [p["name"] for p in self.generics["params"] if "lifetime" not in p["kind"]]


def opened(node: Any, prefix: str, found: dict[str, Any]) -> Any:
    """The JSON of types with a parameter for each `impl Trait`, whose bounds are in `found`."""
    if isinstance(node, list):
        return [opened(part, prefix, found) for part in node]
    if not isinstance(node, dict):
        return node
    if "impl_trait" in node:
        name = f"{prefix}{len(found)}"
        found[name] = []
        found[name] = opened(node["impl_trait"], prefix, found)
        return {"generic": name}
    return {key: opened(part, prefix, found) for key, part in node.items()}


def signature_of(member: Member) -> Signature:
    crate, body, impl = member.crate, member.body, member.impl
    assert crate is not None
    arguments: dict[str, Any] = {}
    results: dict[str, Any] = {}
    inputs, output = opened(body["sig"]["inputs"], "Impl", arguments), opened(body["sig"]["output"], "Result", results)
    around = impl.get("generics", {"params": [], "where_predicates": []})
    own = [p for p in body["generics"]["params"] if not p["kind"].get("type", {}).get("is_synthetic")]
    made = [{"name": n, "kind": {"type": {"bounds": b, "default": None, "is_synthetic": True}}} for n, b in arguments.items()]
    generics = {"params": around["params"] + own + made, "where_predicates": around["where_predicates"] + body["generics"]["where_predicates"]}
    itself = crate.type(impl["for"], None) if "for" in impl else Parameter("Self")
    meant = itself if "for" in impl else None
    return Signature(generics, {**body["sig"], "inputs": inputs, "output": output, "results": results}, [crate.type(t, meant) for _, t in inputs],
                     crate.type(output, meant) if output else UNIT, itself, *crate.generics(generics, meant),
                     [p["name"] for p in own if "lifetime" not in p["kind"]], len(made),
                     {n: crate.bounds(b, meant) for n, b in results.items()}, body["header"])
