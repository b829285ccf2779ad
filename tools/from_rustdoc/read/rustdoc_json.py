"""Crates as rustdoc's JSON tells them, read into the intermediate form. `rustdoc_types` has the fields, `formats` says of which numbers of the format."""
from __future__ import annotations

import json
import os
import re
from dataclasses import dataclass
from typing import Any, Iterator, Optional

from . import rustdoc_types as of_json
from .formats import agreed, first_column
from .headers import qualifier
from .html_docs import Pages
from .terms import (UNIT, Alias, Array, BadInput, Bound, BoundsOf, Constant, Declaration, Dyn, Function, Impl, Named, Never, Param, Parameter, Place, Pointer,
                    Predicate, Primitive, Projection, Reference, Slice, Tuple, Type, Unsayable, argument_values, head_of, put)

STD_CRATES = ("core", "alloc", "std", "proc_macro", "test")
ITEMS = ("struct", "enum", "union", "trait")
FUNDAMENTAL = re.compile(r"#\[(fundamental|attr = Fundamental)\]")


@dataclass(frozen=True)
class ItemName:
    """An item's key, its name, and its public path if it has one."""
    key: str
    name: str
    public_path: Optional[list[str]]


def kind_and_body(item: dict[str, Any]) -> tuple[str, Any]:
    kind, body = next(iter(item["inner"].items()))
    return kind, body


def lifetimes_in(written: Any) -> Iterator[str]:
    """The lifetimes in a part of the JSON, in a fixed order; those that a `for` binds too."""
    if isinstance(written, list):
        for part in written:
            yield from lifetimes_in(part)
    elif isinstance(written, dict):
        for name, part in sorted(written.items()):
            if name == "lifetime" and isinstance(part, str):
                yield part
            else:
                yield from lifetimes_in(part)


def abi_of(written: Any) -> str:
    """An ABI by its name; empty for Rust's own."""
    if isinstance(written, str):
        return "" if written == "Rust" else written
    name, body = next(iter(written.items()))
    return str(body) if name == "Other" else (name if name == "C" else name.lower()) + ("-unwind" if body.get("unwind") else "")


def stem_of(crate: dict[str, Any]) -> str:
    """The name of an external crate's compiled file, without its ending."""
    return os.path.basename(crate.get("path") or "").rsplit(".", 1)[0]


def external_name(name: str, stem: str, artifacts: Optional[dict[str, str]]) -> str:
    """The name of an external crate. One that is not read never goes by the name of one that is."""
    if not artifacts or name in STD_CRATES:
        return name
    is_another = any(known.partition("@")[0] == name for known in artifacts.values())
    return artifacts.get(stem, f"{name}@{stem}" if is_another else name)


def too_deep(file: str) -> BadInput:
    return BadInput(f"{file}: something in it is nested too deep to be read")


class JsonCrate:
    """One crate's JSON. `load` fills `declarations` and `impls`. The crate may go by another name than its own. `artifacts` has the names of all
    crates that are read, by their compiled files; without it a crate that is named is the one with that name."""
    needs_private = True

    def __init__(self, file: str, pages: Pages, name: str = "", artifacts: Optional[dict[str, str]] = None) -> None:
        self.file = file
        self.pages = pages
        try:
            with open(file, encoding="utf-8") as handle:
                self.json = agreed(json.load(handle), file)
        except (OSError, ValueError) as error:
            raise BadInput(f"{file}: cannot be read as JSON: {error}")
        except RecursionError:
            raise too_deep(file)
        if self.needs_private and not self.json.get("includes_private"):
            raise BadInput(f"{file}: has no private items; make it with `--document-private-items --document-hidden-items`")
        self.index: dict[str, Any] = self.json["index"]
        self.name: str = name or self.index[str(self.json["root"])]["name"]
        self.version: str = self.json.get("crate_version") or ""
        self.first_column = first_column(self.json)
        self.external = {int(number): external_name(crate["name"], stem_of(crate), artifacts) for number, crate in self.json["external_crates"].items()}
        self.keys: dict[int, Optional[str]] = {}
        self.declarations: dict[str, Declaration] = {}
        self.aliases: dict[str, Declaration] = {}
        self.impls: list[Impl] = []
        self.names_crates: dict[str, None] = {}
        # What public paths name, from the crate's root on: items, and modules of other crates, whose items are there too.
        self.exports: dict[str, Optional[str]] = {}
        self.modules: dict[str, list[str]] = {}

    # ---- of all items at once, as `kept.KeptCrate` has it too
    @property
    def externals(self) -> list[tuple[str, str]]:
        """The crates that it names, each with the name of its compiled file."""
        return [(crate["name"], stem_of(crate)) for crate in self.json["external_crates"].values()]

    @property
    def heads(self) -> list[tuple[str, str]]:
        """The trait and the head of each impl."""
        return [(i.trait.key if i.trait else "", head_of(i.self_type)) for i in self.impls]

    @property
    def items(self) -> list[ItemName]:
        return [ItemName(d.key, d.name, d.public_path) for d in [*self.declarations.values(), *self.aliases.values()]]

    @property
    def traits_of(self) -> dict[str, list[str]]:
        """Of each type of the crate the traits that rustdoc found for it: of written impls, of blanket ones, and auto traits, negative ones too."""
        found: dict[str, dict[str, None]] = {}
        for item in self.index.values():
            kind, body = kind_and_body(item)
            if kind == "impl" and item["crate_id"] == 0 and body["trait"] is not None and "resolved_path" in body["for"]:
                key, trait = (self.key(path["id"], path["path"]) for path in (body["for"]["resolved_path"], body["trait"]))
                if key in self.declarations and trait is not None:
                    found.setdefault(key, {})[trait] = None
        return {key: list(traits) for key, traits in found.items()}

    @property
    def std_version(self) -> str:
        """The version of std that the crate was compiled with; empty where it does not say."""
        for crate in self.json["external_crates"].values():
            found = re.fullmatch(r"https://doc\.rust-lang\.org/([^/]*)/?", crate.get("html_root_url") or "")
            if found and crate["name"] in ("core", "std"):
                return found.group(1)
        return ""

    @property
    def sources(self) -> list[str]:
        """The files of its items."""
        return sorted({item["span"]["filename"] for item in self.index.values() if item["crate_id"] == 0 and item.get("span")})

    # ---- keys
    def item(self, number: Optional[int]) -> Optional[dict[str, Any]]:
        return None if number is None else self.index.get(str(number))

    def kind_of(self, number: int) -> Optional[str]:
        item = self.item(number)
        if item:
            return kind_and_body(item)[0]
        path = self.json["paths"].get(str(number))
        return path["kind"] if path else None

    def key(self, number: int, written: str = "") -> Optional[str]:
        """The key of an item: `crate::path` of a crate that is read, `std:..`, `other:crate::path`, `hidden:crate:number:name`."""
        if number in self.keys:
            return self.keys[number]
        path, item, key = self.json["paths"].get(str(number)), self.item(number), None
        if path is not None and path["crate_id"] != 0:
            crate = self.external.get(path["crate_id"], "?")
            self.names_crates[crate] = None
            key = f"other:{crate}::" + "::".join(path["path"][1:])
            if crate in STD_CRATES:
                key = self.pages.key_of_path(path["path"], path["kind"]) or key
        elif path is not None:
            key = f"{self.name}::" + "::".join(path["path"][1:])
        elif item is not None:
            key = f"{self.name}::#{number}::{item['name']}"
        elif written:
            key = f"hidden:{self.name}:{number}:" + written.split("::")[-1]
        self.keys[number] = key
        return key

    def source(self, item: dict[str, Any]) -> str:
        """`file:line`, the file from its crate's folder on."""
        span = item.get("span")
        if not span:
            return f"{self.name} (made by a macro)"
        file = re.sub(r"^.*/registry/(src/[^/]*/)?", "", span["filename"])
        return f"{file}:{span['begin'][0]}"

    def place(self, item: dict[str, Any]) -> Optional[Place]:
        span = item.get("span")
        if not span:
            return None
        (line, column), (end_line, end_column) = span["begin"], span.get("end") or span["begin"]
        by = 1 - self.first_column
        return Place(span["filename"], line, column + by, end_line, end_column + by)

    # ---- the whole crate
    def load(self) -> None:
        try:
            self.load_items()
        except RecursionError:
            raise too_deep(self.file)

    def load_items(self) -> None:
        for item in self.index.values():
            kind, _ = kind_and_body(item)
            if item["crate_id"] != 0 or kind not in ITEMS:
                continue
            key = self.key(item["id"])
            assert key is not None
            if key in self.declarations:
                key = self.keys[item["id"]] = f"{key}#{item['id']}"
            self.declarations[key] = Declaration(kind, key, self.name, item["name"], source=self.source(item), path=key, place=self.place(item),
                                                 item=item)
        for item in self.index.values():
            kind, body = kind_and_body(item)
            if kind == "type_alias" and item["crate_id"] == 0:
                key = self.key(item["id"])
                assert key is not None
                alias = Declaration("type", key, self.name, item["name"], source=self.source(item), path=key, place=self.place(item))
                alias.params, _ = self.generics(body["generics"], None)
                alias.fields = [self.type(body["type"], None)]
                self.aliases[key] = alias
        self.find_public_paths()
        self.export_module(self.json["root"], (), set())
        for declaration in self.declarations.values():
            self.read_declaration(declaration)
        for item in self.index.values():
            kind, body = kind_and_body(item)
            if kind == "impl" and item["crate_id"] == 0 and self.is_read(body):
                self.read_impl(item, body)

    def is_read(self, body: dict[str, Any]) -> bool:
        """Impls of traits as they are written: neither the computed ones of auto traits, nor instances of blanket impls."""
        return body["trait"] is not None and not body["is_synthetic"] and body["blanket_impl"] is None

    def impl_bodies(self) -> list[dict[str, Any]]:
        """What the JSON says of each of `impls`."""
        bodies = [kind_and_body(item) for item in self.index.values() if item["crate_id"] == 0]
        return [body for kind, body in bodies if kind == "impl" and self.is_read(body)]

    def read_declaration(self, declaration: Declaration) -> None:
        kind, body = kind_and_body(declaration.item)
        declaration.params, declaration.predicates = self.generics(body["generics"], None)
        declaration.lifetimes = sum("lifetime" in param["kind"] for param in body["generics"]["params"])
        declaration.is_fundamental = any(FUNDAMENTAL.search(str(a)) for a in declaration.item.get("attrs", []))
        if kind == "trait":
            declaration.is_auto = body["is_auto"]
            declaration.supers = self.bounds(body["bounds"], None)
            declaration.supers += [bound for subject, bound in declaration.predicates if subject == Parameter("Self")]
            inside = [self.item(number) for number in body["items"]]
            declaration.associated = {i["name"] for i in inside if i and kind_and_body(i)[0] == "assoc_type"}
            declaration.item_bounds = {i["name"]: self.bounds(i["inner"]["assoc_type"]["bounds"], None)
                                       for i in inside if i and kind_and_body(i)[0] == "assoc_type"}
            return
        declaration.is_enum = kind != "struct"
        itself = declaration.itself()
        variants = self.variants_of_fields(body) if kind == "enum" else {}
        for number in self.field_numbers(kind, body):
            found = self.item(number)
            declaration.field_names.append(variants.get(number, "") + found["name"] if found else "")
            declaration.fields.append(self.type(found["inner"]["struct_field"], itself) if found else Unsayable("a field that is not documented"))

    def field_numbers(self, kind: str, body: dict[str, Any]) -> list[Optional[int]]:
        numbers: list[Optional[int]] = []
        if kind == "union":
            numbers += body["fields"]
            return numbers
        if kind == "struct":
            form = body["kind"]
            if isinstance(form, dict):
                numbers += form["tuple"] if "tuple" in form else form["plain"]["fields"]
            return numbers
        for number in body["variants"]:
            variant = self.item(number)
            if variant is None:
                numbers.append(None)
                continue
            form = variant["inner"]["variant"]["kind"]
            if isinstance(form, dict):
                numbers += form["tuple"] if "tuple" in form else form["struct"]["fields"]
        return numbers

    def variants_of_fields(self, body: dict[str, Any]) -> dict[Optional[int], str]:
        """Of each field of an enum its variant."""
        found: dict[Optional[int], str] = {}
        for variant in filter(None, map(self.item, body["variants"])):
            found.update(dict.fromkeys(self.field_numbers("enum", {"variants": [variant["id"]]}), f"{variant['name']}."))
        return found

    def read_impl(self, item: dict[str, Any], body: dict[str, Any]) -> None:
        self.impls.append(self.impl_of(item, body))

    def computed_impls(self) -> Iterator[Impl]:
        """What rustdoc found of the auto traits of types for which nobody wrote an impl: positive or negative, with the least clauses."""
        for item in self.index.values():
            kind, body = kind_and_body(item)
            if kind == "impl" and item["crate_id"] == 0 and body["is_synthetic"] and body["trait"] is not None:
                yield self.impl_of(item, body)

    def impl_of(self, item: dict[str, Any], body: dict[str, Any]) -> Impl:
        itself = self.type(body["for"], None)
        params, predicates = self.generics(body["generics"], itself)
        impl = Impl(self.name, self.source(item), self.trait_bound(body["trait"], itself), itself, params, predicates,
                    is_negative=body["is_negative"], is_computed=body["is_synthetic"], place=self.place(item))
        for number in body["items"]:
            inside = self.item(number)
            if inside and kind_and_body(inside)[0] == "assoc_type" and inside["inner"]["assoc_type"].get("type") is not None:
                self.read_value(impl, inside["name"], inside["inner"]["assoc_type"], [body["trait"], body["for"]])
        return impl

    def read_value(self, impl: Impl, name: str, value: of_json.AssocType, header: list[Any]) -> None:
        read = self.type(value["type"], impl.self_type)
        own = [param["name"] for param in value["generics"]["params"]]
        impl.associated[name] = Unsayable("a generic associated type") if own else read
        if own:
            impl.generic[name] = put(read, {its: Parameter(f"{name}::{number}") for number, its in enumerate(own)})
        places = {lifetime: str(number) for number, lifetime in reversed(list(enumerate(lifetimes_in(header))))}
        places |= {its: f"{name}::{number}" for number, its in enumerate(own)}
        impl.lifetimes[name] = [places.get(lifetime, lifetime) for lifetime in lifetimes_in(value["type"])]

    # ---- public paths
    def find_public_paths(self) -> None:
        seen: set[tuple[int, tuple[str, ...]]] = set()

        def visit(number: int, path: list[str]) -> None:
            module = self.item(number)
            if not module or (number, tuple(path)) in seen or len(path) > 8:
                return
            seen.add((number, tuple(path)))
            for child in module["inner"]["module"]["items"]:
                item = self.item(child)
                if not item or item["visibility"] != "public":
                    continue
                kind, body = kind_and_body(item)
                if kind == "module":
                    visit(child, path + [item["name"]])
                elif kind in ITEMS:
                    self.make_public(child, path + [item["name"]])
                elif kind == "use":
                    self.visit_use(body, path, visit)

        visit(self.json["root"], [self.name])

    def visit_use(self, body: of_json.Use, path: list[str], visit: Any) -> None:
        target = self.item(body["id"])
        if not target:
            return
        kind = kind_and_body(target)[0]
        if kind == "module":
            visit(body["id"], path if body["is_glob"] else path + [body["name"]])
        elif kind in ITEMS and not body["is_glob"]:
            self.make_public(body["id"], path + [body["name"]])

    def make_public(self, number: int, path: list[str]) -> None:
        declaration = self.declarations.get(self.key(number) or "")
        if declaration and (declaration.public_path is None or len(path) < len(declaration.public_path)):
            declaration.public_path = path

    # ---- all public paths
    def export_module(self, number: int, path: tuple[str, ...], seen: set[tuple[int, tuple[str, ...]]]) -> None:
        module = self.item(number)
        if module is None or (number, path) in seen or len(path) > 8:
            return
        seen.add((number, path))
        inside = [item for item in map(self.item, module["inner"]["module"]["items"]) if item and item["visibility"] == "public"]
        # What a glob brings gives way to what has the name itself.
        for item in sorted(inside, key=lambda item: bool("use" in item["inner"] and item["inner"]["use"]["is_glob"])):
            kind, body = kind_and_body(item)
            if kind == "use":
                self.export_use(body, path, seen)
            elif kind == "extern_crate":
                # (Of a renamed one `rename` is the crate's own name.)
                crates = [self.external[int(n)] for n, crate in self.json["external_crates"].items() if crate["name"] == (body["rename"] or body["name"])]
                self.modules.setdefault("::".join([*path, item["name"]]), []).extend(crates)
            else:
                self.export(item["id"], kind, path + (item["name"],), seen)

    def export(self, number: int, kind: Optional[str], path: tuple[str, ...], seen: set[tuple[int, tuple[str, ...]]]) -> None:
        if kind == "module":
            self.export_module(number, path, seen)
        elif kind in ITEMS or kind == "type_alias":
            self.exports.setdefault("::".join(path), self.key(number))

    def export_use(self, body: of_json.Use, path: tuple[str, ...], seen: set[tuple[int, tuple[str, ...]]]) -> None:
        place = path if body["is_glob"] else path + (body["name"],)
        known = self.json["paths"].get(str(body["id"]))
        kind = self.kind_of(body["id"]) if body["id"] is not None else None
        if kind == "module" and self.item(body["id"]) is None and known is not None:
            crate = self.external.get(known["crate_id"], "?")
            self.names_crates[crate] = None
            self.modules.setdefault("::".join(place), []).append("::".join([crate, *known["path"][1:]]))
        elif kind == "module" or not body["is_glob"]:
            self.export(body["id"], kind, place, seen)

    # ---- generics and bounds; `itself` is what `Self` stands for, None in a trait
    def generics(self, generics: of_json.Generics, itself: Optional[Type]) -> tuple[list[Param], list[Predicate]]:
        params: list[Param] = []
        predicates: list[Predicate] = []
        for param in generics["params"]:
            kind, body = next(iter(param["kind"].items()))
            if kind == "type":
                params.append(Param("type", param["name"], self.type(body["default"], itself) if body["default"] else None))
                predicates += [(Parameter(param["name"]), b) for b in self.bounds(body["bounds"], itself)]
            elif kind == "const":
                params.append(Param("const", param["name"], Constant(body["default"]) if body.get("default") else None))
        for predicate in generics["where_predicates"]:
            kind, body = next(iter(predicate.items()))
            if kind == "bound_predicate":
                subject = self.type(body["type"], itself)
                predicates += [(subject, b) for b in self.bounds(body["bounds"], itself)]
            elif kind == "eq_predicate":
                predicates.append((self.type(body["lhs"], itself), Bound("?an equation of types")))
        return params, predicates

    def bounds(self, bounds: list[of_json.Bound], itself: Optional[Type]) -> list[Bound]:
        found = []
        for bound in bounds:
            if "trait_bound" in bound:
                body = bound["trait_bound"]
                found.append(self.trait_bound(body["trait"], itself, body["modifier"] == "maybe"))
        return found

    def trait_bound(self, path: of_json.Path, itself: Optional[Type], maybe: bool = False) -> Bound:
        arguments, constraints = self.arguments(path.get("args"), itself)
        return Bound(self.key(path["id"], path["path"]) or "?" + path["path"], arguments, constraints, maybe)

    def arguments(self, written: Optional[of_json.Arguments], itself: Optional[Type]) -> tuple[tuple[Type, ...], tuple[tuple[str, Type], ...]]:
        arguments: list[Type] = []
        constraints: list[tuple[str, Type]] = []
        if written and "angle_bracketed" in written:
            for argument in written["angle_bracketed"]["args"]:
                if not isinstance(argument, dict):
                    arguments.append(Unsayable("`_`"))
                elif "type" in argument:
                    arguments.append(self.type(argument["type"], itself))
                elif "const" in argument:
                    arguments.append(Constant(argument["const"].get("value") or argument["const"]["expr"]))
            for constraint in written["angle_bracketed"]["constraints"]:
                kind, body = next(iter(constraint["binding"].items()))
                value: Type = Unsayable("an equation of constants")
                if kind != "equality":
                    value = BoundsOf(tuple(self.bounds(body, itself)))
                elif "type" in body:
                    value = self.type(body["type"], itself)
                if (constraint.get("args") or {}).get("angle_bracketed", {}).get("args"):
                    value = Unsayable("a generic associated type")
                constraints.append((constraint["name"], value))
        elif written and "parenthesized" in written:
            inside = written["parenthesized"]
            arguments.append(Tuple(tuple(self.type(t, itself) for t in inside["inputs"])))
            constraints.append(("Output", self.type(inside["output"], itself) if inside["output"] else UNIT))
        return tuple(arguments), tuple(constraints)

    # ---- types
    def type(self, written: Any, itself: Optional[Type]) -> Type:
        kind: Any
        body: Any
        kind, body = next(iter(written.items())) if isinstance(written, dict) else (written, None)
        match kind:
            case "resolved_path":
                return self.path_type(body, itself)
            case "dyn_trait":
                return Dyn(tuple(self.trait_bound(t["trait"], itself) for t in body["traits"]))
            case "generic":
                return itself if body == "Self" and itself is not None else Parameter(body)
            case "primitive":
                return Never() if body == "never" else UNIT if body == "unit" else Primitive(body)
            case "function_pointer":
                signature, header = body["sig"], body["header"]
                if signature["is_c_variadic"]:
                    return Unsayable("a variadic fn")
                inputs = tuple(self.type(t, itself) for _, t in signature["inputs"])
                output = self.type(signature["output"], itself) if signature["output"] else UNIT
                return Function(inputs, output, qualifier(header["is_unsafe"], abi_of(header["abi"])))
            case "tuple":
                return Tuple(tuple(self.type(t, itself) for t in body))
            case "slice":
                return Slice(self.type(body, itself))
            case "array":
                return Array(self.type(body["type"], itself), body["len"])
            case "raw_pointer":
                return Pointer(body["is_mutable"], self.type(body["type"], itself))
            case "borrowed_ref":
                return Reference(body["is_mutable"], self.type(body["type"], itself))
            case "qualified_path":
                return self.projection(body, itself)
        return Unsayable(str(kind))

    def projection(self, body: of_json.Projection, itself: Optional[Type]) -> Type:
        if (body["args"] or {}).get("angle_bracketed", {}).get("args"):
            return Unsayable("a generic associated type", repr(self.with_keys(body)))
        bound = self.trait_bound(body["trait"], itself) if body["trait"] else None
        if bound and bound.key.startswith("?"):
            bound = None
        return Projection(self.type(body["self_type"], itself), bound, body["name"])

    def with_keys(self, written: Any) -> Any:
        """A part of the JSON with the keys of items in place of their numbers, which differ from file to file."""
        if isinstance(written, list):
            return [self.with_keys(part) for part in written]
        if not isinstance(written, dict):
            return written
        found = {name: self.with_keys(part) for name, part in sorted(written.items()) if name not in ("id", "path")}
        return {**found, "id": self.key(written["id"], written.get("path", ""))} if "id" in written else found

    def path_type(self, body: of_json.Path, itself: Optional[Type]) -> Type:
        key = self.key(body["id"], body["path"])
        arguments, _ = self.arguments(body.get("args"), itself)
        item = self.item(body["id"])
        if self.kind_of(body["id"]) == "type_alias":
            if item:
                alias = item["inner"]["type_alias"]
                params, _ = self.generics(alias["generics"], itself)
                return put(self.type(alias["type"], itself), argument_values(params, arguments))
            return Alias(key, arguments) if key else Unsayable(body["path"])
        if key is None:
            return Unsayable(body["path"])
        if key.startswith("std:") and key.split("@")[1].startswith("type."):
            return Alias(key, arguments)
        return Named(key, arguments)
