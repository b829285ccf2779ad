"""The standard library from its own JSON, where the component `rust-docs-json` is installed: by the reader of crates.

It has what the HTML documents have (public items, computed auto impls), with the values of all associated types. Fields of std are
private in both, so the list of unsized tails stays. Keys are made of definition paths: `std:json/alloc/vec::Vec@struct.Vec`.
"""
from __future__ import annotations

import os
from typing import Any, Optional

from .html_docs import CRATES, KINDS, LINKED, Pages, rust_crate_of
from .rustdoc_json import JsonCrate, kind_and_body
from .standard import TAILS, Header, Standard, home_of
from .terms import FUNCTIONS, BadInput, Declaration, Impl, Named, Parameter, Primitive, Tuple, Type


class StdJsonCrate(JsonCrate):
    """One of std's crates. Its items have keys of std, and its fields are not read."""
    needs_private = False

    def key(self, number: int, written: str = "") -> Optional[str]:
        path, item = self.json["paths"].get(str(number)), self.item(number)
        kind = path["kind"] if path else kind_and_body(item)[0] if item else ""
        if path is not None and path["crate_id"] == 0 and kind in KINDS:
            return f"std:json/{self.name}/{'::'.join(path['path'][1:])}@{KINDS[kind]}.{path['path'][-1]}"
        return super().key(number, written)

    def is_read(self, body: dict[str, Any]) -> bool:
        return body["trait"] is not None and body["blanket_impl"] is None

    def read_declaration(self, declaration: Declaration) -> None:
        super().read_declaration(declaration)
        declaration.crate, declaration.fields = home_of(self.name), []
        declaration.source = f"std: {declaration.source}"
        if declaration.kind == "struct" and declaration.name in TAILS:
            tail = TAILS[declaration.name]
            declaration.tail = Primitive(tail) if tail else Parameter(declaration.params[0].name) if declaration.params else None


class JsonPages(Pages):
    """Keys of std's items by the paths of its JSON, in place of pages."""

    def __init__(self, folder: str) -> None:
        super().__init__(folder)
        self.by_path: dict[tuple[str, str], str] = {}

    def add(self, crate: StdJsonCrate) -> None:
        for number, path in crate.json["paths"].items():
            if path["crate_id"] == 0 and path["kind"] in KINDS:
                self.by_path[("::".join(path["path"]), KINDS[path["kind"]])] = crate.key(int(number)) or ""
        for declaration in crate.declarations.values():
            if declaration.public_path:
                self.by_path.setdefault(("::".join(declaration.public_path), KINDS[declaration.kind]), declaration.key)

    def key(self, path: str) -> Optional[str]:
        words = path[:-len(".html")].split("/")
        kind, name = words[-1].split(".")
        return self.by_path.get(("::".join(words[:-1] + [name]), kind))

    def key_of_path(self, words: list[str], kind: str) -> Optional[str]:
        return self.by_path.get(("::".join(words), KINDS.get(kind, "")))

    def key_of_any_kind(self, words: list[str]) -> Optional[str]:
        return next((k for k in (self.by_path.get(("::".join(words), kind)) for kind in LINKED) if k), None)

    def rust_path(self, key: str) -> list[str]:
        return [rust_crate_of(key)] + key.split("/", 2)[2].split("@")[0].split("::")


class JsonStandard(Standard):
    """Declarations and impls as `Standard` has them, of the three crates' JSON."""

    def __init__(self, folder: str) -> None:
        pages = JsonPages(folder)
        super().__init__(pages)
        crates = [StdJsonCrate(os.path.join(folder, name + ".json"), pages) for name in CRATES]
        for crate in crates:
            pages.add(crate)
        self.by_trait: dict[str, list[tuple[Header, Impl]]] = {}
        for crate in crates:
            crate.load()
            pages.add(crate)
            self.declarations.update(crate.declarations)
            for alias in crate.aliases.values():
                alias.crate = home_of(crate.name)
                self.declarations[alias.key] = alias
            for impl in crate.impls:
                self.add(crate, impl)

    def add(self, crate: StdJsonCrate, impl: Impl) -> None:
        assert impl.trait is not None
        impl.crate, impl.source = home_of(crate.name), f"std: {impl.source}"
        header = Header(impl.source, crate.name)
        self.narrow(impl)
        self.by_trait.setdefault(impl.trait.key, []).extend((header, one) for one in self.written_out(impl))

    def written_out(self, impl: Impl) -> list[Impl]:
        """An impl for `(T,)` with one parameter stands for tuples of each length, as the documents show it."""
        inside = impl.self_type
        if isinstance(inside, Tuple) and len(inside.items) == 1 and isinstance(inside.items[0], Parameter):
            found = []
            for count in range(1, 13):
                found.append(impl.copy())
                self.widen(found[-1], {inside.items[0].name}, count)
            return found
        if isinstance(inside, Parameter) and any(t == inside and b.key.endswith("trait.FnPtr") for t, b in impl.predicates):
            return [self.for_functions(impl, count, how) for how in ("", *FUNCTIONS) for count in range(13)]
        return [impl]

    def declaration(self, key: str) -> Declaration:
        if key not in self.declarations:
            raise BadInput(f"std's JSON has no item {key}")
        return self.declarations[key]

    def impls_of_trait(self, key: str) -> list[tuple[Header, Impl]]:
        impls = self.by_trait.get(key, [])
        self.found += list({id(h): h for h, _ in impls}.values())
        return impls

    def traits_on(self, path: str) -> list[str]:
        """(The JSON has impls by their traits alone: all that have one.)"""
        return list(self.by_trait)

    def auto_impls(self, key: str) -> list[tuple[Header, Impl]]:
        found = []
        for trait, impls in self.by_trait.items():
            if trait in self.declarations and self.declarations[trait].is_auto:
                found += [(Header(h.text, h.page), i) for h, i in impls if isinstance(i.self_type, Named) and i.self_type.key == key]
        self.found += [h for h, _ in found]
        return found

    def associated_type(self, impl: Impl, name: str) -> Optional[Type]:
        return None
