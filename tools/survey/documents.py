"""A crate as rustdoc's JSON has it, for the queries: public items with their paths, impls, and the crates that it names.

It shares nothing with the translator's own reader, so that a mistake of one is not a mistake of the other.
"""
from __future__ import annotations

import json
import os
from functools import cached_property
from typing import Any, Iterator, Optional

Json = dict[str, Any]
TYPES = ("struct", "enum", "union")
STD = ("std", "core", "alloc")
# Modules of std that are in the path of a definition and in no public path.
TWO_MODULES = ("os", "collections")


def kind_of(item: Json) -> str:
    return str(next(iter(item["inner"])))


def body_of(item: Json) -> Json:
    body: Json = item["inner"][kind_of(item)]
    return body


def std_path(path: list[str]) -> list[str]:
    """A public path of an item of std, guessed: `core::iter::traits::iterator::Iterator` is `core::iter::Iterator`. Where that is
    wrong rustc says so, and the query is dropped."""
    return path if len(path) < 4 else [path[0], path[1], path[-1]]


class Crate:
    """`others` finds the documents of the crates that this one names."""

    def __init__(self, file: str, others: Optional["Documents"] = None) -> None:
        with open(file, encoding="utf-8") as handle:
            data = json.load(handle)
        self.others = others
        self.index: dict[int, Json] = {int(number): item for number, item in data["index"].items()}
        self.paths: dict[int, Json] = {int(number): path for number, path in data["paths"].items()}
        self.external: dict[int, str] = {int(number): crate["name"] for number, crate in data["external_crates"].items()}
        self.root: int = data["root"]
        self.name: str = self.index[self.root]["name"]
        self.version: str = data["crate_version"] or ""

    # ---- public items
    @cached_property
    def public(self) -> dict[int, list[str]]:
        """The shortest public path of each public item of the crate."""
        found: dict[int, list[str]] = {}
        todo: list[tuple[int, list[str]]] = [(self.root, [self.name])]
        seen: set[tuple[int, str]] = set()
        while todo:
            number, path = todo.pop(0)
            if (number, "::".join(path)) in seen or len(path) > 8:
                continue
            seen.add((number, "::".join(path)))
            for child, name in self.children(number):
                item = self.index[child]
                if kind_of(item) == "module":
                    todo.append((child, path + [name]))
                elif kind_of(item) in (*TYPES, "trait"):
                    found.setdefault(child, path + [name])
        return found

    def children(self, module: int, depth: int = 0) -> Iterator[tuple[int, str]]:
        """The public items of a module by their names in it, with what it reexports."""
        for number in body_of(self.index[module]).get("items", ()) if depth < 8 else ():
            item = self.index.get(number)
            if item is None or item["visibility"] != "public":
                continue
            if kind_of(item) != "use":
                if item["name"]:
                    yield number, item["name"]
                continue
            use = body_of(item)
            target = self.index.get(use["id"]) if use["id"] is not None else None
            if target is None or target["crate_id"] != 0:
                continue
            if not use["is_glob"]:
                yield use["id"], use["name"]
            elif kind_of(target) == "module":
                yield from self.children(use["id"], depth + 1)

    def of_kinds(self, kinds: tuple[str, ...]) -> list[int]:
        return [number for number in self.public if kind_of(self.index[number]) in kinds]

    @cached_property
    def by_definition(self) -> dict[str, list[str]]:
        """Public paths by the path of the definition, as other crates name it."""
        return {"::".join(self.paths[number]["path"]): path for number, path in self.public.items() if number in self.paths}

    def path(self, number: int) -> Optional[list[str]]:
        """A public path of an item of this crate, of std, or of a crate that this one names."""
        if number in self.public:
            return self.public[number]
        known = self.paths.get(number)
        if known is None or known["crate_id"] == 0:
            return None
        crate = self.external.get(known["crate_id"], "")
        if crate in STD:
            return std_path(known["path"])
        other = self.others.crate(crate) if self.others is not None else None
        return other.by_definition.get("::".join(known["path"])) if other is not None else None

    # ---- impls
    @cached_property
    def impls(self) -> list[Json]:
        """The impls that the crate writes: no blanket ones of others, and none that rustdoc computes."""
        found = []
        for item in self.index.values():
            if kind_of(item) == "impl" and item["crate_id"] == 0:
                body = body_of(item)
                if body["trait"] is not None and body["blanket_impl"] is None and not body["is_synthetic"]:
                    found.append(body)
        return found

    def associated(self, trait: int) -> list[str]:
        """The names of the associated types of a trait of this crate."""
        items = body_of(self.index[trait]).get("items", ()) if trait in self.index else ()
        return [self.index[n]["name"] for n in items if n in self.index and kind_of(self.index[n]) == "assoc_type"]

    def values(self, impl: Json) -> dict[str, Json]:
        """The values that an impl gives to associated types."""
        found = {}
        for number in impl["items"]:
            item = self.index.get(number)
            if item is not None and kind_of(item) == "assoc_type" and body_of(item).get("type") is not None:
                found[item["name"]] = body_of(item)["type"]
        return found


class Documents:
    """The crates of a project, by name, read at their first use."""

    def __init__(self, files: dict[str, str]) -> None:
        self.files = files
        self.known: dict[str, Optional[Crate]] = {}

    def crate(self, name: str) -> Optional[Crate]:
        if name not in self.known:
            file = self.files.get(name)
            self.known[name] = Crate(file, self) if file is not None and os.path.exists(file) else None
        return self.known[name]
