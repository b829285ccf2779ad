"""rustdoc's JSON of several numbers: json/formats.37.json is by rustdoc 1.85, json/formats.json by 1.95 (its number is 57, as that of 1.96). A file
of another number is read where the fields that are read agree, and refused with the field's name where not."""
from __future__ import annotations

import copy
import json
import os
import re
import tempfile
import unittest
from typing import Any, Callable, get_type_hints, is_typeddict

from ..model.surface import surface_of
from ..model.world import World
from ..read import rustdoc_types
from ..read.rustdoc_json import JsonCrate
from ..read.terms import BadInput, Declaration, Impl
from .common import kept, pages


def data_of(name: str) -> dict[str, Any]:
    with open(kept(name), encoding="utf-8") as handle:
        found: dict[str, Any] = json.load(handle)
    return found


def read(data: Any) -> JsonCrate:
    with tempfile.TemporaryDirectory() as folder:
        file = os.path.join(folder, "formats.json")
        with open(file, "w", encoding="utf-8") as handle:
            json.dump(data, handle)
        crate = JsonCrate(file, pages())
        crate.load()
        return crate


def without_numbers(shown: str) -> str:
    """Numbers of items, and the order in which a file has them, are its own."""
    return re.sub(r"hidden:\w+:\d+", "hidden", shown)


def shown(crate: JsonCrate) -> list[str]:
    def of(value: Declaration | Impl) -> str:
        value = copy.copy(value)
        if isinstance(value, Declaration):
            value.item = {}
        return without_numbers(repr(value))

    items: list[Declaration | Impl] = [*crate.declarations.values(), *crate.aliases.values(), *crate.impls]
    return sorted(map(of, items))


def surface(name: str) -> list[str]:
    found = World(pages())
    found.load([kept(name)])
    surface = surface_of(found, "formats")
    return sorted(map(repr, [*surface.items.values(), *surface.by_path.items(), *surface.kinds.items()]))


def inner(data: dict[str, Any], kind: str, name: str = "") -> dict[str, Any]:
    return next(i["inner"][kind] for i in data["index"].values() if kind in i["inner"] and i["crate_id"] == 0 and (not name or i["name"] == name))


class Formats(unittest.TestCase):
    def changed(self, change: Callable[[dict[str, Any]], object], number: int = 60) -> JsonCrate:
        data = data_of("formats")
        data["format_version"] = number
        change(data)
        return read(data)

    def refused(self, what: str, change: Callable[[dict[str, Any]], object]) -> None:
        with self.assertRaisesRegex(BadInput, what):
            self.changed(change)

    def test_two_numbers_are_read_alike(self) -> None:
        self.assertEqual([data_of(name)["format_version"] for name in ("formats.37", "formats")], [37, 57])
        self.assertEqual(shown(read(data_of("formats.37"))), shown(read(data_of("formats"))))
        self.assertEqual(surface("formats.37"), surface("formats"))

    def test_a_file_of_a_number_that_is_not_known_is_read_where_its_fields_agree(self) -> None:
        wanted = shown(read(data_of("formats")))
        for number in (38, 44, 56, 58, 99):
            self.assertEqual(shown(self.changed(lambda data: None, number)), wanted)

    def test_what_no_answer_looks_at_may_change(self) -> None:
        def change(data: dict[str, Any]) -> None:
            data["rustdoc"] = {"is": "new"}
            inner(data, "struct", "Unit")["stability"] = None
            inner(data, "trait", "Marker")["is_new"] = False
            for item in data["index"].values():
                item["docs"] = {"text": "written otherwise"}
                item["attrs"] = []

        self.assertEqual(shown(self.changed(change)), shown(read(data_of("formats"))))

    def test_a_name_of_before_is_read(self) -> None:
        def rename(value: Any) -> Any:
            if isinstance(value, dict):
                value = {k: rename(v) for k, v in value.items()}
                if set(value) == {"path", "id", "args"}:
                    value["name"] = value.pop("path")
                    value["args"] = value["args"] or {"angle_bracketed": {"args": [], "constraints": []}}
                return value
            return [rename(v) for v in value] if isinstance(value, list) else value

        def change(data: dict[str, Any]) -> None:
            data["index"] = rename(data["index"])

        self.assertEqual(shown(self.changed(change, 42)), shown(read(data_of("formats"))))

    def test_columns_that_begin_with_0_are_put_right(self) -> None:
        for name in ("formats.37", "formats"):
            place = read(data_of(name)).declarations["formats::Unit"].place
            assert place is not None
            self.assertEqual(place.column, 1)

    def test_a_field_that_is_missing_is_named(self) -> None:
        self.refused("a trait has no field `is_dyn_compatible`", lambda data: inner(data, "trait").pop("is_dyn_compatible"))
        self.refused("an impl has no field `is_negative`", lambda data: inner(data, "impl").pop("is_negative"))
        self.refused("a list of parameters has no field `where_predicates`", lambda data: inner(data, "struct")["generics"].pop("where_predicates"))
        self.refused("an array has no field `len`", lambda data: inner(data, "struct_field", "second")["array"].pop("len"))

    def test_a_field_of_another_kind_is_named(self) -> None:
        def as_words(data: dict[str, Any]) -> None:
            inner(data, "trait", "Marker")["is_unsafe"] = "unsafe"

        def as_text(data: dict[str, Any]) -> None:
            for item in data["index"].values():
                item["id"] = f"0:{item['id']}"

        self.refused("'unsafe' stands where bool was known", as_words)
        self.refused("stands where int was known", as_text)

    def test_a_new_field_that_says_something_is_named(self) -> None:
        def new(data: dict[str, Any]) -> None:
            inner(data, "impl")["holds_only_on"] = ["linux"]

        self.refused("an impl has a field `holds_only_on`", new)

    def test_a_variant_that_is_not_known_is_named(self) -> None:
        def type_(data: dict[str, Any]) -> None:
            inner(data, "struct_field", "first").clear()
            inner(data, "struct_field", "first")["unsafe_binder"] = {"generic": "T"}

        def modifier(data: dict[str, Any]) -> None:
            inner(data, "assoc_type", "Unit")["bounds"][0]["trait_bound"]["modifier"] = "async"

        self.refused("a type is 'unsafe_binder'", type_)
        self.refused("a bound has the modifier 'async'", modifier)

    def test_a_refusal_has_both_numbers_and_the_release_to_install(self) -> None:
        self.refused(r"format number 60, which is not as known here \(57, rustdoc 1.95 and 1.96\): .*`rustup toolchain install 1.95`",
                     lambda data: inner(data, "impl").pop("is_negative"))

    def test_each_class_has_a_name_and_fields_of_known_types(self) -> None:
        classes = [value for value in vars(rustdoc_types).values() if is_typeddict(value)]
        self.assertGreater(len(classes), 40)
        for form in classes:
            self.assertTrue(form.__doc__ and "dict(" not in form.__doc__, form)
            self.assertTrue(get_type_hints(form), form)

    def test_numbers_that_are_too_old_and_other_files_are_refused(self) -> None:
        with self.assertRaisesRegex(BadInput, "below 37 the fields have other names"):
            self.changed(lambda data: None, 36)
        for data in ({}, [], {"format_version": "57"}, "text"):
            with self.assertRaisesRegex(BadInput, "it has no format number"):
                read(data)
