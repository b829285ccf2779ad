"""The readers: headers as text, pages of std, rustdoc's JSON, cargo's metadata."""
from __future__ import annotations

import json
import os
import tempfile
import unittest

from ..read.headers import Named_, NotUnderstood, Reader
from ..read.html_docs import Pages, json_folder, with_patterns
from ..read.rustdoc_json import JsonCrate
from ..read.standard import Standard
from ..read.standard_json import JsonStandard
from ..read.terms import Array, BadInput, Bound, Dyn, Function, Impl, Named, Parameter, Pointer, Primitive, Projection, Reference, Tuple, UNIT, Unknown
from .common import kept

ITEMS = {"Vec": "struct", "Clone": "trait", "Iterator": "trait", "Send": "trait"}


def lookup(words: list[str]) -> Named_:
    name = words[-1]
    return (ITEMS[name], name, name) if name in ITEMS else ("word", None, name)


def read(text: str) -> Reader:
    return Reader(text, lookup, unknowns=True)


class Headers(unittest.TestCase):
    def test_types(self) -> None:
        for text, term in [
            ("&'a mut [u8; 4]", Reference(True, Array(Primitive("u8"), "4"))),
            ("*const T", Pointer(False, Parameter("T"))),
            ("Vec<?x>", Named("Vec", (Unknown("x"),))),
            ("(u8,)", Tuple((Primitive("u8"),))),
            ("(u8)", Primitive("u8")),
            ("unsafe extern fn(x: u8) -> T", Function((Primitive("u8"),), Parameter("T"), 'unsafe extern "C" ')),
            ('extern "C-unwind" fn()', Function((), UNIT, 'extern "C-unwind" ')),
            ("<T as Iterator>::Item", Projection(Parameter("T"), Bound("Iterator"), "Item")),
            ("T::Item", Projection(Parameter("T"), None, "Item")),
            ("dyn for<'a> Iterator<Item = u8> + Send + 'static", Dyn((Bound("Iterator", (), (("Item", Primitive("u8")),)), Bound("Send")))),
        ]:
            self.assertEqual(read(text).type(), term, text)

    def test_generics_and_clauses(self) -> None:
        reader = read("<'a, T: ?Sized + Clone, const N: usize> where T: Iterator<Item = u8>, for<'b> Vec<T>: Clone,")
        params, predicates = reader.generics()
        self.assertEqual([(p.kind, p.name) for p in params], [("type", "T"), ("const", "N")])
        self.assertEqual(predicates, [(Parameter("T"), Bound("?Sized", maybe=True)), (Parameter("T"), Bound("Clone"))])
        self.assertTrue(reader.eat("where"))
        self.assertEqual([b.key for _, b in reader.where()], ["Iterator", "Clone"])

    def test_what_is_not_understood_is_said(self) -> None:
        for text in ("Vec<u8", "fn(u8", "(u8 u8)", "[u8; 4", "+"):
            with self.assertRaises(NotUnderstood, msg=text):
                reader = read(text)
                reader.type()
                reader.need(";")


class StdPages(unittest.TestCase):
    def setUp(self) -> None:
        self.standard = Standard(Pages(kept("std")))

    def test_one_item_has_one_key(self) -> None:
        pages = self.standard.pages
        self.assertEqual(pages.key("core/panic/unwind_safe/trait.UnwindSafe.html"), pages.key("core/panic/trait.UnwindSafe.html")
                         or pages.key("core/panic/unwind_safe/trait.UnwindSafe.html"))
        self.assertIsNone(pages.key("core/no/such/struct.Page.html"))

    def test_declarations(self) -> None:
        vec = self.standard.declaration(self.standard.pages.key("alloc/vec/struct.Vec.html") or "")
        self.assertEqual([p.name for p in vec.params], ["T", "A"])
        self.assertEqual(vec.crate, "alloc")
        send = self.standard.declaration(self.standard.pages.key("core/marker/trait.Send.html") or "")
        self.assertTrue(send.is_auto)
        boxed = self.standard.declaration(self.standard.pages.key("alloc/boxed/struct.Box.html") or "")
        self.assertTrue(boxed.is_fundamental)

    def test_a_header_for_tuples_stands_for_twelve(self) -> None:
        page = "core/clone/trait.Clone.html"
        header = 'impl&lt;T, E&gt; <a class="trait" href="trait.Clone.html">Clone</a> for (E₁, E₂, …, Eₙ) where E: <a class="trait" href="trait.Clone.html">Clone</a>'
        impls = list(self.standard.expanded(header, page, "", "core"))
        self.assertEqual(len(impls), 12)
        self.assertEqual(impls[2].self_type, Tuple((Parameter("E1"), Parameter("E2"), Parameter("E3"))))
        self.assertEqual([s for s, _ in impls[2].predicates], [Parameter("E1"), Parameter("E2"), Parameter("E3")])

    def test_impls_of_other_crates_are_found(self) -> None:
        key = self.standard.pages.key("core/clone/trait.Clone.html") or ""
        homes = {impl.crate for _, impl in self.standard.impls_of_trait(key)}
        self.assertIn("alloc", homes)
        self.assertTrue(any("Vec" in header.text for header in self.standard.found))

    def test_pattern_types_stand_as_rust_writes_them(self) -> None:
        held = "is TyPat { hir_id: HirId(DefId(0:9 ~ core[64bb]::pat::{impl#3}).12), kind: NotNull, span: src/pat.rs:87:59: 87:64 (#0) }"
        section = '<section id="impl-X" class="impl"><h3 class="code-header">impl&lt;T&gt; X for *const T ' + held + "</h3></section><h2 "
        [(header, _)] = Pages.impl_sections(section)
        self.assertEqual(header, "impl&lt;T&gt; X for *const T is !null")
        impl = self.standard.impl(header, "core/marker/trait.Unpin.html", "", "core")
        self.assertEqual((impl.source, impl.error), ("std: impl<T> X for *const T is !null", "a pattern type"))
        self.assertEqual(with_patterns(f"impl X&lt;T {held}&gt; for U {held.replace('NotNull', 'Or([])')}"), "impl X&lt;T is !null&gt; for U is _")

    def test_values_of_references_stand_on_the_page_of_what_they_refer_to(self) -> None:
        page = "alloc/vec/struct.Vec.html"
        pages = Pages(kept("std"))
        assert pages.archive is not None
        header, value = "impl&lt;'a, T, A&gt; X for &amp;'a Vec&lt;T, A&gt;", "type Item = &amp;'a T"
        pages.archive[page] += (f'<section id="impl-X" class="impl"><h3 class="code-header">{header}</h3></section>'
                                f'<section id="associatedtype"><h4 class="code-header">{value}</h4></section>')
        whole = Named(pages.key(page) or "", (Parameter("T"), Parameter("A")))
        for impl in (Impl("alloc", f"std: {Pages.plain(header)}", Bound("X"), Reference(False, whole)),
                     Impl("alloc", f"std: {Pages.plain(header)}", Bound("X", (whole,)), Parameter("T"))):
            self.assertEqual(Standard(pages).associated_type(impl, "Item"), Reference(False, Parameter("T")))
            self.assertIsNone(Standard(pages).associated_type(impl, "Other"))

    def test_boxed_slices_are_narrowed(self) -> None:
        page = "alloc/boxed/struct.Box.html"
        key = self.standard.pages.key(page) or ""
        impl = self.standard.impl("impl&lt;T&gt; X for T", page, "", "alloc")
        impl.trait = Bound("std:src/core/iter/traits/collect.rs.html#1@trait.IntoIterator")
        from ..read.terms import Slice
        impl.self_type = Reference(False, Named(key, (Slice(Parameter("T")), Parameter("A"))))
        self.standard.narrow(impl)
        self.assertTrue(impl.narrowed)


class Json(unittest.TestCase):
    def test_what_is_no_json_of_a_whole_crate_is_refused(self) -> None:
        with open(kept("before"), encoding="utf-8") as handle:
            data = json.load(handle)
        with tempfile.TemporaryDirectory() as folder:
            for change, why in [({"includes_private": False}, "private items")]:
                file = os.path.join(folder, "x.json")
                with open(file, "w", encoding="utf-8") as handle:
                    json.dump({**data, **change}, handle)
                with self.assertRaisesRegex(BadInput, why):
                    JsonCrate(file, Pages(kept("std")))
            with open(file, "w", encoding="utf-8") as handle:
                handle.write("{")
            with self.assertRaisesRegex(BadInput, "cannot be read"):
                JsonCrate(file, Pages(kept("std")))

    def test_private_fields_and_public_paths(self) -> None:
        crate = JsonCrate(kept("before"), Pages(kept("std")))
        crate.load()
        packet = next(d for d in crate.declarations.values() if d.name == "Packet")
        self.assertEqual(len(packet.fields), 1)
        self.assertEqual(packet.public_path, ["before", "Packet"])
        self.assertIsNone(next(d for d in crate.declarations.values() if d.name == "Seal").public_path)


class StdJson(unittest.TestCase):
    def test_std_by_the_reader_of_crates(self) -> None:
        # A crate of ours in the place of std's three: keys, homes, unread fields, impls by their traits.
        with tempfile.TemporaryDirectory() as folder:
            for name in ("core", "alloc", "std"):
                with open(kept("before"), encoding="utf-8") as handle:
                    data = json.load(handle)
                data["includes_private"] = False
                data["index"][str(data["root"])]["name"] = name
                for path in data["paths"].values():
                    path["path"] = [name, *path["path"][1:]] if path["crate_id"] == 0 else path["path"]
                data["index"] = {n: i for n, i in data["index"].items() if i["name"] != "Encode" or name == "core"}
                with open(os.path.join(folder, name + ".json"), "w", encoding="utf-8") as handle:
                    json.dump(data, handle)
            self.assertEqual(json_folder(os.path.join(os.path.dirname(folder), "html")), folder if os.path.basename(folder) == "json" else None)
            standard = JsonStandard(folder)
            key = standard.pages.key("core/struct.Packet.html") or ""
            self.assertEqual(key, "std:json/core/Packet@struct.Packet")
            self.assertEqual(standard.pages.rust_path(key), ["core", "Packet"])
            self.assertEqual((standard.declaration(key).crate, standard.declaration(key).fields), ("alloc", []))
            encode = standard.pages.key_of_path(["core", "Encode"], "trait") or ""
            self.assertTrue(any(isinstance(i.self_type, Primitive) for _, i in standard.impls_of_trait(encode)))
            self.assertEqual(len(standard.found), 3)
