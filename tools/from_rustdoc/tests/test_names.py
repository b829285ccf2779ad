"""What names of questions stand for, in the crate `names` and what it has of `ab`. What rustc takes is in crates/names.rs."""
from __future__ import annotations

import os
import unittest
from unittest import mock

from ..ask.names import PRELUDES, Names, paths_of, prelude
from ..ask.questions import QuestionReader
from ..read.cargo import Links, docs_folder
from ..read.html_docs import LINKED, Pages
from ..read.terms import BadInput
from .common import world

OF_STD = {"Option": "std:src/core/option.rs", "Box": "std:src/alloc/boxed.rs", "Rc": "std:src/alloc/rc.rs", "alloc::rc::Rc": "std:src/alloc/rc.rs"}


def no_docs() -> str:
    try:
        docs_folder(None)
        return ""
    except BadInput as error:
        return str(error)


class Named(unittest.TestCase):
    def setUp(self) -> None:
        self.names = Names(world("ab", "names"))

    def key(self, written: str) -> str:
        return self.names.key(written.split("::"))

    def test_own_items_go_before_the_preludes(self) -> None:
        self.assertEqual(self.key("Vec"), "names::Vec")
        self.assertEqual(self.key("alloc::vec::Vec").split("@")[1], "struct.Vec")
        for written, start in OF_STD.items():
            self.assertTrue(self.key(written).startswith(start), self.key(written))

    def test_a_crate_that_the_own_one_uses_does_not_go_before_the_preludes(self) -> None:
        names = Names(world("ab", "names", "user"))
        self.assertEqual((names.own, names.key(["Vec"])), (["names", "user"], "names::Vec"))
        names.own = ["user"]
        self.assertEqual(names.key(["Vec"]).split("@")[1], "struct.Vec")

    def test_what_may_be_two_things_is_asked_back(self) -> None:
        for written, why in (("Debug", "`Debug` may be `names::Debug` or `std::fmt::Debug`: write its path"),
                             ("Twice", "`Twice` may be `names::inner::Twice` or `names::other::Twice`: write its path")):
            with self.assertRaisesRegex(BadInput, f"^{why}$"):
                self.key(written)
        with self.assertRaisesRegex(BadInput, "may be `names::Debug` or `std::fmt::Debug`"):
            QuestionReader(self.names.world).read("names::Only: Debug")

    def test_what_only_one_item_is_called_needs_no_path(self) -> None:
        self.assertEqual([self.key(name) for name in ("Slot", "Wide", "Hidden", "Same")], ["names::inner::Slot", "ab::Wide", "names::private::Hidden", "ab::Ta"])

    def test_paths_are_those_by_which_an_item_is_there(self) -> None:
        for written, key in (("names::inner::Slot", "names::inner::Slot"), ("inner::Slot", "names::inner::Slot"), ("crate::inner::Slot", "names::inner::Slot"),
                             ("names::inner::Renamed", "names::Only"), ("names::Seen", "names::private::Hidden"), ("names::private::Hidden", "names::private::Hidden"),
                             ("inner::Bytes", "names::inner::Bytes")):
            self.assertEqual(self.key(written), key, written)
        for written in ("names::Slot", "names::nothing::here::Slot", "names::Hidden", "nothing::Slot", "std::nothing::Vec", "core::vec::Vec", "names::Ta", "fmt::Debug"):
            with self.assertRaisesRegex(BadInput, "is not known: is it `", msg=written):
                self.key(written)

    def test_items_that_core_and_alloc_document_elsewhere_are_found_in_std(self) -> None:
        there = {"std::collections::BTreeMap": "std:src/alloc/collections/btree/map.rs#1@struct.BTreeMap", "std::vec::Vec": "std:src/alloc/vec/mod.rs#1@struct.Vec"}
        with mock.patch.object(self.names.world.pages, "key_of_any_kind", side_effect=lambda words: there.get("::".join(words))):
            self.assertEqual([self.names.of_path(path.split("::")) for path in ("std::collections::BTreeMap", "alloc::collections::BTreeMap", "core::vec::Vec")],
                             [there["std::collections::BTreeMap"], there["std::collections::BTreeMap"], None])

    def test_items_of_other_crates_are_there_by_what_exports_them(self) -> None:
        for written, key in (("names::Sb", "ab::Sb"), ("names::Same", "ab::Ta"), ("names::all::Wide", "ab::Wide"), ("names::raw::Kept", "ab::Kept"),
                             ("all::Ta", "ab::Ta")):
            self.assertEqual(self.key(written), key, written)

    def test_of_a_crate_that_is_not_given_it_says_so(self) -> None:
        names = Names(world("names"))
        with self.assertRaisesRegex(BadInput, "`names::Sb` cannot be asked: not given: ab::Sb"):
            names.key(["names", "Sb"])


class Preludes(unittest.TestCase):
    def test_an_edition_has_its_own(self) -> None:
        found = world("ab", "names")
        for edition, known in (("2018", []), ("2021", ["TryFrom"]), ("2024", ["TryFrom", "Future"])):
            found.links = Links(editions={"names": edition})
            names = Names(found)
            self.assertEqual([n for n in ("TryFrom", "Future") if n in names.prelude], known)
            self.assertEqual([n for n in ("TryFrom", "Future") if n not in names.known], known)

    def test_which_crates_are_the_own_ones_cargo_says(self) -> None:
        found = world("ab", "names")
        for editions, own in (({}, ["names"]), ({"names": "2021"}, ["names"]), ({"ab": "2021"}, ["ab"]), ({"probe": "2021"}, [])):
            found.links = Links(editions=editions)
            self.assertEqual(Names(found).own, own)
        self.assertEqual(Names(found).key(["Vec"]).split("@")[1], "struct.Vec")

    @unittest.skipIf(no_docs(), no_docs())
    def test_they_have_what_std_exports_there(self) -> None:
        pages = Pages(docs_folder(None))
        listed = {page: self.exported(pages, *page.split("/")) for page in ("std/v1", "core/rust_2021", "core/rust_2024")}
        self.assertEqual(set(paths_of(PRELUDES["2015"])), listed["std/v1"])
        self.assertEqual(set(prelude("2021")), listed["std/v1"] | listed["core/rust_2021"])
        self.assertEqual(set(prelude("2024")), listed["std/v1"] | listed["core/rust_2024"])

    @staticmethod
    def exported(pages: Pages, crate: str, edition: str) -> set[str]:
        """The types and traits that a page of a prelude lists."""
        import re
        text = pages.read(os.path.join(crate, "prelude", edition, "index.html")) or ""
        return {name for kind, name in re.findall(r'<code>pub use [^;]*?<a class="(\w+)" href="[^"#]*"[^>]*>([^<]*)</a>;', text) if kind in LINKED}


if __name__ == "__main__":
    unittest.main()
