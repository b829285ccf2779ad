"""Queries of a crate: its public paths, types as Rust writes them, and what is drawn."""
from __future__ import annotations

import os
import unittest
from typing import Any

from from_rustdoc.read.proved import TOP

from ..documents import Crate, std_path
from ..generate import Query, Generator
from ..rust import NotWritten, Printer, parameters

STORED = os.path.join(TOP, "tools", "from_rustdoc", "tests", "json")


def shapes() -> Crate:
    return Crate(os.path.join(STORED, "shapes.json"))


def crate_of(items: dict[int, dict[str, Any]]) -> Crate:
    """A crate of items by their numbers; 0 is its root."""
    crate = Crate.__new__(Crate)
    crate.others, crate.root, crate.name, crate.version = None, 0, "own", "1.0.0"
    crate.index = {number: {"crate_id": 0, "visibility": "public", **item} for number, item in items.items()}
    crate.paths, crate.external = {}, {}
    return crate


def item(name: str, kind: str, **more: Any) -> dict[str, Any]:
    return {"name": name, "inner": {kind: more}}


class PublicPaths(unittest.TestCase):
    def test_items_of_a_stored_crate(self) -> None:
        found = {"::".join(path) for path in shapes().public.values()}
        self.assertLessEqual({"shapes::Tree", "shapes::Bits", "shapes::Shape", "shapes::counterexamples::One", "shapes::counterexamples::Sup"}, found)
        self.assertNotIn("shapes::One", found)

    def test_reexports_by_name_and_by_glob_private_modules_and_the_shortest_path(self) -> None:
        crate = crate_of({
            0: item("own", "module", items=[1, 2, 3, 8]),
            1: {**item("inner", "module", items=[4, 5]), "visibility": "default"},
            2: {"name": None, "inner": {"use": {"id": 4, "name": "Renamed", "is_glob": False}}},
            3: {"name": None, "inner": {"use": {"id": 6, "name": "open", "is_glob": True}}},
            4: item("Named", "struct"),
            5: item("Hidden", "struct"),
            6: {**item("open", "module", items=[7]), "visibility": "default"},
            7: item("Seen", "enum"),
            8: item("deep", "module", items=[9]),
            9: {"name": None, "inner": {"use": {"id": 7, "name": "Seen", "is_glob": False}}}})
        self.assertEqual({number: "::".join(path) for number, path in crate.public.items()}, {4: "own::Renamed", 7: "own::Seen"})

    def test_paths_of_std_leave_private_modules_out(self) -> None:
        self.assertEqual(std_path("core::iter::traits::iterator::Iterator".split("::")), ["core", "iter", "Iterator"])
        self.assertEqual(std_path("alloc::vec::Vec".split("::")), ["alloc", "vec", "Vec"])


class Written(unittest.TestCase):
    def written(self, term: Any, **values: str) -> str:
        return Printer(shapes(), values).type(term)

    def test_types(self) -> None:
        number = next(n for n, path in shapes().public.items() if path == ["shapes", "Tree"])
        tree = {"resolved_path": {"path": "Tree", "id": number, "args": {"angle_bracketed": {"args": [{"type": {"generic": "T"}}], "constraints": []}}}}
        function = {"function_pointer": {"header": {"is_unsafe": False, "abi": "Rust"}, "generic_params": [{"name": "'a"}],
                                         "sig": {"inputs": [["_", {"borrowed_ref": {"lifetime": "'a", "is_mutable": False, "type": {"primitive": "u8"}}}]],
                                                 "output": {"primitive": "bool"}}}}
        for term, text in [(tree, "shapes::Tree<T>"), ({"tuple": [{"primitive": "u8"}]}, "(u8,)"), ({"primitive": "never"}, "!"),
                           ({"borrowed_ref": {"lifetime": "'a", "is_mutable": True, "type": {"slice": {"primitive": "u8"}}}}, "&'static mut [u8]"),
                           ({"array": {"type": {"primitive": "u8"}, "len": "N"}}, "[u8; N]"), (function, "fn(&u8) -> bool")]:
            self.assertEqual(self.written(term), text)
        self.assertEqual(self.written(tree, T="Vec<u8>"), "shapes::Tree<Vec<u8>>")

    def test_what_no_query_writes(self) -> None:
        for term in ("infer", {"impl_trait": []}, {"array": {"type": {"primitive": "u8"}, "len": "N + 1"}},
                     {"function_pointer": {"header": {"is_unsafe": True, "abi": "Rust"}, "generic_params": [], "sig": {"inputs": [], "output": None}}}):
            with self.assertRaises(NotWritten, msg=str(term)):
                self.written(term)

    def test_parameters_and_their_bounds(self) -> None:
        bound = {"trait_bound": {"trait": {"path": "Sized", "id": 1, "args": None}, "generic_params": [], "modifier": "maybe"}}
        other = {"trait_bound": {"trait": {"path": "Clone", "id": 2, "args": None}, "generic_params": [], "modifier": "none"}}
        found = parameters({"params": [{"name": "'a", "kind": {"lifetime": {"outlives": []}}},
                                       {"name": "T", "kind": {"type": {"bounds": [bound, other], "default": None, "is_synthetic": False}}},
                                       {"name": "N", "kind": {"const": {"type": {"primitive": "usize"}, "default": None}}}], "where_predicates": []})
        self.assertEqual((found.names, found.consts, found.unsized), (["T", "N"], {"N": "usize"}, {"T"}))
        self.assertEqual([b["trait_bound"]["trait"]["path"] for b in found.bounds_of("T")], ["Clone"])


class Drawn(unittest.TestCase):
    def test_a_query_as_the_translator_reads_it_and_as_rustc_does(self) -> None:
        query = Query("A + B", "own::Pair<T, N>", ("Clone", "Send"), ("T", "const N: usize"), ("T: Clone",))
        self.assertEqual(query.written(), "<T, const N: usize> own::Pair<T, N>: Clone + Send where T: Clone")
        self.assertEqual(query.parts(), ["<T, const N: usize> own::Pair<T, N>: Clone where T: Clone", "<T, const N: usize> own::Pair<T, N>: Send where T: Clone"])
        self.assertEqual(query.rust(7), [
            "fn n7<X_: ?Sized, T: 'static, const N: usize>() where X_: Clone + Send, T: Clone {}",
            "fn w7<T: 'static, const N: usize>(_: &own::Pair<T, N>) where T: Clone {}",
            "fn q7<T: 'static, const N: usize>() where T: Clone { n7::<own::Pair<T, N>, T, N>() }"])

    def test_the_same_seed_draws_the_same_queries_and_each_once(self) -> None:
        crate = shapes()
        first, again, other = (Generator(crate, seed).queries(120) for seed in ("a", "a", "b"))
        self.assertEqual(first, again)
        self.assertNotEqual(first, other)
        self.assertEqual(len({query.written() for query in first}), 120)

    def test_all_kinds_are_drawn(self) -> None:
        kinds = {query.kind for query in Generator(shapes(), "kinds").queries(300)}
        self.assertEqual(kinds, {"auto trait", "trait of std", "own trait", "of an impl", "associated type", "projection", "function", "A + B"})

    def test_a_crate_without_public_items_has_no_queries(self) -> None:
        self.assertEqual(Generator(crate_of({0: item("own", "module", items=[])}), "none").queries(10), [])
