"""Texts that look right and let wrong answers through. The translator does not write them, and its checker refuses each.

C8 to C10 are those of patterns, C11 is a struct that is sized; C1 to C7 as in docs/RUSTDOC.md: a supertrait dropped (twice: `Sup` and `Sized`), fields dropped, two impls with one line, an impl
of an auto trait that the crate has not, a clause turned into its supertrait, a header widened though it can be said.
"""
from __future__ import annotations

import unittest

from ..write.checker import check_texts
from .common import crate_part, texts, translation


class Counterexamples(unittest.TestCase):
    def setUp(self) -> None:
        self.translation = translation("shapes")
        self.good = texts(self.translation)

    def refused(self, mode: str, old: str, new: str, why: str) -> None:
        """The text has the good line, and with the bad one in its place it is refused for that reason."""
        self.assertEqual(self.good[mode].count(old + "\n"), 1, old)
        bad = {**self.good, mode: self.good[mode].replace(old + "\n", new + "\n" if new else "")}
        problems = check_texts(self.translation, bad)
        self.assertTrue(any(why in problem for problem in problems), problems)

    def test_c1_a_supertrait_is_dropped(self) -> None:
        for mode in ("upper", "lower"):
            self.refused(mode, "trait shapes__Sub: shapes__Sup", "trait shapes__Sub", "the supertrait `shapes__Sup` is dropped")

    def test_c1_the_dyn_of_a_trait_with_a_lost_supertrait(self) -> None:
        self.refused("upper", "impl shapes__Show for dyn shapes__Sub", "impl shapes__Show for dyn shapes__Same", "whose supertraits are not all said")

    def test_c2_sized_is_dropped(self) -> None:
        for mode in ("upper", "lower"):
            self.refused(mode, "trait shapes__Small: Sized", "trait shapes__Small", "the supertrait `Sized` is dropped")

    def test_c3_fields_are_dropped(self) -> None:
        for mode in ("upper", "lower"):
            self.refused(mode, "struct shapes__Tail<T>(u8, T)", "struct shapes__Tail<T>", "0 fields, where the crate has 2")
            self.refused(mode, "struct shapes__Tail<T>(u8, T)", "struct shapes__Tail<T>(T, u8)", "a field that is not the crate's")

    def test_c11_a_struct_is_sized_though_its_last_field_may_not_be(self) -> None:
        self.translation = translation("read")
        self.good = texts(self.translation)
        self.refused("lower", "struct read__Ended<Z>(u32, str)" if "struct read__Ended<Z>(u32, str)\n" in self.good["lower"] else "struct read__Ended<Z>(str)",
                     "struct read__Ended<Z>(())", "sized, where its last field is an associated type that may be unsized")

    def test_c11_a_struct_is_sized_though_its_last_field_may_not_be(self) -> None:
        self.translation = translation("read")
        self.good = texts(self.translation)
        self.refused("lower", "struct read__Ended<Z>(str)", "struct read__Ended<Z>(())", "sized, where its last field is an associated type that may be unsized")

    def test_c4_two_impls_get_one_line(self) -> None:
        line = "impl<T> shapes__Local for shapes__Two<T> where T: Sized, T: shapes__Second, T: shapes__Second__Of__Then<Wrap_<Pat3_>>"
        self.refused("upper", line, "", "each impl has its own line")
        self.refused("upper", line, "impl<T> shapes__Local for T", "a header that is not the crate's")

    def test_c5_a_void_impl_of_an_auto_trait(self) -> None:
        line = "impl shapes__Sup for u8"
        self.refused("upper", line, line + "\nimpl Send for shapes__Free where u8: Never_", "each impl has its own line")
        self.refused("upper", "impl<T> Send for shapes__Raw<T> where T: Sized, T: Send", "impl<T> Send for shapes__Raw<T> where u8: Never_", "a void impl")
        self.refused("upper", "impl<I> Send for shapes__Peeked<I> where I: Send, I: Iterator__Item__Then<Wrap_<Pat4_>>", "impl<I> Send for shapes__Peeked<I> where u8: Never_", "a void impl")

    def test_c6_a_clause_becomes_its_supertrait(self) -> None:
        for mode in ("upper", "lower"):
            line = "impl<T> shapes__Rest for shapes__One<T> where T: Sized, T: shapes__Sub"
            self.refused(mode, line, line.replace("T: shapes__Sub", "T: shapes__Sup"), "a clause by `shapes__Sup`, which the impl has not")

    def test_c7_a_header_is_widened(self) -> None:
        for mode in ("upper", "lower"):
            self.refused(mode, "impl shapes__Sup for u8", "impl<T> shapes__Sup for T", "a header that is not the crate's")

    def test_a_clause_is_dropped_without_a_loss_on_record(self) -> None:
        line = "impl<T> shapes__Sup for shapes__One<T> where T: Sized, T: shapes__Sup"
        self.refused("upper", line, "impl<T> shapes__Sup for shapes__One<T> where T: Sized", "clauses are dropped")
        self.refused("lower", line, "impl<T> shapes__Sup for shapes__One<T> where T: shapes__Sup", "clauses are dropped")
        self.refused("lower", line, line.replace("T: shapes__Sup", "u8: shapes__Sup"), "a clause by `shapes__Sup`")

    def test_an_impl_with_a_loss_in_the_lower_text(self) -> None:
        lossy = "impl<X1_> shapes__Draw for X1_"
        self.assertIn(lossy, self.good["upper"])
        self.assertNotIn(lossy, crate_part(self.good["lower"], "shapes"))
        line = "impl<W> Default for" if "impl<W> Default for" in self.good["lower"] else "impl shapes__Sup for u8"
        self.refused("lower", line, line + "\n" + lossy, "each impl has its own line")

    def test_c9_a_pattern_means_something_else(self) -> None:
        line = "impl<H> Apply_<H> for Pat1_ where H: Debug"
        for mode in ("upper", "lower"):
            self.refused(mode, line, "impl<H> Apply_<H> for Pat1_ where H: Clone", "a clause by `Clone`, which the impl has not")
            self.refused(mode, line, "impl Apply_<u8> for Pat1_", "an equation that the impl has not")
            self.refused(mode, line, "impl<H> Apply_<H> for Pat2_", "a pattern with two meanings")

    def test_c10_an_impl_asks_patterns_of_another_value(self) -> None:
        line = "impl<I, K_> Iterator__Item__Then<Wrap_<K_>> for shapes__Peeked<I> where I: Sized, I: Iterator, "
        for mode in ("upper", "lower"):
            self.refused(mode, line + "I: Iterator__Item__Then<Wrap_<K_>>", line + "K_: Apply_<u8>", "of another value than the impl's")
            self.refused(mode, line + "I: Iterator__Item__Then<Wrap_<K_>>", line[:-2], "no pattern is asked")

    def test_c8_what_stands_around_patterns(self) -> None:
        """Without these no impl that may come would be seen, or patterns had other impls."""
        self.refused("upper", "struct Wrap_<K>", "fundamental struct Wrap_<K>", "`Wrap_` are not")
        self.refused("upper", "fundamental trait Apply_<V>", "trait Apply_<V>", "`Apply_`")

    def test_faults_and_limits_are_seen(self) -> None:
        self.refused("upper", "struct shapes__Free(u8)", "struct shapes__Free(u9)", "the name `u9` is not known")
        self.refused("upper", "struct shapes__Free(u8)", "struct shapes__Free(shapes__Two<u8>)", "expected at")
        self.refused("upper", "impl shapes__Sup for u8", "impl Send for Vec<u8, Global>", "for no struct of its crate")
        self.refused("upper", "crate std uses alloc", "crate std", "is not seen by crate shapes")
        self.refused("upper", "struct shapes__Free(u8)", "struct shapes__Free(" + "(" * 70 + "u8" + ",)" * 70 + ")", "more than 64 deep")
