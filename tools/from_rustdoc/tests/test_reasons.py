"""Why questions on the crate `reasons` have no proof, or by what: each step as it stands in crates/reasons.rs, with its line. The first step of
each is what rustc's error names, worked out by hand."""
from __future__ import annotations

import unittest
from typing import Optional

from ..ask.answer import Answerer
from ..ask.questions import QuestionReader
from ..ask.reasons import why
from ..model.world import World
from .common import EXPLAINS, PROGRAM, WHY_NO_EXPLANATION, world


@unittest.skipIf(WHY_NO_EXPLANATION, WHY_NO_EXPLANATION)
class Reasons(unittest.TestCase):
    world: World

    @classmethod
    def setUpClass(cls) -> None:
        cls.world = world("reasons")

    def told(self, written: str, with_proof: bool = False, of: Optional[World] = None) -> list[str]:
        """Each step with its line in the source."""
        (question,) = QuestionReader(of or self.world).read_all(written)
        notes = why(Answerer(of or self.world, PROGRAM).answer(question), EXPLAINS, with_proof)
        return [note.text + "".join(f" (line {span.place.line})" for span in note.spans) for note in notes]

    def test_why_a_type_is_not_send(self) -> None:
        self.assertEqual(self.told("reasons::Either<u8>: Send"), [
            "`Rc<u8>: Send` does not hold: std has `impl<T, A> !Send for Rc<T, A>`",
            "required for `reasons::Inner: Send`: its field `count` is `Rc<u8>` (line 4)",
            "required for `Vec<reasons::Inner>: Send`, by `impl<T, A> Send for Vec<T, A>` (std)",
            "required for `reasons::Outer<u8>: Send`: its field `inner` is `Vec<reasons::Inner>` (line 5)",
            "required for `reasons::Either<u8>: Send`: its field `Right.outer` is `reasons::Outer<u8>` (line 6)"])

    def test_a_type_in_itself_is_no_reason(self) -> None:
        self.assertEqual(self.told("reasons::Cycle: Send"), [
            "`Rc<u8>: Send` does not hold: std has `impl<T, A> !Send for Rc<T, A>`",
            "required for `reasons::Cycle: Send`: its field `count` is `Rc<u8>` (line 7)"])

    def test_types_that_name_each_other_are_no_reason(self) -> None:
        """Whichever of the two is cut: `Near` and `Here` are."""
        found = world("read")
        rc = "`Rc<u8>: Sync` does not hold: std has `impl<T, A> !Sync for Rc<T, A>`"
        far, here = (f"required for `read::{name}: Sync`: its field `count` is `Rc<u8>` (line {line})" for name, line in (("Far", 25), ("Here", 30)))
        self.assertEqual(self.told("read::Far: Sync", of=found), [rc, far])
        self.assertEqual(self.told("read::Here: Sync", of=found), [rc, here])
        self.assertEqual(self.told("read::Near: Sync", of=found), [
            rc, far, "required for `Box<read::Far>: Sync`, by `impl<T, A> Sync for Box<T, A>` (std)",
            "required for `Option<Box<read::Far>>: Sync`, by `impl<T> Sync for Option<T>` (std)",
            "required for `read::Near: Sync`: its field `next` is `Option<Box<read::Far>>` (line 24)"])
        self.assertEqual(self.told("read::There: Sync", of=found), [
            rc, here, "required for `Vec<read::Here>: Sync`, by `impl<T, A> Sync for Vec<T, A>` (std)",
            "required for `read::There: Sync`: its field `all` is `Vec<read::Here>` (line 31)"])

    def test_the_field_is_that_of_the_associated_type(self) -> None:
        self.assertEqual(self.told("read::Cache<read::Local>: Sync", of=world("read"))[-1],
                         "required for `read::Cache<read::Local>: Sync`: its field `conns` is `Vec<<read::Local as read::Backend>::Conn>` (line 29)")

    def test_impls_have_their_lines(self) -> None:
        self.assertEqual(self.told("Option<Vec<u16>>: reasons::Show")[:3], [
            "`u16: reasons::Show` does not hold",
            "required for `Vec<u16>: reasons::Show`, by `impl<T> reasons::Show for Vec<T>` (line 10)",
            "required for `Option<Vec<u16>>: reasons::Show`, by `impl<T> reasons::Show for Option<T>` (line 11)"])

    def test_what_the_clauses_lack_is_named(self) -> None:
        self.assertIn("ask it with `where T: reasons::Show`", self.told("<T> Vec<T>: reasons::Show"))
        self.assertEqual(self.told("<I: Iterator> reasons::All<I>: reasons::Show")[0], "`<I as Iterator>::Item: Clone` does not hold")

    def test_patterns_are_told_as_associated_types(self) -> None:
        self.assertEqual(self.told("reasons::All<alloc::vec::IntoIter<reasons::NoClone>>: reasons::Show")[:3], [
            "`reasons::NoClone: Clone` does not hold",
            "it is asked of the value of `<IntoIter<reasons::NoClone> as Iterator>::Item`",
            "required for `reasons::All<IntoIter<reasons::NoClone>>: reasons::Show`, by `impl<I> reasons::Show for reasons::All<I>` (line 13)"])
        self.assertEqual(self.told("reasons::Fun<fn(u8) -> u8>: reasons::Show")[0], "`<fn(u8) -> u8 as FnOnce<(u8,)>>::Output == bool` does not hold")

    def test_a_value_that_the_clauses_give_has_a_reason_of_its_own(self) -> None:
        self.assertEqual(self.told("<I: Iterator<Item = Vec<reasons::NoClone>>> reasons::All<I>: reasons::Show")[:4], [
            "`reasons::NoClone: Clone` does not hold", "required for `Vec<reasons::NoClone>: Clone`, by `impl<T, A> Clone for Vec<T, A>` (std)",
            "it is asked of the value of `<I as Iterator>::Item`",
            "required for `reasons::All<I>: reasons::Show`, by `impl<I> reasons::Show for reasons::All<I>` (line 13)"])

    def test_a_trait_that_nothing_implements_is_named(self) -> None:
        self.assertIn("nothing that is seen implements `reasons::Need`", self.told("core::cell::Cell<u8>: reasons::Show"))

    def test_the_types_that_have_the_trait_are_the_nearest(self) -> None:
        self.assertIn("`ab::Ta` is implemented for `user::Mine<ab::Kept<u8>>`", self.told("user::Held<u8>: ab::Ta", of=world("ab", "user"))[-1])

    def test_a_dyn_has_the_auto_traits_that_it_names(self) -> None:
        self.assertEqual(self.told("dyn Iterator<Item = u8>: Send"), [])
        self.assertEqual(self.told("Box<dyn Iterator<Item = u8>>: Send"), [
            "`dyn Iterator<Item = u8>: Send` does not hold", "required for `Box<dyn Iterator<Item = u8>>: Send`, by `impl<T, A> Send for Box<T, A>` (std)"])

    def test_no_name_of_the_text_is_told(self) -> None:
        for written in ("reasons::Either<u8>: Sync", "Vec<reasons::NoClone>: Clone", "reasons::All<u8>: reasons::Show", "Option<reasons::Inner>: Clone",
                        "reasons::Fun<u8>: reasons::Show", "&reasons::Inner: Send", "reasons::Outer<*const u8>: Send"):
            for line in self.told(written):
                self.assertNotRegex(line, r"_\b|__|Never|line \d+ of|<stdin>", written)

    def test_a_proof_is_told_where_it_is_asked_for(self) -> None:
        self.assertEqual(self.told("Option<Vec<u8>>: reasons::Show"), [])
        self.assertEqual(self.told("Option<Vec<u8>>: reasons::Show", with_proof=True), [
            "`Option<Vec<u8>>: reasons::Show`: `impl<T> reasons::Show for Option<T>` (line 11)",
            "  `Vec<u8>: reasons::Show`: `impl<T> reasons::Show for Vec<T>` (line 10)",
            "    `u8: reasons::Show`: `impl reasons::Show for u8` (line 9)"])
