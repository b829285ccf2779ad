"""What is written of the crate `shapes`, one item for each encoding and each loss; and std."""
from __future__ import annotations

import os
import unittest
from unittest import mock

from ..ask import questions
from ..ask.program import run
from ..ask.verdicts import refusal
from ..model.world import World
from ..read.proved import proved_program
from ..read.terms import BadInput
from ..report.items import Report
from ..report.messages import Sources, rendered
from ..write import impls, project, render, std_text
from ..write.build import Translation
from ..write.checker import check_texts
from .common import HERE, crate_part, pages, texts, translation, world


class Texts(unittest.TestCase):
    def test_shapes_are_written_as_expected(self) -> None:
        for mode, text in texts(translation("shapes")).items():
            with open(os.path.join(HERE, "expected", f"shapes.{mode}.txt"), encoding="utf-8") as handle:
                self.assertEqual(crate_part(text, "shapes"), handle.read())

    def test_the_texts_keep_the_rules(self) -> None:
        for name in ("shapes", "before", "after"):
            written = texts(translation(name))
            self.assertEqual(check_texts(translation(name), written), [])

    def test_each_impl_is_whole_or_told_with_its_loss(self) -> None:
        found = translation("shapes")
        lines = Report(found).item_lines()
        self.assertEqual(sum(": impl" in line for line in lines), len(found.of_crates))
        self.losses(found, 1)

    def losses(self, found: Translation, count: int) -> None:
        losses = [line for line in Report(found).item_lines() if line.startswith("loss") and ": impl" in line]
        self.assertEqual(len(losses), count)
        self.assertTrue(all("the upper text has it more often" in line for line in losses))

    def test_an_impl_of_more_parameters_than_a_line_may_have_holds_more_often(self) -> None:
        for module in (render, impls, project, questions):
            patch = mock.patch.object(module, "MAXIMAL_PARAMS", 16)
            patch.start()
            self.addCleanup(patch.stop)
        found = Translation(world("shapes"))
        found.build()
        written = texts(found)
        self.assertIn("\nimpl<X1_, X2_> shapes__Draw for shapes__Tree<Tuple17_<X1_, X2_>>\n", written["upper"])
        self.assertNotIn("shapes__Tree<Tuple17_<", written["lower"])
        self.losses(found, 2)

    def test_each_header_of_std_has_a_fate(self) -> None:
        for name in ("shapes", "before", "after"):
            headers = translation(name).standard.found
            self.assertTrue(headers)
            self.assertEqual([h.text for h in headers if not h.fate], [])
            self.assertEqual([h.text for h in headers if h.fate.startswith("pruned: ") and len(h.fate) < 12], [])

    def test_a_refusal_names_two_sources(self) -> None:
        found = translation("shapes")
        places = Report(found).places("upper")
        number = next(n for n, place in enumerate(places["shapes"], 1) if "system" in place[1])
        told = rendered(refusal(f"overlap impl {number} with shapes 1", "shapes", places), Sources())
        self.assertIn("shapes.rs:", told)
        self.assertIn('rests on header: `extern "system" fn`', told)

    def test_a_dyn_of_a_trait_with_a_lost_supertrait_is_not_written(self) -> None:
        found = translation("shapes")
        same = next(d for d in found.renderer.traits.values() if d.name == "Same")
        self.assertTrue(found.renderer.lost(same))


class Std(unittest.TestCase):
    """The part of std that people name; of the kept sample of std's documents, which has fewer."""
    TRAITS = {"core::marker": "Send Sync Unpin Copy", "core::clone": "Clone", "core::default": "Default", "core::fmt": "Debug", "core::iter": "Iterator IntoIterator"}
    TYPES = {"core::marker": "PhantomData", "alloc::vec": "Vec", "alloc::rc": "Rc"}
    QUESTIONS = {"prove in mine Vec<S, Global>: Send": "yes", "prove in mine Rc<S, Global>: Send": "unproved", "prove in mine Vec<S, Global>: Clone": "yes",
                 "prove in mine Vec<S, Global>: IntoIterator__Item<S>": "yes", "refute in mine S: Debug": "no"}

    def setUp(self) -> None:
        for name, value in (("TRAITS", self.TRAITS), ("TYPES", self.TYPES)):
            patch = mock.patch.object(std_text, name, value)
            patch.start()
            self.addCleanup(patch.stop)

    @unittest.skipUnless(proved_program(), "there is no proved program of these sources")
    def test_a_text_behind_it_is_answered(self) -> None:
        text = std_text.std_text(World(pages()))
        answer = run(text + "crate mine uses std\nstruct S\nimpl Clone for S\n" + "\n".join(self.QUESTIONS) + "\n")
        self.assertEqual((answer.refusals(), answer.questions), ({}, list(self.QUESTIONS.values())))
        self.assertIn("// Left out: std: impl<T: PointeeSized> !Clone for &mut T: ", text)
        self.assertNotIn(" Clone for RefMut_", text)
        self.assertIn("\nimpl<T> Default for PtrConst_<T> where T: Sized\n", text)

    def test_what_the_documents_have_not_is_named(self) -> None:
        with mock.patch.object(std_text, "TYPES", {"alloc::vec": "Nothing"}), self.assertRaisesRegex(BadInput, "have no alloc::vec::Nothing"):
            std_text.std_text(World(pages()))


class WholeStd(unittest.TestCase):
    """All of std that is about the crates, in one crate `alloc` and one crate `std`."""

    @unittest.skipUnless(proved_program(), "there is no proved program of these sources")
    def test_all_crates_are_accepted(self) -> None:
        found = Translation(world("ab", "user"), whole_std=True)
        found.build()
        for mode, text in texts(found).items():
            answer = run(text)
            self.assertIn("alloc", answer.crates)
            self.assertEqual(answer.refusals(), {}, mode)
