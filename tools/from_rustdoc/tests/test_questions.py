"""Questions: their lines in the texts, and the one answer that is made of two. The last test needs the built program."""
from __future__ import annotations

import unittest
from unittest import mock

from ..ask.back import Back
from ..ask.cone import cone_of_questions
from ..ask.program import Answer, read_answer
from ..ask.questions import Asker, Question, QuestionReader, QuestionWriter, Verdict
from ..read.proved import proved_program
from ..read.terms import BadInput, Lossy
from ..write.build import Translation
from ..write.text_form import read_text
from .common import texts, world


def asked(*written: str) -> tuple[Translation, list[Question]]:
    found = world("shapes")
    reader = QuestionReader(found)
    questions = [reader.read(text) for text in written]
    translation = Translation(found)
    translation.roots = [root for question in questions for root in question.roots()]
    translation.build()
    return translation, questions


def answered(lower: list[str], upper: list[str], *written: str) -> list[Verdict]:
    """The verdicts, if the program answered the lower and the upper text so: each `prove`, then each `refute`."""
    translation, questions = asked(*written)
    answers = [Answer({}, upper, [""] * len(upper)), Answer({}, lower, [""] * len(lower))]
    with mock.patch(Asker.__module__ + ".ask", side_effect=answers):
        return Asker(translation).ask(questions)


class Lines(unittest.TestCase):
    def line(self, written: str) -> tuple[str, str]:
        translation, (question,) = asked(written)
        QuestionWriter(translation).write(question)
        return question.prove, question.refute

    def test_plain(self) -> None:
        self.assertEqual(self.line("shapes::Raw<u8>: Send"), ("prove in shapes shapes__Raw<u8>: Send", "refute in shapes shapes__Raw<u8>: Send"))
        self.assertEqual(self.line("&shapes::A: Copy")[0], "prove in shapes Ref_<shapes__A>: Copy")
        self.assertEqual(self.line("Tree<?x>: core::clone::Clone")[0], "prove in shapes shapes__Tree<?x>: Clone")
        self.assertEqual(self.line("Grid<?n, 2>: Default")[0], "prove in shapes shapes__Grid<?n, 2>: Default")

    def test_what_is_left_to_a_default_is_in_the_text(self) -> None:
        translation, (question,) = asked("alloc::vec::Vec<shapes::A>: Clone")
        QuestionWriter(translation).write(question)
        self.assertEqual(question.prove, "prove in shapes Vec<shapes__A, Global>: Clone")
        for text in texts(translation).values():
            self.assertEqual(read_text(text + question.prove + "\n").problems, [])

    def test_where_clauses(self) -> None:
        prove, refute = self.line("<T> shapes::Tree<T>: Clone where T: Clone")
        self.assertEqual((prove, refute), ("prove in shapes <T> shapes__Tree<T>: Clone where T: Sized, T: Clone", ""))

    def test_a_clause_brings_its_associated_types(self) -> None:
        prove, _ = self.line("<I: Iterator> shapes::Peeked<I>: Iterator")
        self.assertEqual(prove, "prove in shapes <I, X1_> shapes__Peeked<I>: Iterator where I: Sized, I: Iterator, X1_: Sized, I: Iterator__Item<X1_>")

    def test_a_dyn_whose_supertraits_are_not_all_said_is_not_asked(self) -> None:
        with self.assertRaisesRegex(Lossy, "of whose supertraits the text cannot say all"):
            self.line("dyn shapes::Same: Send")

    def test_a_value_is_asked_beside_the_trait(self) -> None:
        translation, (question,) = asked("shapes::Peeked<u8>: Iterator<Item = u8>")
        QuestionWriter(translation).write(question)
        self.assertEqual([line.prove for line in question.lines],
                         ["prove in shapes shapes__Peeked<u8>: Iterator", "prove in shapes shapes__Peeked<u8>: Iterator__Item<u8>"])
        self.assertEqual([line.refute for line in question.lines],
                         ["refute in shapes shapes__Peeked<u8>: Iterator", "refute in shapes shapes__Peeked<u8>: Iterator__Item<u8>"])

    def test_what_is_not_known_is_an_error(self) -> None:
        for written in ("shapes::Nothing: Send", "shapes::A Send", "nothing::A: Send"):
            with self.assertRaises(BadInput, msg=written):
                asked(written)


class Patterns(unittest.TestCase):
    def test_a_question_is_asked_with_what_its_clauses_say_to_patterns(self) -> None:
        translation, questions = asked("<S: shapes::Shape> shapes::Raw<S>: Debug where S::Unit: Debug")
        given: list[str] = []

        def program(text: str, lines: list[str], *_: object) -> Answer:
            given.append(lines[-1])
            return Answer({}, ["yes"], [""])

        with mock.patch(Asker.__module__ + ".ask", side_effect=program):
            (verdict,) = Asker(translation).ask(questions)
        self.assertEqual(verdict.word, "yes")
        self.assertRegex(given[0], r"^prove in shapes <S, X1_> Pat\d+_: Apply_<X1_> where .*X1_: Debug")
        self.assertRegex(given[-1], r"^prove in shapes <S, X1_> shapes__Raw<S>: Debug where .*S: shapes__Shape__Unit__Then<Wrap_<Pat\d+_>>$")


class Merged(unittest.TestCase):
    def test_both_texts_make_one_answer(self) -> None:
        for lower, upper, written, word in [
            (["yes", "open"], ["yes", "open"], "shapes::Raw<u8>: Send", "yes"),
            (["unproved", "no"], ["unproved", "no"], "shapes::A: Clone", "no"),
            (["unproved", "open"], ["unproved", "open"], "shapes::A: Clone", "unproved"),
            (["unproved", "open"], ["maybe", "open"], "shapes::A: Clone", "not settled"),
            (["unproved"], ["yes"], "<T> Option<T>: shapes::Draw", "not settled"),
            (["unproved"], ["unproved"], "<T> shapes::Raw<T>: Clone", "unproved"),
        ]:
            self.assertEqual([v.word for v in answered(lower, upper, written)], [word], written)

    def test_an_answer_names_the_loss_that_it_rests_on(self) -> None:
        (verdict,) = answered(["unproved"], ["yes"], "<T> Option<T>: shapes::Draw")
        self.assertTrue(any("shapes.rs:" in line and '`extern "system" fn`' in line for line in verdict.rests_on), verdict.rests_on)

    def test_what_rests_on_a_law_and_what_is_argued(self) -> None:
        for lower, upper, written, basis in [
            (["yes", "open"], ["yes", "open"], "shapes::Raw<u8>: Send", "by law"),
            (["yes", "open"], ["yes", "open"], "shapes::B: Send", "argued: the auto traits of shapes::A"),
            (["unproved", "no"], ["unproved", "no"], "shapes::NeverSent: Send", "by law"),
            (["unproved", "no"], ["unproved", "no"], "shapes::Raw<?x>: Send", "argued: the question has unknowns"),
            (["yes", "open"], ["yes", "open"], "shapes::Peeked<u8>: Debug", "argued: a clause on an associated type is asked as a pattern"),
            (["unproved", "no"], ["unproved", "no"], "shapes::Peeked<u8>: Debug", "argued: a clause on an associated type is asked as a pattern"),
            (["unproved", "no"], ["unproved", "no"], "shapes::B: Sync", "argued: the question leads to chains without end"),
        ]:
            (verdict,) = answered(lower, upper, written)
            self.assertTrue(verdict.basis.startswith(basis), (written, verdict.basis))

    def test_texts_that_contradict_each_other_are_an_error(self) -> None:
        with self.assertRaisesRegex(BadInput, "contradict"):
            answered(["yes", "no"], ["yes", "no"], "shapes::Raw<u8>: Send")

    def test_unsize_is_not_refuted(self) -> None:
        (verdict,) = answered(["unproved", "no"], ["unproved", "no"], "shapes::counterexamples::Tail<[u8; 3]>: core::marker::Unsize<shapes::counterexamples::Tail<[u8]>>")
        self.assertEqual(verdict.word, "not settled")

    def test_an_item_that_was_not_given_is_no_ground_for_a_no(self) -> None:
        translation, questions = asked("shapes::counterexamples::One<shapes::counterexamples::Free>: shapes::counterexamples::Sup")
        free = next(d for d in translation.renderer.structs.values() if d.name == "Free")
        free.key, free.source = "other:elsewhere::Free", "not given: elsewhere::Free"
        translation.world.names[free.key], translation.renderer.structs[free.key] = "shapes__Free", free
        answers = [Answer({}, ["unproved", "no"], ["", ""]) for _ in range(2)]
        with mock.patch(Asker.__module__ + ".ask", side_effect=answers):
            (verdict,) = Asker(translation, check=False).ask(questions)
        self.assertEqual((verdict.word, verdict.rests_on), ("not settled", ["not given: elsewhere::Free: its impls are not known"]))

    def test_values_are_told_as_rust_writes_them(self) -> None:
        translation, _ = asked("shapes::A: PartialEq<?x>")
        back = Back(translation.world)
        self.assertEqual(back.values("?x = Ref_<[shapes__Raw<f32>; 4]>, ?n = 3"), "?x = &[shapes::Raw<f32>; 4], ?n = 3")
        self.assertEqual(back.values("?x = std__Box<dyn Debug + Send, Global>"), "?x = Box<(dyn Debug + Send)>")
        self.assertEqual(back.values("?y = ?x"), "?y = ?x")

    def test_answers_are_read(self) -> None:
        answer = read_answer("crate a: accepted\ncrate b: overlap impl 1 with a 2\nprove 1: yes ?x = u8\nrefute 2: no\n")
        self.assertEqual(answer.refusals(), {"b": "overlap impl 1 with a 2"})
        self.assertEqual((answer.questions, answer.values), (["yes", "no"], ["?x = u8", ""]))


@unittest.skipUnless(proved_program(), "there is no proved program of these sources")
class Program(unittest.TestCase):
    WANTED = {
        "shapes::Raw<u8>: Send": "yes", "shapes::Raw<&u8>: Sync": "no", "shapes::NeverSent: Send": "no", "shapes::B: Send": "unproved",
        "shapes::B: Unpin": "yes", "<T> shapes::Tree<T>: Clone where T: Clone": "yes", "<T> shapes::Tree<T>: Clone": "unproved",
        "<S: shapes::Shape> shapes::Raw<S>: Debug": "unproved", "<S: shapes::Shape> shapes::Raw<S>: Debug where S::Unit: Debug": "yes",
        "<I: Iterator> shapes::Peeked<I>: Debug": "unproved", "<I: Iterator> shapes::Peeked<I>: Debug where I::Item: Debug": "yes",
        "<I: Iterator> shapes::Peeked<I>: Send where I: Send, I::Item: Send": "yes", "<I: Iterator> shapes::Peeked<I>: Send where I: Send": "unproved",
        "<I: Iterator> shapes::Peeked<I>: Iterator": "yes", "<I: Iterator> shapes::Peeked<shapes::Peeked<I>>: Debug where I::Item: Debug": "yes",
        "<I: Iterator> shapes::Peeked<shapes::Peeked<I>>: Debug": "unproved", "shapes::Peeked<u8>: Debug": "unproved",
        "shapes::Tree<u8>: Unpin": "yes", "shapes::A: PartialEq<[u8; 4]>": "yes", "shapes::counterexamples::Free: Clone": "no"}

    def test_the_program_answers(self) -> None:
        translation, questions = asked(*self.WANTED)
        asker = Asker(translation)
        verdicts = asker.ask(questions)
        self.assertEqual({v.question.written: v.word for v in verdicts}, self.WANTED)
        self.assertEqual(asker.answers["lower"].refusals(), {})

    def test_it_answers_alike_by_the_part_that_may_matter(self) -> None:
        found = world("shapes")
        for written, word in self.WANTED.items():
            question = QuestionReader(found).read(written)
            translation = cone_of_questions(found, [question])
            translation.build()
            (verdict,) = Asker(translation).ask([question])
            self.assertEqual(verdict.word, word, written)
            self.assertLess(len(texts(translation)["upper"]), 4000, written)
