"""What people read of a question: what is wrong with it and what to write instead, and answers in plain words."""
from __future__ import annotations

import io
import unittest

from ..ask.answer import Answerer
from ..ask.questions import QuestionReader
from ..ask.verdicts import answer_message, say_answer
from ..model.world import World
from ..read.proved import proved_program
from ..read.terms import BadInput
from ..report.messages import Output, plain
from .common import world

# What is wrong with each, of the crates `ab` and `deep`.
WRONG = {
    "ab::Here<T>: Send": "`T` is not known: declare it: `<T> ab::Here<T>: Send`", "Vec<(A, B, A)>: Send": "declare it: `<A, B> Vec<(A, B, A)>: Send`",
    "<A> Vec<(A, B)>: Send": "declare it: `<B, A> Vec<(A, B)>: Send`", "ab::Sb: Snd": "`Snd` is not known: is it `Send`", "ab::Sb: ab::Numbrs": "is it `ab::Numbers`?",
    "Vek<u8>: Send": "`Vek` is not known: is it `Vec`", "ab::Here: Send": "`ab::Here` takes 1 type, and no arguments are written",
    "Vec<ab::Here>: Send": "`ab::Here` takes 1 type, and no", "ab::Sb<u8>: Send": "`ab::Sb` takes no types, and 1 argument is written",
    "Vec: Send": "`Vec` takes 1 to 2 types", "ab::Kept: Send": "`ab::Kept` takes 1 type", "ab::Sb: From": "`From` takes 1 type",
    "ab::Sb: deep::Length<u8, Aray = u8>": "`deep::Length` has no associated type `Aray`: is it `Array`?",
    "Vec<u8>: IntoIterator<Itm = u8>": "`IntoIterator` has no associated type `Itm`: is it `Item`?", "<Vec<u8> as IntoIterator>::Items: Send": "is it `Item`?",
    "dyn Iterator<Itm = u8>: Send": "is it `Item`?", "ab::Sb: Iterator<Thing = u8>": "`Iterator` has no associated type `Thing`: is it `Item`?",
    "ab::Ta: Send": "`Ta` is a trait, and a type is wanted; its objects are `dyn Ta`"}
RIGHT = ("fn(u8) -> u8: Fn(u8) -> u8", "<T> ab::Here<T>: Send", "ab::Kept<u8>: Send", "<F: FnMut(u8) -> bool> ab::Pred<F>: ab::Ta", "Vec<u8, alloc::alloc::Global>: Send",
         "dyn ab::Numbers<Item = u8>: Send")
SHOWN = {
    "ab::Sb: ab::Ta": ["ab::Sb: ab::Ta    yes   (certain)"],
    "ab::Sb: Copy": ["ab::Sb: Copy    no   (certain)"],
    "Vec<u8>: IntoIterator<Item = u16>": ["Vec<u8>: IntoIterator<Item = u16>    unproved   (does not hold: its `Item` is `u8`; a later version may add an impl)"],
    "<Vec<ab::Sb> as IntoIterator>::Item: Copy": ["<Vec<ab::Sb> as IntoIterator>::Item: Copy    no   (`<Vec<ab::Sb> as IntoIterator>::Item` is `ab::Sb`; certain)"],
    "<u8 as Iterator>::Item: Send": ["<u8 as Iterator>::Item: Send    unproved   (does not hold: `u8: Iterator` does not hold; a later version may add an impl)"]}
WITH_REASONS = {
    "<R> ab::Bytes<R>: Iterator": "    help: ask it with `where R: Iterator<Item = u8>`",
    "<F> ab::Pred<F>: ab::Ta": "    help: ask it with `where F: FnOnce(u8) -> bool`",
    "<F> ab::Pred<F>: ab::Ta where F: FnOnce(u8) -> bool": "    help: ask it with `where F: FnMut<(u8,)>`",
    "<I: Iterator> Vec<I::Item>: Clone": "    help: ask it with `where <I as Iterator>::Item: Clone`"}


class Wrong(unittest.TestCase):
    def test_what_is_wrong_is_told_with_what_to_write(self) -> None:
        reader = QuestionReader(world("ab", "deep"))
        for written, why in WRONG.items():
            with self.assertRaises(BadInput, msg=written) as told:
                reader.read_all(written)
            self.assertIn(why, str(told.exception))
        for written in RIGHT:
            reader.read_all(written)

    def test_what_is_to_be_declared_can_be_asked(self) -> None:
        reader = QuestionReader(world("ab", "deep"))
        for written in ("<T> ab::Here<T>: Send", "<A, B> Vec<(A, B, A)>: Send", "<B, A> Vec<(A, B)>: Send"):
            reader.read_all(written)


class Plain(unittest.TestCase):
    def test_words_of_the_inside_are_not_for_people(self) -> None:
        self.assertEqual(plain("argued: the question has unknowns"), "not proved: the question has variables")
        self.assertEqual(plain("argued: `impl<T> !Send for Rc<T>` (std: impl<T: ?Sized> !Send for Rc<T>) is written"),
                         "not proved: `impl<T> !Send for Rc<T>` is written")
        self.assertEqual(plain("the upper text says unproved, the lower one unproved"), "a part that was left out may count")
        self.assertEqual(plain("a.rs:1: impl T for S: header: an unsafe fn: a fresh parameter stands for it"), "a.rs:1: impl T for S: an unsafe fn")

    @unittest.skipUnless(proved_program(), "there is no proved program that explains")
    def test_answers_are_told_in_plain_words(self) -> None:
        found = world("ab")
        for written, lines in SHOWN.items():
            self.assertEqual(self.lines(found, written), lines)
        self.assertEqual(self.lines(found, "ab::Sb: ab::Ta", is_verbose=True), ["ab::Sb: ab::Ta    yes   (by law)"])

    @unittest.skipUnless(proved_program(), "there is no proved program that explains")
    def test_a_field_that_fails_stands_in_the_answer(self) -> None:
        found = world("reasons")
        self.assertEqual(self.lines(found, "reasons::Cycle: Send")[0].split("   (")[1].split(";")[0], "its field `count` is `Rc<u8>`")
        self.assertEqual(self.lines(found, "<T> reasons::Outer<T>: Copy")[0], "<T> reasons::Outer<T>: Copy    unproved   (there is no proof for every `T`)")

    @unittest.skipUnless(proved_program(), "there is no proved program that explains")
    def test_what_is_to_be_added_can_be_asked(self) -> None:
        found = world("ab")
        for written, help_line in WITH_REASONS.items():
            self.assertEqual(self.lines(found, written)[-1], help_line)
            clause = help_line.split("`")[1]
            QuestionReader(found).read_all(f"{written} {clause}" if "where" not in written else f"{written}, {clause.removeprefix('where ')}")

    @staticmethod
    def lines(found: World, written: str, is_verbose: bool = False) -> list[str]:
        stream = io.StringIO()
        verdict = Answerer(found).answer(QuestionReader(found).read(written))
        say_answer(answer_message(verdict, None, None, False), verdict, Output(stream=stream, is_verbose=is_verbose))
        return stream.getvalue().splitlines()


if __name__ == "__main__":
    unittest.main()
