"""Questions as people write them, of the crate `ab`, each answered by a text of its own. What rustc says of each is in the table: where it
refuses a bound the answer is `no` or `unproved`, by whether a later version may have the impl."""
from __future__ import annotations

import contextlib
import io
import json
import os
import tempfile
import time
import unittest
from unittest import mock

from ..ask.answer import Answerer
from ..ask.back import Back
from ..ask.cone import TooLarge, cone_of_questions
from ..ask.questions import QuestionReader
from ..ask.verdicts import answer_message
from ..command import main
from ..read.proved import proved_program
from ..read.terms import BadInput
from ..report.messages import Output
from .common import kept, world

WIDE = "ab::Wide<" + "u8, " * 16
WITH_TYPES = {
    "Vec<u8>: IntoIterator<Item = u8>": "yes", "Vec<u8>: IntoIterator<Item = u16>": "unproved", "Vec<u8>: IntoIterator<Item = u8, IntoIter: Send + Sync>": "yes",
    "<Vec<u8> as IntoIterator>::IntoIter: Send": "yes", "<Vec<u8> as IntoIterator>::Item: Copy": "yes", "<Vec<ab::Sb> as IntoIterator>::Item: Copy": "no",
    "<T> <Vec<T> as IntoIterator>::IntoIter: Send where T: Send": "yes", "<T> <Vec<T> as IntoIterator>::IntoIter: Send": "unproved",
    "<I: Iterator<Item = u8>> ab::Bytes<I>: Iterator<Item = u8>": "yes", "<I: Iterator<Item = u8>> ab::Bytes<I>: Iterator<Item = u16>": "unproved",
    "<I: Iterator<Item = u8>> <ab::Bytes<I> as Iterator>::Item: Default": "yes", "<I> ab::Bytes<I>: Send where I: Iterator<Item = u8>, I: Send": "yes",
    "<I: Iterator> <I as IntoIterator>::Item: Copy where I::Item: Copy": "yes", "<I: Iterator> <I as IntoIterator>::Item: Copy": "unproved",
    "fn(u8) -> bool: Fn(u8) -> bool": "yes", "fn(u8) -> bool: Fn(u8) -> u8": "unproved", "ab::Pred<fn(u8) -> bool>: ab::Ta": "yes",
    "ab::Pred<fn(u8) -> u8>: ab::Ta": "unproved", "<F: FnMut(u8) -> bool> ab::Pred<F>: ab::Ta": "yes",
    "<I: Iterator<Item = Vec<u8>>> <I as Iterator>::Item: IntoIterator<Item = u8>": "yes", "<T: PartialEq<Vec<Vec<u8>>> + Send> Vec<T>: Send": "yes",
    "<u8 as Iterator>::Item: Send": "unproved"}
OF_DYN = {
    "dyn Iterator<Item = u8>: ab::Ta": "yes", "dyn Iterator<Item = u8> + Send: ab::Ta": "yes", "dyn Iterator<Item = u16>: ab::Ta": "no",
    "Box<dyn Fn(u8) -> u8>: ab::Ta": "yes", "Box<dyn Fn(u8) -> bool>: ab::Ta": "no", "Box<dyn Fn(u8) -> bool>: Fn(u8) -> bool": "yes",
    "ab::Fixed<dyn ab::Numbers>: ab::Ta": "yes", "ab::Fixed<dyn Iterator<Item = u8>>: ab::Ta": "yes", "ab::Fixed<dyn Iterator<Item = u16>>: ab::Ta": "unproved",
    "ab::OfDyn: Send": "yes", "ab::OfOther: Send": "unproved", "dyn Iterator<Item = u8>: Send": "no", "dyn Iterator<Item = u8> + Send: Send": "yes",
    "dyn Iterator<Item = u8>: Sized": "no"}
NEGATIVE = {
    "ab::Shared: Send": "no", "ab::Pointed: Send": "no", "ab::Pointed: Sync": "yes", "ab::Around: Send": "no", "ab::Around: Sync": "yes",
    "ab::Here<alloc::rc::Rc<u8>>: Send": "no", "ab::Here<u8>: Send": "yes", "alloc::rc::Rc<u8>: Send": "no", "&alloc::rc::Rc<u8>: Send": "no",
    "(u8, [*const u8; 4]): Send": "no", "Vec<alloc::rc::Rc<u8>>: Send": "unproved"}
OTHERS = {
    "ab::Sb: ab::Ta": "yes", "ab::Kept<u8>: Send": "yes", "core::fmt::Result: Send": "yes", "user::Mine<ab::Kept<u8>>: ab::Ta": "yes",
    "user::Mine<ab::Sb>: Clone": "yes", "for<'a> fn(&'a u8): Send": "yes",
    WIDE + "u16>: ab::Ta": "yes", WIDE + "u8>: ab::Ta": "no", WIDE + "u16>: Send": "yes"}

DEEP = {
    "deep::Chunk<u8>: Send": "yes", "deep::Node<u8>: Send": "unproved", "<A> deep::Chunk<A>: Sync": "unproved", "<A> deep::Chunk<A>: Sync where A: Sync": "yes",
    "deep::Pool<u8>: Sync": "no", "<A> deep::Pool<A>: Unpin": "yes", "<A> deep::Node<A>: Unpin": "unproved", "<A> deep::Node<A>: Unpin where A: Unpin": "yes",
    "<ab::Sb as deep::Length<u8>>::Array: Copy": "yes", "<T> [<ab::Sb as deep::Length<T>>::Array; 2]: Send": "yes"}

# Fn pointers that are no plain ones, of the crate `read`.
FUNCTIONS = {
    "unsafe fn(u8): read::Call": "yes", "unsafe fn(u16): read::Call": "no", "fn(u8): read::Call": "no", "u8: read::Call": "no",
    'extern "C" fn(u16) -> u8: read::Call': "yes", 'extern "C" fn(): read::Call': "no", 'unsafe extern "C" fn(): read::Call': "yes",
    "unsafe fn(u8): Clone": "yes", "Option<unsafe fn(u8)>: Send": "yes", 'extern "C" fn(u8) -> u16: Fn(u8) -> u16': "no",
    "unsafe fn(u8) -> u16: FnOnce(u8) -> u16": "no", 'extern "C" fn(): Sized': "yes", 'extern "system" fn(): Clone': "not settled"}

# Structs whose last field is an associated type: sized, unless the trait has `?Sized` for it.
LAST_FIELDS = {
    "read::Date<read::Utc>: Sized": "yes", "Vec<read::Date<read::Utc>>: Clone": "yes", "<Z: read::Zone> Option<read::Inner<Z>>: Default": "yes",
    "read::Listed<Vec<u8>>: Sized": "yes", "read::Date<read::Utc>: Copy": "no", "read::Ended<u8>: Sized": "not settled",
    "Vec<read::Ended<u8>>: Default": "not settled"}

# With variables: the word, and the values. With `no` the parts that are there of it decide.
VARIABLES = {
    "Vec<?x>: Clone": ("maybe", ""), "Vec<?x>: Debug": ("maybe", ""), "?x: Clone": ("maybe", ""), "(?x, u8): Send": ("maybe", ""),
    "Vec<?x>: IntoIterator<Item = ?i>": ("yes", "?i = ?x"), "Vec<?x>: IntoIterator<IntoIter = ?i>": ("yes", "?i = alloc::vec::IntoIter<?x>"),
    "ab::Here<?x>: Sized": ("yes", ""), "(?x, ab::Shared): Send": ("no", ""), "Vec<?x>: PartialEq<Vec<u8>>": ("maybe", ""),
    "ab::Bits: core::ops::BitOr<?x>": ("yes", "?x = u8"), "Box<?x>: ab::Ta": ("yes", "?x = dyn Fn(u8) -> u8"), "?x: ab::Ta": ("maybe", ""),
    "Vec<?x>: Iterator<Item = ?x>": ("unproved", "")}


@unittest.skipUnless(proved_program(), "there is no proved program of these sources")
class Answers(unittest.TestCase):
    reader: QuestionReader
    answerer: Answerer

    @classmethod
    def setUpClass(cls) -> None:
        found = world("ab", "user")
        cls.reader, cls.answerer = QuestionReader(found), Answerer(found)

    def answers(self, wanted: dict[str, str]) -> None:
        for written, word in wanted.items():
            (question,) = self.reader.read_all(written)
            verdict = self.answerer.answer(question)
            self.assertEqual(verdict.word, word, verdict.show())

    def test_with_associated_types(self) -> None:
        self.answers(WITH_TYPES)

    def test_of_dyn_types_with_associated_types(self) -> None:
        self.answers(OF_DYN)

    def test_negative_impls_rule_out(self) -> None:
        self.answers(NEGATIVE)
        verdict = self.answerer.answer(self.reader.read("ab::Shared: Send"))
        self.assertTrue(verdict.basis.startswith("argued: `impl<T, A> !Send for Rc<T, A>` (std: "), verdict.basis)

    def test_computed_impls_rule_nothing_out(self) -> None:
        """rustdoc shows `impl !RefUnwindSafe for Rc` though nobody wrote it; `IntoIter` is not `Sync` by `Rc`'s own."""
        self.answers({"alloc::vec::IntoIter<alloc::rc::Rc<u8>>: Sync": "unproved"})

    def test_names_aliases_and_many_parameters(self) -> None:
        self.answers(OTHERS)

    def test_unsafe_and_foreign_fns_are_told_apart(self) -> None:
        found = world("read")
        reader, answerer = QuestionReader(found), Answerer(found)
        for written, word in FUNCTIONS.items():
            verdict = answerer.answer(reader.read(written))
            self.assertEqual(verdict.word, word, verdict.show())
        self.assertEqual(answerer.answer(reader.read("unsafe fn(?x): read::Call")).values, "?x = u8")
        self.assertEqual(Back(found).values("?x = FnUnsafeC_<(u8,), ()>"), '?x = unsafe extern "C" fn(u8)')

    def test_structs_that_end_with_an_associated_type(self) -> None:
        found = world("read")
        reader, answerer = QuestionReader(found), Answerer(found)
        for written, word in LAST_FIELDS.items():
            verdict = answerer.answer(reader.read(written))
            self.assertEqual(verdict.word, word, verdict.show())
        self.assertEqual(answerer.answer(reader.read("read::Date<read::Utc>: Sized")).basis,
                         "argued: read::Date is sized by the bound of the associated type that is its last field")
        self.assertEqual(answerer.answer(reader.read("read::Ended<u8>: Sized")).rests_on, ["read.rs:17: read::Ended: whether its last field is sized"])

    def test_deep_types_and_traits_of_crates_that_use_the_subjects(self) -> None:
        found = world("ab", "deep")
        reader, answerer = QuestionReader(found), Answerer(found)
        for written, word in DEEP.items():
            verdict = answerer.answer(reader.read(written))
            self.assertEqual(verdict.word, word, verdict.show())

    def test_values_are_told(self) -> None:
        for written, values in (("fn(u8) -> bool: FnOnce(u8) -> ?r", "?r = bool"), ("dyn Iterator<Item = u8>: Iterator<Item = ?x>", "?x = u8"),
                                (f"ab::Wide<?x, {'u8, ' * 15}u16>: ab::Ta", "?x = u8")):
            verdict = self.answerer.answer(self.reader.read(written))
            self.assertEqual((verdict.word, verdict.values), ("yes", values), written)

    def test_variables_are_answered_or_declined_at_once(self) -> None:
        before = time.process_time()
        for written, wanted in VARIABLES.items():
            verdict = self.answerer.answer(self.reader.read(written))
            self.assertEqual((verdict.word, verdict.values), wanted, verdict.show())
        with mock.patch("from_rustdoc.ask.cone.MOST_OPEN", 5), self.assertRaisesRegex(TooLarge, "write more of the types"):
            cone_of_questions(self.reader.world, [self.reader.read("Option<?x>: From<?y>")])
        self.assertLess(time.process_time() - before, 20.0)

    def test_what_is_behind_a_free_variable_does_not_count(self) -> None:
        """The same by all that an unknown type may lead to."""
        for written in (*VARIABLES, "ab::Fixed<?x>: ab::Ta", "ab::Held<?x>: Send", "user::Mine<?x>: Clone", "user::Mine<?x>: ab::Ta", "ab::Pred<?x>: ab::Ta"):
            verdict = self.answerer.by_part(self.reader.read(written))
            with mock.patch("from_rustdoc.ask.cone.free_variables", return_value=frozenset()):
                whole = self.answerer.by_part(self.reader.read(written))
            self.assertEqual((verdict.word, verdict.values), (whole.word, whole.values), written)
        free = [cone_of_questions(self.reader.world, [self.reader.read(written)]).cone.free for written in ("Vec<?x>: Clone", "Box<?x>: ab::Ta", "Vec<?x>: PartialEq<?x>")]
        self.assertEqual(free, [{"x"}, set(), set()])

    def test_values_are_data_that_a_question_takes(self) -> None:
        stream = io.StringIO()
        verdict = self.answerer.answer(self.reader.read("Vec<?x>: IntoIterator<Item = ?i, IntoIter = ?t>"))
        Output(is_json=True, stream=stream).message(answer_message(verdict, None, None, False))
        values = json.loads(stream.getvalue())["values"]
        self.assertEqual(values, [{"name": "i", "type": "?x"}, {"name": "t", "type": "alloc::vec::IntoIter<?x>"}])
        self.assertEqual(self.answerer.answer(self.reader.read(f"{values[1]['type']}: Iterator<Item = ?i>")).values, "?i = ?x")

    def test_two_bounds_are_two_questions(self) -> None:
        questions = self.reader.read_all("ab::Around: Send + Sync")
        self.assertEqual([q.written for q in questions], ["ab::Around: Send", "ab::Around: Sync"])
        self.assertEqual([self.answerer.answer(q).word for q in questions], ["no", "yes"])
        self.assertEqual([q.written for q in self.reader.read_all("<T> Vec<T>: Clone + Send where T: Clone")],
                         ["<T> Vec<T>: Clone where T: Clone", "<T> Vec<T>: Send where T: Clone"])


class NoAnswers(unittest.TestCase):
    def test_each_has_a_line_of_json(self) -> None:
        for words in (["ask", "--project", "/nowhere", "--message-format", "json", "u8: Send"], ["read", "--message-format=json", "-o", "x", "/nowhere.json"]):
            with contextlib.redirect_stdout(io.StringIO()) as said, contextlib.redirect_stderr(io.StringIO()) as errors:
                status = main(words)
            (line,) = said.getvalue().splitlines()
            found = json.loads(line)
            self.assertEqual((status, found["answer"], found["level"], f"from-rustdoc: {found['message']}\n"), (3, "no answer", "error", errors.getvalue()))

    def test_what_is_no_question_is_told_in_a_line(self) -> None:
        reader = QuestionReader(world("ab"))
        for written, why in (("ab::Sb: ?Sized", "asks nothing"), ("ab::Sb: Vec<u8>", "is no trait"), ("ab::Sb: 'static", "asks for no trait"),
                             ("<T: Send", "is not understood"), ("<T as", "is not understood"), ("ab::Sb", "`:` expected at the end"), ("ab::Sb:", "a path expected at the end"), ("", "a type expected at the end"),
                             ("ab::Sx: Send", "is not known: write its path"), ("ab::Aroud: Send", "is it `ab::Around`?"), ("Vec<u8>::Item Send", "is not understood")):
            with self.assertRaisesRegex(BadInput, why, msg=written):
                reader.read_all(written)

    @unittest.skipUnless(proved_program(), "there is no proved program of these sources")
    def test_an_alias_of_a_crate_that_is_not_given_is_a_loss(self) -> None:
        """`user` names an alias of `ab` in a header and in a field; what leads to neither is answered."""
        with tempfile.TemporaryDirectory() as folder, mock.patch.dict(os.environ, {"XDG_CACHE_HOME": folder}):
            base = os.path.join(folder, "user")
            with contextlib.redirect_stdout(io.StringIO()) as said, contextlib.redirect_stderr(io.StringIO()) as errors:
                statuses = [main(["read", "-o", base, "--docs", kept("std"), "--quiet", kept("user")]), main(["check", base]),
                            main(["later", "--docs", kept("std"), kept("user"), kept("user")]),
                            main(["ask", base, "user::Mine<u8>: Send", "user::Mine<u8>: Clone", "<T: Send> user::Held<T>: Send", "user::Held<*const u8>: Send"])]
            answers = [line.split("    ")[1].split("   ")[0] for line in said.getvalue().splitlines() if line.startswith(("user::", "<T"))]
            self.assertEqual((statuses, errors.getvalue()), ([0, 0, 0, 4], ""))
            self.assertEqual(answers, ["yes", "not settled", "not settled", "no"])
            self.assertIn("user 1.0.0: coherent. 2 impls, 1 whole, 1 with a loss", said.getvalue())
            self.assertIn("user 1.0.0 to 1.0.0: no break found in what was judged", said.getvalue())

    @unittest.skipUnless(proved_program(), "there is no proved program of these sources")
    def test_one_bad_question_ends_with_3_and_the_others_are_answered(self) -> None:
        with tempfile.TemporaryDirectory() as folder, mock.patch.dict(os.environ, {"XDG_CACHE_HOME": folder}):
            base = os.path.join(folder, "ab")
            with contextlib.redirect_stdout(io.StringIO()) as said, contextlib.redirect_stderr(io.StringIO()) as errors:
                self.assertEqual(main(["read", "-o", base, "--docs", kept("std"), kept("ab")]), 0)
                status = main(["ask", base, "ab::Sb: Send", "ab::Sx: Send", "<u8 as Nothing>::Item: Send", "ab::Sb: ab::Ta"])
            self.assertEqual(status, 3)
            self.assertEqual([line.split("    ")[1].split()[0] for line in said.getvalue().splitlines() if line.startswith("ab::")], ["yes", "yes"])
            self.assertEqual(errors.getvalue().count("no answer to"), 2)


if __name__ == "__main__":
    unittest.main()
