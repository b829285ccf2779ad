"""Cones: the text of a question leads to what the whole text leads to; and what is kept is what was read, or is made anew."""
from __future__ import annotations

import os
import tempfile
import unittest
from typing import Callable, Iterator
from unittest import mock

from ..ask.cone import Chosen, cone_of_crate, cone_of_questions
from ..ask.questions import Question, QuestionReader, QuestionWriter
from ..ask.reach import Reacher
from ..ask.rules import BY_PARTS
from ..model.world import World
from ..read.kept import Damaged, KeptPages, KeptStandard, packed, unpacked
from ..read.terms import UNIT, Array, Bound, Declaration, Named, Param, Parameter, Predicate, Type, Unknown
from ..write.build import Translation
from ..write.text_form import read_text
from .common import kept, texts, world
from .generated import TRAITS

WRITTEN = ("shapes::Raw<u8>: Send", "shapes::Raw<&u8>: Sync", "shapes::NeverSent: Send", "shapes::B: Send", "shapes::B: Unpin",
           "<T> shapes::Tree<T>: Clone where T: Clone", "<S: shapes::Shape> shapes::Raw<S>: Debug", "<I: Iterator> shapes::Peeked<I>: Iterator",
           "shapes::Tree<u8>: Unpin", "shapes::A: PartialEq<[u8; 4]>", "shapes::counterexamples::Free: Clone",
           "<I: Iterator> shapes::Peeked<shapes::Peeked<I>>: Debug", "shapes::Peeked<shapes::Peeked<u8>>: Send",
           "<S: shapes::Shape> shapes::Raw<S>: Debug where S::Unit: Debug", "<I: Iterator> shapes::Peeked<I>: Send where I: Send, I::Item: Send")


def reached(translation: Translation, question: Question) -> tuple[set[object], set[str]]:
    """The references that a question leads to by the upper text, but for those by parts of built-in types, and the impls that conclude them."""
    translation.build()
    writer = QuestionWriter(translation)
    writer.write(question)
    if translation.renderer.grew:
        translation.build()
        writer.write(question)
    lines, pieces = translation.text("upper")
    text = read_text("\n".join(lines + [question.prove]) + "\n")
    line = next(line for line in text.lines if line.kind == "question")
    assert not text.problems and line.trait is not None, text.problems
    reach = Reacher(text, [p for p in pieces if p is not None]).reach(line.self_type, line.trait)
    return {r for r in reach.references if r[0] not in BY_PARTS}, {p.upper.text for p in reach.pieces if p.upper is not None}


def of_type(declaration: Declaration, name: str, key: str) -> Iterator[Question]:
    """The trait of the type, as its bounds allow it, and with the same bound on its parameters."""
    bounds: list[Predicate] = [(Parameter(p.name), Bound(key)) for p in declaration.params if p.kind == "type"]
    choices: list[list[Predicate]] = [[], bounds] if bounds else [[]]
    for more in choices:
        params = [Param(p.kind, p.name) for p in declaration.params]
        yield Question(f"{declaration.name}: {name}", declaration.itself(), Bound(key), params, declaration.predicates + more, crate="shapes")


class Covers(unittest.TestCase):
    def test_an_unknown_stands_for_any_type_in_its_place(self) -> None:
        chosen = Chosen(references={("Send", (Named("Pair", (Unknown("_"), Array(Unknown("_"), "2"))),)), ("From", (UNIT, Parameter("T")))})
        cases: list[tuple[Type, bool]] = [
            (Named("Pair", (UNIT, Array(Named("Pair", (UNIT, UNIT)), "2"))), True), (Named("Pair", (UNIT, Array(UNIT, "3"))), False),
            (Named("Pair", (UNIT, UNIT)), False), (Named("Peer", (UNIT, Array(UNIT, "2"))), False), (Unknown("_"), False)]
        for term, is_covered in cases:
            self.assertEqual(chosen.covers(("Send", (term,))), is_covered, term)
        self.assertEqual([chosen.covers(("From", (UNIT, term))) for term in (Parameter("T"), Parameter("U"))], [True, False])

    def test_an_unknown_is_no_type_of_which_an_auto_trait_was_asked(self) -> None:
        chosen = Chosen(references={("Send", (Unknown("_"),))}, asked={("Pair", "Send")})
        self.assertEqual([chosen.covers(("Send", (Named(name, ()),)), True) for name in ("Pair", "Peer")], [True, False])
        self.assertTrue(chosen.covers(("Send", (UNIT,)), True))


class SameReach(unittest.TestCase):
    def hold(self, found: World, questions: list[Question]) -> None:
        whole = Translation(found)
        whole.roots = [root for question in questions for root in question.roots()]
        for question in questions:
            self.holds(found, question, whole)

    def holds(self, found: World, question: Question, whole: Translation) -> None:
        part = cone_of_questions(found, [question])
        with self.subTest(question.written):
            self.assertEqual(reached(part, question), reached(whole, question))
            for mode, text in texts(part).items():
                # A fn pointer in a field is written `fn()`, and so `fn()` has its impls of `Fn` here.
                mine = {line for line in text.splitlines() if not line.startswith("crate ") and " for fn() -> R" not in line}
                self.assertEqual(mine - set(texts(whole)[mode].splitlines()), set())

    def test_of_written_questions(self) -> None:
        found = world("shapes")
        self.hold(found, [QuestionReader(found).read(written) for written in WRITTEN])

    def test_of_generated_questions(self) -> None:
        found = world("shapes")
        keys = {name: found.pages.key(TRAITS[name]) for name in ("Send", "Clone", "Debug")}
        asked = [question for declaration in found.crates["shapes"].declarations.values() if not declaration.is_trait
                 for name, key in keys.items() if key for question in of_type(declaration, name, key)]
        self.assertGreater(len(asked), 40)
        self.hold(found, asked)

    def test_patterns_are_followed(self) -> None:
        """A clause on an associated type leads through the trait that asks patterns, what the pattern means, and the fields of a cut struct."""
        found = world("shapes")
        question = QuestionReader(found).read("<I: Iterator> shapes::Peeked<shapes::Peeked<I>>: Send where I: Send, I::Item: Send")
        part = cone_of_questions(found, [question])
        assert part.cone is not None
        asked = {trait for trait, _ in part.cone.references}
        self.assertTrue({"Send", "Iterator__Item__Then", "Apply_"} <= asked, asked)
        self.assertTrue(any(trait == "Send" and arguments == (Parameter("X1_"),) for trait, arguments in part.cone.references), part.cone.references)

    def test_of_a_crate_each_impl_of_it_is_there(self) -> None:
        found = world("shapes")
        part = cone_of_crate(found, "shapes")
        part.build()
        self.assertEqual({w.impl.source for w in part.of_crates}, {i.source for i in found.crates["shapes"].impls})


class Kept(unittest.TestCase):
    def setUp(self) -> None:
        self.folder = tempfile.TemporaryDirectory()
        self.patch = mock.patch.dict(os.environ, {"XDG_CACHE_HOME": self.folder.name})
        self.patch.start()

    def tearDown(self) -> None:
        self.patch.stop()
        self.folder.cleanup()

    def read(self) -> tuple[World, dict[str, str]]:
        pages = KeptPages(kept("std"))
        found = World(pages, KeptStandard(pages))
        found.load([kept("shapes")])
        translation = Translation(found)
        translation.build()
        pages.store.flush()
        pages.store.base.close()
        return found, texts(translation)

    def files(self) -> list[str]:
        return [os.path.join(top, name) for top, _, names in os.walk(self.folder.name) for name in names]

    def test_what_is_kept_is_what_was_read(self) -> None:
        plain = Translation(world("shapes"))
        plain.build()
        self.assertEqual(self.read()[1], texts(plain))
        with mock.patch("from_rustdoc.read.kept.JsonCrate", side_effect=AssertionError("read anew")):
            self.assertEqual(self.read()[1], texts(plain))

    def test_what_is_damaged_is_made_anew(self) -> None:
        wanted = self.read()[1]
        changes: tuple[Callable[[bytes], bytes], ...] = (lambda data: b"", lambda data: data[:len(data) // 2], lambda data: data[:60] + b"?" + data[61:])
        for change in changes:
            for file in self.files():
                with open(file, "rb") as handle:
                    data = handle.read()
                with open(file, "wb") as handle:
                    handle.write(change(data))
                with self.subTest(file):
                    self.assertEqual(self.read()[1], wanted)

    def test_a_file_that_is_written_again_is_hashed_again(self) -> None:
        store = KeptPages(kept("std")).store
        file = os.path.join(self.folder.name, "crate.json")

        def put(text: str, age: float) -> str:
            with open(file, "w", encoding="utf-8") as handle:
                handle.write(text)
            with mock.patch("from_rustdoc.read.kept.time.time", return_value=os.stat(file).st_ctime + age):
                return store.sum_of(file)

        sums = [put("one", 9.0), put("two", 9.0), put("one", 0.1)]
        self.assertEqual([sums[0], len(set(sums))], [sums[2], 2])
        with mock.patch("builtins.open", side_effect=AssertionError("read anew")):
            self.assertRaises(AssertionError, store.sum_of, file)
        self.assertEqual(put("two", 9.0), sums[1])
        with mock.patch("builtins.open", side_effect=AssertionError("read anew")):
            self.assertEqual(store.sum_of(file), sums[1])
        store.base.close()

    def test_another_version_reads_anew(self) -> None:
        self.read()
        with mock.patch("from_rustdoc.read.kept.tool_sum", return_value="another"):
            with mock.patch("from_rustdoc.read.kept.JsonCrate", side_effect=AssertionError("read anew")):
                self.assertRaises(AssertionError, self.read)

    def test_nothing_but_terms_is_loaded(self) -> None:
        self.assertRaises(Damaged, unpacked, packed(os.path.join).replace(b"posixpath", b"posixpath"))
        data = packed([1])
        self.assertRaises(Damaged, unpacked, data[:-1] + b"?")


if __name__ == "__main__":
    unittest.main()
