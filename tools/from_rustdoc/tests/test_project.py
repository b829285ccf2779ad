"""`Project` on the kept crate `reasons` in the place of what cargo documents, and the service on it."""
from __future__ import annotations

import io
import json
import unittest
from typing import Any
from unittest import mock

from .. import command, serve
from ..project import Answer, NoAnswer, Project
from ..read.terms import BadInput
from .common import EXPLAINS, PROGRAM, WHY_NO_EXPLANATION, WHY_NO_PROGRAM, world


class Kept(unittest.TestCase):
    def setUp(self) -> None:
        self.documented = mock.patch.object(command, "documented", return_value=mock.Mock(known={"documents": ["one"]})).start()
        self.read = mock.patch.object(command, "read_documents", side_effect=lambda found, words: ("", {}, world("reasons"))).start()
        self.addCleanup(mock.patch.stopall)
        self.project = Project("here", ["--offline"], program=PROGRAM, program_that_explains=EXPLAINS)

    def served(self, *lines: str | dict[str, Any]) -> list[dict[str, Any]]:
        requests = b"".join((line if isinstance(line, str) else json.dumps(line)).encode() + b"\n" for line in lines)
        responses = io.StringIO()
        self.assertEqual(serve.serve(self.project, io.BytesIO(requests), responses), 0)
        return [json.loads(line) for line in responses.getvalue().splitlines()]


@unittest.skipIf(WHY_NO_PROGRAM, WHY_NO_PROGRAM)
class Answers(Kept):
    def test_answers_are_data(self) -> None:
        self.assertEqual(self.project.ask("Vec<u8>: reasons::Show"), Answer("Vec<u8>: reasons::Show", "yes", {}, True))
        found = self.project.ask("Vec<u8>: IntoIterator<Item = ?x>")
        self.assertEqual((found.word, found.values), ("yes", {"x": "u8"}))
        self.assertEqual(self.project.ask("reasons::NoClone: Clone").word, "no")

    def test_a_question_that_cannot_be_asked_spoils_none(self) -> None:
        first, second = self.project.ask_many(["reasons::Nothing: Send", "Vec<u8>: reasons::Show"])
        assert isinstance(first, NoAnswer) and isinstance(second, Answer)
        self.assertIn("is not known", first.error)
        self.assertEqual(second.word, "yes")

    def test_what_was_answered_is_kept_until_something_changes(self) -> None:
        first = self.project.ask("Vec<u8>: reasons::Show")
        with mock.patch.object(self.project, "answerer", None):
            self.assertIs(self.project.ask("Vec<u8>: reasons::Show"), first)
        self.assertFalse(self.project.reload())
        self.assertEqual(self.read.call_count, 1)
        self.documented.return_value = mock.Mock(known={"documents": ["another"]})
        self.assertTrue(self.project.reload())
        self.assertEqual(self.read.call_count, 2)
        self.assertIsNot(self.project.ask("Vec<u8>: reasons::Show"), first)

    def test_impls_have_their_parts(self) -> None:
        found = {impl.header: impl for impl in self.project.impls("reasons::Show")}
        self.assertEqual(set(found), {"impl reasons::Show for u8", "impl<T> reasons::Show for Vec<T>", "impl<T> reasons::Show for Option<T>",
                                      "impl<I> reasons::Show for reasons::All<I>", "impl<T> reasons::Show for Cell<T>", "impl<F> reasons::Show for reasons::Fun<F>"})
        option = found["impl<T> reasons::Show for Option<T>"]
        self.assertEqual((option.trait, option.type, option.bounds, option.crate, option.place and option.place.line),
                         ("reasons::Show", "Option<T>", ("T: reasons::Show",), "reasons", 11))
        self.assertEqual([impl.type for impl in self.project.impls("reasons::Show", "Option<T>")], ["Option<T>"])
        with self.assertRaisesRegex(BadInput, "is not known"):
            self.project.impls("reasons::Shown")

    def test_a_service_answers_each_line(self) -> None:
        question = {"question": "Vec<u8>: reasons::Show"}
        said = self.served({"id": 1, "method": "ask", "params": question}, "", {"id": [2], "method": "ask_many", "params": {"questions": ["no"]}},
                           {"method": "ask", "params": question, "fresh": True}, {"id": 3, "method": "reload"})
        self.assertEqual([it["id"] for it in said], [1, [2], None, 3])
        self.assertEqual((said[0]["result"]["word"], said[0]["result"]["is_certain"]), ("yes", True))
        self.assertEqual(set(said[1]["result"][0]), {"question", "error"})
        self.assertIs(said[3]["result"], False)
        self.assertEqual(self.documented.call_count, 3)

    def test_a_faulty_line_has_an_error_and_the_next_is_read(self) -> None:
        for line, kind, message in [
                ("nothing", "bad request", "no JSON"), ("[1]", "bad request", "is an object"), ("[" * 100000, "bad request", "no JSON"),
                ({"id": 1, "method": "answer"}, "bad request", "the methods are ask, "), ({"id": 1, "method": "__init__"}, "bad request", "the methods are"),
                ({"id": 1, "method": "ask"}, "bad request", "needs `question`"), ({"id": 1, "method": "ask", "params": {"question": 1}}, "bad request", "is a string"),
                ({"id": 1, "method": "ask", "params": {"question": "u8: Send", "when": 1}}, "bad request", "and not `when`"),
                ({"id": 1, "method": "ask_many", "params": {"questions": [1]}}, "bad request", "is a list of strings"),
                ({"id": 1, "method": "ask", "params": {"question": "u8: Send", "why": 1}}, "bad request", "is true or false"),
                ({"id": 1, "method": "ask", "param": {}}, "bad request", "has no key `param`"),
                ({"id": 1, "method": "ask", "params": {"question": "u8: reasons::Nothing"}}, "not understood", "is not known")]:
            with self.subTest(str(line)[:60]):
                first, second = self.served(line, {"id": 9, "method": "ask", "params": {"question": "u8: reasons::Show"}})
                self.assertEqual((first["error"]["kind"], second["result"]["word"]), (kind, "yes"))
                self.assertIn(message, first["error"]["message"])

    def test_a_mistake_of_this_tool_ends_no_service(self) -> None:
        with mock.patch.object(self.project, "answerer", None):
            (said,) = self.served({"id": 1, "method": "ask", "params": {"question": "u8: reasons::Show"}})
        self.assertEqual(said["error"]["kind"], "no answer")


@unittest.skipIf(WHY_NO_EXPLANATION, WHY_NO_EXPLANATION)
class Reasons(Kept):
    def test_a_refusal_is_a_tree(self) -> None:
        found = self.project.ask("reasons::Outer<u8>: Send", why=True).reason
        told = []
        while found is not None:
            told.append((found.goal, found.rule, found.impl or found.field, found.place.line if found.place else 0))
            found = found.needs[0] if found.needs else None
        self.assertEqual(told, [
            ("reasons::Outer<u8>: Send", "fields", "inner", 5), ("Vec<reasons::Inner>: Send", "impl", "impl<T, A> Send for Vec<T, A>", 0),
            ("reasons::Inner: Send", "fields", "count", 4), ("Rc<u8>: Send", "negative impl", "impl<T, A> !Send for Rc<T, A>", 0)])

    def test_a_proof_is_a_tree(self) -> None:
        found = self.project.ask("Option<Vec<u8>>: reasons::Show", why=True).reason
        assert found is not None
        self.assertEqual((found.goal, found.holds, found.rule, found.impl), ("Option<Vec<u8>>: reasons::Show", True, "impl", "impl<T> reasons::Show for Option<T>"))
        self.assertEqual([(it.goal, it.needs[0].goal) for it in found.needs], [("Vec<u8>: reasons::Show", "u8: reasons::Show")])

    def test_conditions_and_traits_are_data(self) -> None:
        found = self.project.conditions("(T, U): Send")
        self.assertEqual((found.word, found.bounds, found.is_certain), ("yes", ("T: Send", "U: Send"), True))
        traits = self.project.traits("reasons::Inner")
        self.assertEqual([one.question for one in traits.without], ["reasons::Inner: Send", "reasons::Inner: Sync"])
