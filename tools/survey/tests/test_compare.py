"""rustc's errors as verdicts, the translator's lines as answers, and both as one word."""
from __future__ import annotations

import json
import unittest
from typing import Any

from from_rustdoc.read.terms import BadInput

from ..compare import compared, foundation
from ..compiler import FAILS, HEAD, HOLDS, LIFETIMES, OPEN, REJECTED, Verdict, verdicts_of
from ..generate import Query
from ..translator import REFUSED, Called, Answer, names_of, read_answers, read_impl, read_release

QUERIES = [Query("auto trait", f"own::T{n}", ("Send",)) for n in range(4)]


def error(query: int, part: int, code: str, message: str = "message") -> dict[str, Any]:
    line = len(HEAD) + 1 + 3 * query + part
    return {"level": "error", "code": {"code": code} if code else None, "message": message,
            "spans": [{"is_primary": True, "line_start": line, "file_name": "questions.rs"}]}


class Verdicts(unittest.TestCase):
    def words(self, rounds: list[list[dict[str, Any]]]) -> list[str]:
        """The verdicts, if rustc has these errors in its rounds, and none in the one after them."""
        nothing: list[dict[str, Any]] = []
        left = iter([*rounds, nothing])
        self.texts: list[list[str]] = []

        def errors(lines: list[str]) -> list[dict[str, Any]]:
            self.texts.append(lines)
            return next(left)

        return [verdict.word for verdict in verdicts_of(QUERIES, errors)]

    def test_what_compiles_holds(self) -> None:
        self.assertEqual(self.words([]), [HOLDS] * 4)

    def test_a_bound_fails_at_its_own_line_alone(self) -> None:
        self.assertEqual(self.words([[error(0, 2, "E0277"), error(1, 1, "E0277"), error(2, 0, "E0277"), error(3, 2, "E0271")]]),
                         [FAILS, REJECTED, REJECTED, FAILS])

    def test_a_line_that_is_not_well_formed_outweighs_a_bound_in_any_order(self) -> None:
        for both in ([error(0, 2, "E0277"), error(0, 1, "E0412")], [error(0, 1, "E0412"), error(0, 2, "E0277")]):
            self.assertEqual(self.words([both])[0], REJECTED)

    def test_errors_of_later_phases_are_found_in_later_rounds(self) -> None:
        self.assertEqual(self.words([[error(0, 1, "E0433")], [error(1, 2, "E0277")], [error(2, 2, "", "lifetime may not live long enough")]]),
                         [REJECTED, FAILS, LIFETIMES, HOLDS])
        self.assertEqual([lines[len(HEAD) + 2] == "" for lines in self.texts], [False, True, True, True])

    def test_what_rustc_does_not_decide(self) -> None:
        self.assertEqual(self.words([[error(0, 2, "E0283"), error(1, 2, "E0275")]])[:2], [OPEN, OPEN])

    def test_lifetimes_if_the_query_itself_is_bad(self) -> None:
        self.assertEqual(self.words([[error(0, 0, "E0310"), error(1, 2, "E0310")]])[:2], [REJECTED, LIFETIMES])

    def test_an_error_elsewhere_is_an_error(self) -> None:
        for elsewhere in ({**error(0, 0, "E0463"), "spans": []}, error(9, 2, "E0277"), error(-1, 2, "E0463")):
            with self.assertRaisesRegex(BadInput, "belongs to no query"):
                self.words([[elsewhere]])


def answer(query: str, word: str, basis: str = "by law", rests_on: tuple[str, ...] = (), values: str = "") -> dict[str, Any]:
    return {"$message_type": "diagnostic", "message": f"`{query}`: {word}{values}", "answer": word, "basis": basis, "rests_on": list(rests_on),
            "children": [{"message": "`own::T0: Send`: a reason"}]}


def refusal(query: str, why: str) -> dict[str, Any]:
    return {"$message_type": "diagnostic", "message": f"no answer to `{query}`: {why}", "answer": "not understood", "basis": None, "rests_on": []}


class Answers(unittest.TestCase):
    def read(self, messages: list[dict[str, Any]], queries: list[Query] | None = None) -> list[Answer]:
        output = "".join(json.dumps(message) + "\n" for message in messages)
        return read_answers(Called(0, output, ""), queries or QUERIES)

    def test_messages(self) -> None:
        found = self.read([answer("own::T0: Send", "yes"), answer("own::T1: Send", "not settled", "the upper text has a proof", ("a.rs:1: dropped",)),
                           answer("own::T2: Send", "no", "argued: chains without end"), answer("own::T3: Send", "unproved", "neither text has a proof")])
        self.assertEqual(found, [Answer("yes", "by law"), Answer("not settled", "the upper text has a proof", ["a.rs:1: dropped"]),
                                 Answer("no", "argued: chains without end"), Answer("unproved", "neither text has a proof")])

    def test_lines_that_are_no_messages_are_passed_over(self) -> None:
        lines = "from-rustdoc: a word\n" + json.dumps({"$message_type": "summary"}) + "\n[]\n" + json.dumps(answer("own::T0: Send", "yes")) + "\n"
        self.assertEqual(read_answers(Called(0, lines, ""), QUERIES), [Answer("yes", "by law")])

    def test_several_bounds_are_joined(self) -> None:
        queries = [Query("A + B", "own::T", ("A", "B"), ("T",), ("T: C",)), QUERIES[0]]
        for words, joined in [(("yes", "yes"), "yes"), (("yes", "no"), "no"), (("unproved", "not settled"), "unproved"), (("not settled", "yes"), "not settled")]:
            messages = [answer("<T> own::T: A where T: C", words[0]), answer("<T> own::T: B  where T: C", words[1]), answer("own::T0: Send", "yes")]
            self.assertEqual([answer.word for answer in self.read(messages, queries)], [joined, "yes"])

    def test_one_that_is_refused(self) -> None:
        found = self.read([answer("own::T0: Send", "yes"), refusal("own::T1: Send", "`own::T1` is not known"), answer("own::T2: Send", "yes"), answer("own::T3: Send", "no")])
        self.assertEqual(found[1], Answer(REFUSED, "`own::T1` is not known"))
        self.assertEqual([answer.word for answer in found], ["yes", REFUSED, "yes", "no"])

    def test_an_answer_to_another_query_is_none(self) -> None:
        self.assertEqual(self.read([answer("own::T0: Send", "yes"), answer("own::T2: Send", "no")]), [Answer("yes", "by law")])

    def test_one_that_ends_the_call(self) -> None:
        self.assertEqual(self.read([answer("own::T0: Send", "yes")]), [Answer("yes", "by law")])


class Reports(unittest.TestCase):
    def test_lines_on_impls(self) -> None:
        line = "loss a-1.0/src/b.rs:7: impl<T> own::Tr<Vec<T>> for &'static mut own::B<T>: the associated type `Item`: dropped (the upper text has it more often)"
        self.assertEqual(read_impl(line), {
            "header": "impl<T> own::Tr<Vec<T>> for &'static mut own::B<T>", "source": "a-1.0/src/b.rs:7", "fate": "loss", "trait": "own::Tr", "type": "own::B",
            "losses": "the associated type `Item`: dropped (the upper text has it more often)"})
        self.assertEqual([read_impl(line) for line in ("whole b.rs:1: struct own::B", "own 1.0: 3 impls, all whole", "cut b.rs:2: struct own::C: why")], [None] * 3)

    def test_names_of_the_trait_and_of_the_type(self) -> None:
        for header, names in [("impl<T> PartialEq<&T> for bytes::Bytes", ("PartialEq", "bytes::Bytes")), ("impl !Send for own::N", ("Send", "own::N")),
                              ("impl<F: Fn() -> T, T> own::Run for own::Boxed<F>", ("own::Run", "own::Boxed")), ("impl own::Tr for *const u8", ("own::Tr", "u8"))]:
            self.assertEqual(names_of(header), names, header)


class Compared(unittest.TestCase):
    def test_words(self) -> None:
        for answer, rustc, word in [("yes", HOLDS, "yes/yes"), ("yes", FAILS, "wrong"), ("no", HOLDS, "wrong"), ("no", FAILS, "no/no"), ("unproved", FAILS, "unproved/no"),
                                  ("unproved", HOLDS, "wrong"), ("not settled", HOLDS, "not settled"), (REFUSED, HOLDS, "not read"), ("yes", REJECTED, REJECTED),
                                  ("yes", OPEN, OPEN), ("yes", LIFETIMES, "yes, but for lifetimes"), ("no", LIFETIMES, "wrong"), ("something", FAILS, "wrong")]:
            self.assertEqual(compared(Answer(answer), Verdict(rustc)), word, (answer, rustc))

    def test_on_what_answers_rest(self) -> None:
        self.assertEqual([foundation(Answer(*answer)) for answer in (("yes", "by law"), ("no", "argued: a cut struct"), ("unproved", "neither text has a proof"),
                                                               ("not settled", "the upper text has a proof"))],
                         ["by law", "argued", "no proof in either text", ""])


class Releases(unittest.TestCase):
    def test_messages(self) -> None:
        message = {"$message_type": "diagnostic", "message": "`impl<T> PartialEq<&T> for own::B` breaks crates that have an impl of their own",
                   "class": "impl-added", "answer": "breaking", "spans": [{"file_name": "src/b.rs", "line_start": 7}],
                   "children": [{"message": "another crate may have `impl PartialEq<&Mine> for own::B`"}]}
        summary = {"$message_type": "summary", "answer": "breaking"}
        found = read_release(json.dumps(message) + "\n" + json.dumps(summary) + "\n")
        self.assertEqual((found.answer, len(found.changes)), ("breaking", 1))
        change = found.changes[0]
        self.assertEqual((change.code, change.word, change.header, change.source, change.reason),
                         ("impl-added", "breaking", "impl<T> PartialEq<&T> for own::B", "src/b.rs:7", "another crate may have `impl PartialEq<&Mine> for own::B`"))

    def test_one_without_a_last_word_is_an_error(self) -> None:
        with self.assertRaisesRegex(BadInput, "without a last word"):
            read_release("")
