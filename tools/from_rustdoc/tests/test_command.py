"""The command itself: statuses, JSON, and that nothing ends in a traceback or in another's status."""
from __future__ import annotations

import contextlib
import io
import json
import os
import tempfile
import unittest
from typing import Any
from unittest import mock

from .. import command
from ..read.terms import Place
from ..report.messages import Message, Output, Sources, Span, rendered, span_json, worst
from .common import EXPLAINS, PROGRAM, WHY_NO_EXPLANATION, WHY_NO_PROGRAM, kept

# rustc's keys, of `rustc --error-format json`.
KEYS = {"$message_type", "message", "code", "level", "spans", "children", "rendered"}
SPAN = {"file_name", "byte_start", "byte_end", "line_start", "line_end", "column_start", "column_end", "is_primary", "text", "label", "suggested_replacement",
        "suggestion_applicability", "expansion"}


class Ended(unittest.TestCase):
    """Runs the command in this process, with the kept documents of std and a place of its own for what it keeps."""

    def setUp(self) -> None:
        room = tempfile.TemporaryDirectory()
        self.addCleanup(room.cleanup)
        self.room = room.name
        cache = mock.patch.dict(os.environ, {"XDG_CACHE_HOME": self.room})
        cache.start()
        self.addCleanup(cache.stop)

    def run_words(self, *words: str) -> tuple[int, str, str]:
        out, err = io.StringIO(), io.StringIO()
        with contextlib.redirect_stdout(out), contextlib.redirect_stderr(err):
            try:
                status = command.main([*words, "--docs", kept("std"), "--quiet", *(["--program", PROGRAM] if PROGRAM else []),
                                       *(["--program-that-explains", EXPLAINS] if EXPLAINS else [])])
            except SystemExit as ended:
                status = int(ended.code or 0)
        return status, out.getvalue(), err.getvalue()

    def only(self, version: str, *names: str) -> str:
        """The kept pairs with these modules alone."""
        with open(kept(f"pairs_{version}"), encoding="utf-8") as handle:
            data: dict[str, Any] = json.load(handle)
        top = data["index"][str(data["root"])]["inner"]["module"]
        top["items"] = [number for number in top["items"] if data["index"][str(number)]["name"] in names]
        file = os.path.join(self.room, f"{version}.json")
        with open(file, "w", encoding="utf-8") as handle:
            json.dump(data, handle)
        return file

    def later(self, *names: str, words: tuple[str, ...] = ()) -> tuple[int, str, str]:
        return self.run_words("later", self.only("old", *names), self.only("new", *names), *words)


@unittest.skipIf(WHY_NO_PROGRAM, WHY_NO_PROGRAM)
class Statuses(Ended):
    def test_later_says_by_its_status_what_it_found(self) -> None:
        for name, status, answer in [("bound_that_follows", 0, "compatible"), ("lifetime_bound_added", 4, "not settled"), ("dyn_lost", 1, "breaking")]:
            found, out, _ = self.later(name)
            with self.subTest(name):
                self.assertEqual(found, status)
                self.assertIn(f"pairs 1.0.0 to 1.0.0: {answer}", out.splitlines()[-1])
        self.assertEqual(self.later("dyn_lost", "lifetime_bound_added")[0], 1)

    def test_an_answer_that_was_not_expected_is_told_by_the_status(self) -> None:
        base = os.path.join(self.room, "reasons")
        self.assertEqual(self.run_words("read", "-o", base, kept("reasons"))[0], 0)
        yes, no, open_ = "Vec<u8>: reasons::Show", "reasons::Inner: Send", "reasons::Either<u8>: Send"
        for questions, expect, status in [([yes, no], None, 0), ([yes], "yes", 0), ([no], "yes", 1), ([yes], "no", 1), ([no, open_], "no", 0),
                                          ([yes, "nothing at all"], None, 3), ([no, "reasons::Nothing: Send"], "yes", 3)]:
            words = ["--expect", expect] if expect else []
            with self.subTest(f"{questions} {expect}"):
                self.assertEqual(self.run_words("ask", base, *questions, *words)[0], status)

    def test_a_check_says_by_its_status_what_it_found(self) -> None:
        base = os.path.join(self.room, "reasons")
        self.run_words("read", "-o", base, kept("reasons"))
        self.assertEqual(self.run_words("check", base)[0], 0)
        status, out, _ = self.run_words("check", base, "--message-format", "json")
        said = [json.loads(line) for line in out.splitlines()]
        self.assertEqual((status, [(m["$message_type"], m["crate"], m["answer"]) for m in said]), (0, [("summary", "reasons", "coherent")]))

    @unittest.skipIf(WHY_NO_EXPLANATION, WHY_NO_EXPLANATION)
    def test_an_answer_has_its_reason_behind_it(self) -> None:
        base = os.path.join(self.room, "reasons")
        self.run_words("read", "-o", base, kept("reasons"))
        _, out, _ = self.run_words("ask", base, "reasons::Cycle: Send")
        self.assertIn("its field `count` is `Rc<u8>` (reasons.rs:7)", out)
        _, out, _ = self.run_words("ask", base, "reasons::Cycle: Send", "--message-format", "json")
        (message,) = [json.loads(line) for line in out.splitlines()]
        self.assertEqual((message["answer"], message["class"], message["level"], message["spans"][0]["line_start"]), ("no", "no", "note", 7))
        self.assertEqual([child["spans"][0]["line_start"] for child in message["children"] if child["spans"]], [7])


@unittest.skipIf(WHY_NO_PROGRAM, WHY_NO_PROGRAM)
class Json(Ended):
    def test_messages_have_rustcs_keys_and_a_class(self) -> None:
        status, out, _ = self.later("bound_added_to_a_struct", "impl_removed", "lifetime_bound_added", words=("--message-format", "json"))
        *messages, summary = [json.loads(line) for line in out.splitlines()]
        for message in messages:
            self.assertLessEqual(KEYS, set(message))
            self.assertEqual(message["class"], message["code"]["code"])
            for span in message["spans"]:
                self.assertEqual(set(span), SPAN)
        self.assertEqual([(m["class"], m["answer"], m["level"]) for m in messages if m["level"] != "note"], [
            ("bound-added", "breaking", "error"), ("impl-removed", "breaking", "error"), ("lifetime-bound-added", "changed", "warning")])
        self.assertIn("has no proof: unproved", messages[0]["basis"])
        self.assertEqual((summary["$message_type"], summary["answer"], summary["status"], status), ("summary", "breaking", 1, 1))
        self.assertEqual((summary["counts"]["breaking"], summary["counts"]["changed"], summary["counts"].get("not settled")), (2, 1, None))

    def test_a_question_that_is_not_understood_is_a_message_too(self) -> None:
        base = os.path.join(self.room, "reasons")
        self.run_words("read", "-o", base, kept("reasons"))
        status, out, err = self.run_words("ask", base, "Vec<: Send", "Vec<u8>: Send", "--message-format", "json")
        said = [json.loads(line) for line in out.splitlines()]
        self.assertEqual((status, [m["class"] for m in said], err), (3, ["not-understood", "yes"], ""))


class Errors(Ended):
    def one_line(self, *words: str) -> str:
        """The only line on standard error, with status 3."""
        status, out, err = self.run_words(*words)
        self.assertEqual((status, out, err.count("\n")), (3, "", 1), (words, err))
        return err

    def test_bad_input_ends_with_one_line_and_status_3(self) -> None:
        self.assertIn("cannot be read as JSON", self.one_line("later", "/nowhere/a.json", "/nowhere/b.json"))
        self.assertIn("takes two JSON files", self.one_line("later", kept("before")))
        self.assertIn("two crates, not two versions", self.one_line("later", kept("before"), kept("after")))
        self.assertIn("takes one project", self.one_line("later", "--baseline", "HEAD", "a", "b"))
        self.assertIn("has no Cargo.toml", self.one_line("later", "--baseline", "HEAD", self.room))
        self.assertIn(".map cannot be read", self.one_line("ask", os.path.join(self.room, "none"), "u8: Copy"))
        self.assertIn("No such file", self.one_line("read", "-o", os.path.join(self.room, "x"), kept("before"), "--metadata", "/nowhere"))
        self.assertIn("it has no format number", self.one_line("read", "-o", os.path.join(self.room, "x"), kept("std")))

    def test_what_is_nested_too_deep_is_bad_input(self) -> None:
        with open(kept("deep"), encoding="utf-8") as handle:
            data = json.load(handle)
        next(item for item in data["index"].values() if "struct_field" in item["inner"])["inner"]["struct_field"] = "HERE"
        for number, deep in enumerate(('{"slice":' * 9000 + '{"primitive":"u8"}' + "}" * 9000, "[" * 100_000 + "]" * 100_000)):
            file = os.path.join(self.room, f"deep{number}.json")
            with open(file, "w", encoding="utf-8") as handle:
                handle.write(json.dumps(data).replace('"HERE"', deep))
            self.assertEqual(self.one_line("later", file, file), f"from-rustdoc: {file}: something in it is nested too deep to be read\n")

    def test_words_that_are_not_understood_end_with_status_2(self) -> None:
        for words in (["nothing"], ["later", "--expect", "yes"], ["ask"], ["ask", "x", "y", "--expect", "perhaps"]):
            self.assertEqual(self.run_words(*words)[0], 2, words)

    def test_a_mistake_is_told_in_a_line_and_is_no_answer(self) -> None:
        for error in (TypeError("what\nis this"), RecursionError("too deep"), IndexError(), AssertionError("no")):
            with mock.patch.object(command, "read", side_effect=error):
                line = self.one_line("read", "-o", "x", "y")
            self.assertIn(f"a mistake of the translator: {type(error).__name__}", line)

    def test_a_closed_output_is_no_answer(self) -> None:
        with mock.patch.object(command, "read", side_effect=BrokenPipeError):
            self.assertIn("standard output was closed", self.one_line("read", "-o", "x", "y"))

    def test_a_mistake_can_be_looked_at(self) -> None:
        with mock.patch.object(command, "read", side_effect=TypeError), mock.patch.dict(os.environ, {"FROM_RUSTDOC_TRACE": "1"}):
            with self.assertRaises(TypeError):
                self.run_words("read", "-o", "x", "y")


class Rendered(unittest.TestCase):
    def setUp(self) -> None:
        room = tempfile.TemporaryDirectory()
        self.addCleanup(room.cleanup)
        self.room = room.name
        with open(os.path.join(self.room, "lib.rs"), "w", encoding="utf-8") as handle:
            handle.write("// ümlaut\npub struct S<T>(T);\nimpl<T> Clone for S<T> {\n}\n")
        self.sources = Sources({"": [self.room]})

    def test_a_place_is_shown_with_its_line(self) -> None:
        message = Message("a text", "bound-added", "breaking", spans=[Span(Place("lib.rs", 2, 5, 2, 20), "here")])
        shown = rendered(message.note("and a note"), self.sources)
        path = os.path.join(self.room, "lib.rs")
        self.assertEqual(shown, f"error[bound-added]: a text\n --> {path}:2:5\n  |\n2 | pub struct S<T>(T);\n  |     ^^^^^^^^^^^^^^^ here\n  = note: and a note\n")

    def test_a_place_has_its_bytes(self) -> None:
        found = span_json(Span(Place("lib.rs", 3, 1, 4, 2)), self.sources)
        # `ü` has two bytes; the impl begins behind 11 + 20 bytes.
        self.assertEqual((found["byte_start"], found["byte_end"], found["text"][0]["highlight_end"]), (31, 31 + 26, 25))

    def test_a_file_that_is_not_there_is_named_all_the_same(self) -> None:
        found = span_json(Span(Place("gone.rs", 3, 1, 4, 2), version="old"), self.sources)
        self.assertEqual((found["file_name"], found["text"], found["byte_start"], found["label"]), ("gone.rs", [], 0, "the old version"))

    def test_no_answer_is_worse_than_a_bad_one(self) -> None:
        statuses: list[list[int]] = [[], [0, 4], [4, 1, 0], [1, 3, 4]]
        self.assertEqual([worst(s) for s in statuses], [0, 4, 1, 3])

    def test_what_is_fine_has_one_line(self) -> None:
        stream = io.StringIO()
        Output(self.sources, stream=stream).message(Message("`impl A for B`", "impl-added", "compatible", spans=[Span(Place("lib.rs", 3, 1, 4, 2))]))
        self.assertEqual(stream.getvalue(), f"compatible: `impl A for B` ({os.path.join(self.room, 'lib.rs')}:3)\n")
