"""Answers in this process, beside those of the program; and how the programs and the library are found."""
from __future__ import annotations

import itertools
import json
import os
import shutil
import subprocess
import sys
import tempfile
import unittest
from typing import Any
from unittest import mock

from ..ask import library, program
from ..ask.program import ask, run
from ..ask.questions import Asker, QuestionReader
from ..read import proved
from ..read.proved import LIBRARY, TOP, proved_program
from ..read.terms import BadInput
from .common import texts, translation, world

PROGRAM = proved_program()
NO_LIBRARY = "" if PROGRAM and proved_program(LIBRARY) and shutil.which("cc") else "there is no proved library of these sources, or no C compiler"
TEXT = "crate base\ntrait Show\nimpl Show for u8\ncrate a uses base\nstruct V<T>(T)\nimpl<T> Show for V<T> where T: Show\n"
LINES = ["prove in a V<u8>: Show", "prove in a V<bool>: Show", "refute in a bool: Show", "prove in base fn(u8): Fn<?x>"]


class Room(unittest.TestCase):
    def setUp(self) -> None:
        self.room = tempfile.mkdtemp()
        self.addCleanup(shutil.rmtree, self.room)


@unittest.skipIf(NO_LIBRARY, NO_LIBRARY)
class InProcess(Room):
    def without_programs(self) -> Any:
        return mock.patch.object(program, "printed", side_effect=AssertionError("a program was run"))

    def setUp(self) -> None:
        super().setUp()
        few = mock.patch.object(program, "FEW", 0)
        few.start()
        self.addCleanup(few.stop)

    def test_few_texts_are_answered_by_the_program(self) -> None:
        with mock.patch.object(program, "FEW", 1), mock.patch.object(program, "ASKED", itertools.count()):
            with mock.patch.object(program, "binding", side_effect=AssertionError("the library was loaded")):
                first = ask(TEXT, LINES)
            with self.without_programs():
                second = ask(TEXT, LINES)
        self.assertEqual((first.questions, first.values), (second.questions, second.values))

    def test_kept_texts_have_the_answers_of_the_program(self) -> None:
        for name in ("shapes", "before", "after"):
            for text in texts(translation(name)).values():
                with self.without_programs():
                    found = run(text)
                self.assertEqual(found, run(text, PROGRAM))

    def test_lines_behind_a_text_have_the_answers_of_the_program(self) -> None:
        with self.without_programs():
            found = ask(TEXT, LINES)
        behind = ask(TEXT, LINES, PROGRAM)
        self.assertEqual((found.questions, found.values), (behind.questions, behind.values))
        self.assertEqual(found.questions, ["yes", "unproved", "open", "yes"])
        self.assertEqual((found.values[3], found.crates, behind.crates), ("?x = (u8,)", {}, {"base": "accepted", "a": "accepted"}))

    def test_a_question_takes_no_program(self) -> None:
        shapes = world("shapes")
        questions = [q for written in ("shapes::Tree<u8>: Send", "shapes::Tree<u8>: Copy") for q in QuestionReader(shapes).read_all(written)]
        with self.without_programs():
            verdicts = Asker(translation("shapes")).ask(questions)
        self.assertEqual([v.word for v in verdicts], [v.word for v in Asker(translation("shapes"), PROGRAM).ask(questions)])

    def test_a_fault_is_a_mistake_of_the_translator_with_the_line(self) -> None:
        odd = TEXT + "impl Odd for u8\n"
        for named in (None, PROGRAM):
            with self.assertRaisesRegex(BadInput, "mistake of the translator: .*fault 5.*`impl Odd for u8`"):
                run(odd, named)
            for text, line in ((TEXT, "prove in a W: Show"), (odd, "impl Odd for u8")):
                with self.assertRaisesRegex(BadInput, f"mistake of the translator: .*fault 5.*`{line}`"):
                    ask(text, ["prove in a W: Show"], named)

    def test_what_has_no_answer_is_told(self) -> None:
        with self.assertRaisesRegex(BadInput, "asks nothing"):
            ask(TEXT, ["trait New"])

    def test_the_shared_object_is_made_once(self) -> None:
        archive = proved_program(LIBRARY)
        assert archive is not None
        first = library.made_of(archive, self.room)
        with mock.patch.object(subprocess, "run", side_effect=AssertionError("made anew")):
            self.assertEqual(library.made_of(archive, self.room), first)
        self.assertEqual(os.listdir(self.room), [os.path.basename(first)])

    def test_without_a_compiler_or_an_archive_programs_are_run(self) -> None:
        find = library.binding.__wrapped__
        self.assertIsNone(find(None, self.room))
        self.assertIsNone(find(os.path.join(self.room, "none.a"), self.room))
        with mock.patch.dict(os.environ, {"PATH": self.room}):
            self.assertIsNone(find(proved_program(LIBRARY), self.room))
        with mock.patch.dict(os.environ, {library.NAMED: os.path.join(self.room, "none.so")}), mock.patch.dict(sys.modules):
            sys.modules.pop("celtisdarts", None)
            self.assertIsNone(find(None, self.room))
        self.assertNotIn(library.NAMED, os.environ)
        with mock.patch.object(program, "binding", return_value=None):
            self.assertEqual(ask(TEXT, LINES).questions, ["yes", "unproved", "open", "yes"])


class Found(Room):
    """The search for a program, with a stand-in for what `sh` says, over a folder that changes."""

    def setUp(self) -> None:
        super().setUp()
        self.source = os.path.join(self.room, "crates", "a", "src", "lib.rt")
        os.makedirs(os.path.dirname(self.source))
        self.write("one")
        self.calls = 0
        patches: list[Any] = [mock.patch.object(proved, "TOP", self.room), mock.patch.object(proved, "SETTLED", -1.0), mock.patch.object(subprocess, "run", self.said),
                              mock.patch.dict(os.environ, {"XDG_CACHE_HOME": os.path.join(self.room, "cache")})]
        for patch in patches:
            patch.start()
            self.addCleanup(patch.stop)
        self.addCleanup(proved.state.cache_clear)

    def write(self, text: str) -> None:
        with open(self.source, "w", encoding="utf-8") as handle:
            handle.write(text)

    def said(self, *words: Any, **more: Any) -> Any:
        self.calls += 1
        return mock.Mock(stdout=f"/program/{more['env']['wanted']}/{self.calls}\n")

    def find(self, name: str = "celtisdarts") -> Any:
        proved.state.cache_clear()
        return proved.proved_program.__wrapped__(name)

    def test_it_is_asked_once_while_nothing_changes(self) -> None:
        self.assertEqual([self.find(), self.find(), self.find("other"), self.find("other")], ["/program/celtisdarts/1"] * 2 + ["/program/other/2"] * 2)
        self.write("more than that")
        self.assertEqual([self.find(), self.find()], ["/program/celtisdarts/3"] * 2)
        os.remove(self.source)
        self.assertEqual(self.find(), "/program/celtisdarts/4")

    def test_what_was_written_just_now_is_not_kept(self) -> None:
        with mock.patch.object(proved, "SETTLED", 60.0):
            self.assertEqual([self.find(), self.find()], ["/program/celtisdarts/1", "/program/celtisdarts/2"])

    def test_what_is_removed_meanwhile_is_no_error(self) -> None:
        with mock.patch.object(proved, "looked_at", return_value=[os.path.join(self.room, "gone")]):
            self.assertEqual([self.find(), self.find()], ["/program/celtisdarts/1", "/program/celtisdarts/2"])

    def test_what_is_damaged_is_found_again(self) -> None:
        self.find()
        (kept,) = os.listdir(os.path.join(self.room, "cache", "celtisdarts"))
        for text in ("", "{", "[]", json.dumps({"path": "/odd"}), json.dumps({"state": "other", "path": "/odd"})):
            with open(os.path.join(self.room, "cache", "celtisdarts", kept), "w", encoding="utf-8") as handle:
                handle.write(text)
            self.calls = 6
            self.assertEqual(self.find(), "/program/celtisdarts/7", text)

    def test_a_folder_that_cannot_be_written_is_none_that_keeps(self) -> None:
        with mock.patch.dict(os.environ, {"XDG_CACHE_HOME": self.source}):
            self.assertEqual([self.find(), self.find()], ["/program/celtisdarts/1", "/program/celtisdarts/2"])


@unittest.skipUnless(shutil.which("git") and os.path.exists(os.path.join(TOP, ".git")), "this is no repository of git")
class Made(unittest.TestCase):
    def test_what_the_binding_makes_beside_itself_is_none_of_the_repositorys(self) -> None:
        for name in ("libceltisdarts.so", "__pycache__/x.pyc"):
            self.assertEqual(subprocess.run(["git", "check-ignore", "-q", os.path.join("bindings", "python", name)], cwd=TOP).returncode, 0, name)


if __name__ == "__main__":
    unittest.main()
