"""The words of `cargo celtisdarts`: each flag has a line, what is none of them is told with what is near, and cargo gets what is cargo's."""
from __future__ import annotations

import contextlib
import io
import unittest
from typing import Sequence
from unittest import mock

from .. import flags
from ..command import format_of, main_of_cargo
from ..flags import COMMANDS, WrongWords
from ..read.console import Console, is_coloured


def ended(*words: str) -> tuple[int, str, str]:
    with contextlib.redirect_stdout(io.StringIO()) as said, contextlib.redirect_stderr(io.StringIO()) as errors:
        status = main_of_cargo(["celtisdarts", *words])
    return status, said.getvalue(), errors.getvalue()


class Help(unittest.TestCase):
    def test_each_flag_has_a_line_in_the_long_help_and_a_place_in_the_short(self) -> None:
        for command in COMMANDS.values():
            short, long = flags.short_help(command), flags.long_help(command)
            for flag in command.all_flags():
                self.assertTrue(flag.help)
                lines = [line.strip() for line in long.splitlines() if line.strip().startswith(flag.shown().strip() + "  ")]
                self.assertEqual([line.split("  ", 1)[1].strip() for line in lines], [flag.help], flag.names)
                self.assertIn(flag.names[-1], short)
            self.assertLess(short.count("\n"), 14)
            self.assertLessEqual(max(map(len, short.splitlines())), 100)

    def test_help_and_version_are_fine_and_nothing_is_not(self) -> None:
        for words, text in ((["-h"], "Usage: cargo celtisdarts <COMMAND>"), (["--help"], "--message-format <FMT>"), (["help", "later"], "--baseline <REV|FOLDER>"),
                            (["later", "-h"], "Usage: cargo celtisdarts later"), (["check", "--help"], "Run this to have it judged a second time"),
                            (["-V"], "cargo-celtisdarts ")):
            status, out, err = ended(*words)
            self.assertEqual((status, err), (0, ""), words)
            self.assertIn(text, out)
        status, out, err = ended()
        self.assertEqual((status, out), (2, ""))
        self.assertIn("<COMMAND>", err)


class Wrong(unittest.TestCase):
    def refused(self, *words: str) -> str:
        """The only line on standard error, with the status of wrong words."""
        status, out, err = ended(*words)
        self.assertEqual((status, out, err.count("\n")), (2, "", 1), (words, err))
        self.assertTrue(err.startswith("error: "), err)
        return err.strip().removeprefix("error: ")

    def test_what_is_no_word_is_told_with_the_nearest(self) -> None:
        self.assertEqual(self.refused("latr"), "there is no command `latr`; did you mean `later`?; there are later, ask, check, conditions, traits, serve")
        self.assertEqual(self.refused("later", "--baselin", "v1"), "`later` has no flag `--baselin`; did you mean `--baseline`?")
        self.assertEqual(self.refused("ask", "u8: Copy", "--featurs=a"), "`ask` has no flag `--featurs=a`; did you mean `--features`?")
        self.assertEqual(self.refused("later", "--xyzzy"), "`later` has no flag `--xyzzy`")
        self.assertEqual(self.refused("later", "--message-format", "jsn"), "--message-format: `jsn` is none of human, short, json, github, sarif; did you mean `json`?")
        self.assertEqual(self.refused("later", "--release-type=mayor"), "--release-type: `mayor` is none of major, minor, patch; did you mean `major`?")

    def test_what_stands_alone_or_at_the_wrong_place_is_told(self) -> None:
        self.assertEqual(self.refused("later", "--baseline"), "--baseline: expected one argument")
        self.assertEqual(self.refused("later", "mine::Pool: Send"), "`later` takes no `mine::Pool: Send`: is it a question? `cargo celtisdarts ask 'mine::Pool: Send'`")
        self.assertEqual(self.refused("check", "--exclude", "a"), "--exclude goes with --workspace alone")
        self.assertEqual(self.refused("check", "-j", "0"), "--jobs takes a number from 1 on")
        self.assertIn("there is no command", self.refused("--color", "never"))

    def test_machines_are_told_too(self) -> None:
        for form, beginning in (("json", '{"$message_type": "diagnostic"'), ("github", "::error::`later` has no flag"), ("sarif", "{\n")):
            status, out, err = ended("later", "--message-format", form, "--no")
            self.assertEqual((status, err), (2, "error: `later` has no flag `--no`\n"))
            self.assertTrue(out.startswith(beginning), out)


class Read(unittest.TestCase):
    def extra(self, name: str, *words: str) -> list[str]:
        found: list[str] = flags.read(COMMANDS[name], words).extra
        return found

    def test_cargo_gets_what_is_cargos(self) -> None:
        self.assertEqual(self.extra("later", "-F", "a,b", "--features=c", "--target", "t", "--offline", "-q", "--strict", "-j2"),
                         ["--features", "a,b", "--features", "c", "--target", "t", "--jobs", "2", "--offline"])
        self.assertEqual(self.extra("ask", "u8: Copy", "--all-features", "--config", "k=1", "--locked"), ["--all-features", "--locked", "--config", "k=1"])
        self.assertEqual(self.extra("check"), [])

    def test_flags_may_stand_before_the_command_and_between_questions(self) -> None:
        command, words = flags.command_of(["--manifest-path", "x/Cargo.toml", "-q", "ask", "u8: Copy"])
        assert command is not None
        found = flags.read(command, [*words, "--expect", "yes", "u8: Send"])
        self.assertEqual((found.manifest_path, found.quiet, found.words, found.expect), ("x/Cargo.toml", True, ["u8: Copy", "u8: Send"], "yes"))

    def test_the_form_is_known_before_the_words_are(self) -> None:
        self.assertEqual([format_of(list(words)) for words in (("later", "--message-format=sarif", "--no"), ("--message-format", "json"), ("--message-format", "x"), ())],
                         ["sarif", "json", "human", "human"])

    def test_a_word_that_is_none_raises(self) -> None:
        with self.assertRaises(WrongWords):
            self.extra("later", "--private=x")


class Terminal(io.StringIO):
    def isatty(self) -> bool:
        return True


class Progress(unittest.TestCase):
    def said(self, stream: io.StringIO, environment: dict[str, str], call: Sequence[str]) -> str:
        with mock.patch("sys.stderr", stream), mock.patch.dict("os.environ", {"TERM": "xterm", **environment}):
            console = Console()
            console.begin("cargo celtisdarts", is_quiet="quiet" in call)
            console.progress("documenting 3 of 12: serde")
            console.note("a note")
        return stream.getvalue()

    def test_it_stands_on_a_terminal_alone_and_goes_before_other_lines(self) -> None:
        plain = {"NO_COLOR": "1"}
        self.assertEqual(self.said(Terminal(), plain, ()), "\r\x1b[Kdocumenting 3 of 12: serde\r\x1b[Knote: a note\n")
        self.assertEqual(self.said(io.StringIO(), plain, ()), "note: a note\n")
        self.assertEqual(self.said(Terminal(), {**plain, "CARGO_TERM_PROGRESS_WHEN": "never"}, ()), "note: a note\n")
        self.assertEqual(self.said(Terminal(), plain, ("quiet",)), "")

    def test_colours_are_for_terminals_unless_it_is_said(self) -> None:
        cases = [("auto", True, {}, True), ("auto", False, {}, False), ("always", False, {"NO_COLOR": "1"}, True), ("never", True, {}, False),
                 ("auto", True, {"NO_COLOR": "1"}, False), ("auto", False, {"CARGO_TERM_COLOR": "always"}, True), ("auto", True, {"CARGO_TERM_COLOR": "never"}, False)]
        for choice, is_terminal, environment, wanted in cases:
            with mock.patch.dict("os.environ", {"TERM": "xterm", **environment}):
                for name in {"NO_COLOR", "CARGO_TERM_COLOR"} - set(environment):
                    __import__("os").environ.pop(name, None)
                self.assertEqual(is_coloured(choice, is_terminal), wanted, (choice, is_terminal, environment))


if __name__ == "__main__":
    unittest.main()
