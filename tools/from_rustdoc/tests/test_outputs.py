"""The forms of messages: short, in colours, GitHub's annotations, and SARIF, of which the shape is checked by hand against version 2.1.0."""
from __future__ import annotations

import io
import json
import os
import re
import tempfile
import unittest
from typing import Any
from unittest import mock

from ..read.terms import Place
from ..report.messages import Message, Output, Sources, Span
from ..report.outputs import FORMATS, Reporter, coloured, command

SOURCE = "// ümlaut\npub struct S<T>(T);\nimpl<T> Clone for S<T> {\n}\n"


class Forms(unittest.TestCase):
    def setUp(self) -> None:
        room = tempfile.TemporaryDirectory()
        self.addCleanup(room.cleanup)
        self.room = os.path.realpath(room.name)
        os.makedirs(os.path.join(self.room, ".git"))
        os.makedirs(os.path.join(self.room, "a folder", "src"))
        self.crate = os.path.join(self.room, "a folder")
        with open(os.path.join(self.crate, "src", "lib.rs"), "w", encoding="utf-8") as handle:
            handle.write(SOURCE)
        patch = mock.patch.dict(os.environ)
        patch.start()
        self.addCleanup(patch.stop)
        for name in ("GITHUB_WORKSPACE", "NO_COLOR", "CARGO_TERM_COLOR"):
            os.environ.pop(name, None)

    def output(self, form: str, **more: Any) -> tuple[Reporter, Output, io.StringIO]:
        stream = io.StringIO()
        reporter = Reporter(form, stream=stream, **more)
        return reporter, reporter.output(Sources({"": [self.crate], "old": [self.crate]})), stream

    @staticmethod
    def messages() -> list[Message]:
        """One of each kind: at a place of several lines, of the older version, waived, fine, and without an answer."""
        return [Message("50% of `S`:\nall, of it", "bound-added", "breaking", "a", [Span(Place("src/lib.rs", 3, 1, 4, 2), "here")], basis="argued: x").note("why", Span(Place("src/lib.rs", 2, 5, 2, 11))),
                Message("struct `a::Gone` is removed", "item-removed", "breaking", "a", [Span(Place("src/lib.rs", 1, 1, 1, 3), version="old")]),
                Message("struct a::S has a new bound: `T: Copy`", "bound-added", "changed", "a", [Span(Place("src/lib.rs", 2, 5, 2, 11))], waived="nobody, 100% sure"),
                Message("`impl Clone for a::S`", "impl-added", "compatible", "a"),
                Message("no answer to `x`: why", "not-understood", "not understood")]

    def said(self, form: str, **more: Any) -> str:
        reporter, output, stream = self.output(form, **more)
        for message in self.messages():
            output.message(message)
        output.summary("a 1.0.0 to 1.1.0 (minor): breaking (2 breaking, 1 changed waived)", "a", "breaking", 1, waived={"changed": 1})
        reporter.end(1)
        return stream.getvalue()


class Lines(Forms):
    def test_each_form_says_what_was_waived(self) -> None:
        for form in FORMATS:
            said = self.said(form)
            self.assertIn("1 changed waived", said, form)
            self.assertIn("nobody, 100", said, form)

    def test_short_has_a_line_for_each(self) -> None:
        file = os.path.join(self.crate, "src", "lib.rs")
        lines = self.said("short").splitlines()
        self.assertEqual(lines[2], "src/lib.rs:1:1 (the old version): error[item-removed]: struct `a::Gone` is removed")
        self.assertEqual(lines[3], f"waived, changed: struct a::S has a new bound: `T: Copy` ({file}:2) [bound-added]; nobody, 100% sure")
        self.assertEqual(lines[4:6], ["compatible: `impl Clone for a::S`", "error[not-understood]: no answer to `x`: why"])

    def test_colours_are_added_and_change_no_text(self) -> None:
        plain = self.said("human")
        self.assertNotIn("\x1b", plain)
        shown = self.said("human", color="always")
        self.assertIn("\x1b[1;91merror[item-removed]\x1b[0m:", shown)
        self.assertEqual(re.sub(r"\x1b\[[0-9;]*m", "", shown), plain)
        self.assertEqual(coloured("compatible: `impl A for error`\n"), "compatible: `impl A for error`\n")

    def test_json_has_a_key_for_it(self) -> None:
        found = [json.loads(line) for line in self.said("json").splitlines()]
        self.assertEqual([(one.get("answer"), one.get("level"), one.get("waived")) for one in found[:3]],
                         [("breaking", "error", None), ("breaking", "error", None), ("changed", "note", "nobody, 100% sure")])
        self.assertEqual(found[-1]["waived"], {"changed": 1})


class GitHub(Forms):
    def test_what_has_a_meaning_there_is_escaped(self) -> None:
        self.assertEqual(command("error", "50%\r\nof: a, b", file="a,b:c%.rs", line=3, title=""), "::error file=a%2Cb%3Ac%25.rs,line=3::50%25%0D%0Aof: a, b\n")
        self.assertEqual(command("error", "x"), "::error::x\n")

    def test_errors_warnings_and_what_is_waived_are_annotations(self) -> None:
        lines = self.said("github").splitlines()
        self.assertEqual(lines, [
            "::error file=a folder/src/lib.rs,line=3,endLine=4,title=bound-added::50%25 of `S`:%0Aall, of it%0Anote: why",
            "::error title=item-removed::struct `a::Gone` is removed (src/lib.rs:1 (the old version))",
            "::notice file=a folder/src/lib.rs,line=2,endLine=2,col=5,endColumn=11,title=bound-added::struct a::S has a new bound: `T: Copy`%0Awaived: nobody, 100%25 sure",
            "compatible: `impl Clone for a::S`", "::error title=not-understood::no answer to `x`: why",
            "a 1.0.0 to 1.1.0 (minor): breaking (2 breaking, 1 changed waived)"])

    def test_files_are_named_from_the_workspace_of_the_job(self) -> None:
        os.environ["GITHUB_WORKSPACE"] = self.crate
        self.assertIn("::error file=src/lib.rs,line=3,", self.said("github"))
        os.environ["GITHUB_WORKSPACE"] = os.path.join(self.room, "elsewhere")
        self.assertIn("::error file=a folder/src/lib.rs,line=3,", self.said("github"))

    def test_what_is_no_annotation_is_no_command_and_none_is_told_twice(self) -> None:
        reporter, output, stream = self.output("github")
        output.line("::error::Error: Send    yes\n  ::debug::x\nend ##[group]x")
        output.message(self.messages()[1])
        reporter.output(output.sources).message(self.messages()[1])
        lines = stream.getvalue().splitlines()
        self.assertEqual(lines[:3], ["- ::error::Error: Send    yes", "-   ::debug::x", "end ## [group]x"])
        self.assertEqual(len(lines), 4)

    def test_what_ends_a_call_is_an_annotation(self) -> None:
        reporter, _, stream = self.output("github")
        reporter.fail("a\nb")
        self.assertEqual(stream.getvalue(), "::error::a%0Ab\n")


# The parts of SARIF 2.1.0 that are written: the properties of each object, those that it has to have with `!`, and their kinds.
LEVELS = {"none", "note", "warning", "error"}
TEXT = {"text!": str}
PHYSICAL = {"artifactLocation!": {"uri!": str, "uriBaseId": str}, "region!": {"startLine!": int, "startColumn": int, "endLine": int, "endColumn": int}}
LOCATION = {"physicalLocation!": PHYSICAL, "message": TEXT}
RESULT = {"ruleId!": str, "ruleIndex": int, "level": LEVELS, "message!": TEXT, "locations": [LOCATION], "relatedLocations": [LOCATION],
          "suppressions": [{"kind!": {"inSource", "external"}, "status": {"accepted", "underReview", "rejected"}, "justification": str}], "properties": dict}
RUN = {"tool!": {"driver!": {"name!": str, "rules": [{"id!": str, "shortDescription": TEXT}]}}, "columnKind": {"utf16CodeUnits", "unicodeCodePoints"},
       "invocations": [{"executionSuccessful!": bool, "exitCode": int, "toolExecutionNotifications": [{"level": LEVELS, "message!": TEXT}]}],
       "results": [RESULT], "properties": dict}
LOG = {"$schema": str, "version!": {"2.1.0"}, "runs!": [RUN]}


def faults(found: Any, shape: Any, place: str = "") -> list[str]:
    if isinstance(shape, type):
        return [] if isinstance(found, shape) and not (shape is int and isinstance(found, bool)) else [f"{place} is {found!r}"]
    if isinstance(shape, set):
        return [] if found in shape else [f"{place} is {found!r}"]
    if isinstance(shape, list):
        return [f for n, one in enumerate(found) for f in faults(one, shape[0], f"{place}/{n}")] if isinstance(found, list) else [f"{place} is no list"]
    if not isinstance(found, dict):
        return [f"{place} is no object"]
    known = {name.rstrip("!"): (name, its) for name, its in shape.items()}
    return [f"{place} has no {name}" for name, (full, _) in known.items() if full.endswith("!") and name not in found] + \
        [fault for name, one in found.items() for fault in (faults(one, known[name][1], f"{place}/{name}") if name in known else [f"{place} has {name}"])]


class Sarif(Forms):
    def document(self) -> Any:
        return json.loads(self.said("sarif"))

    def test_its_shape_is_that_of_the_standard(self) -> None:
        found = self.document()
        self.assertEqual(faults(found, LOG), [])
        # (What looks for faults finds some.)
        self.assertEqual(faults({"version": "2.1", "runs": [{"tool": {}, "x": 1}]}, LOG), ["/version is '2.1'", "/runs/0/tool has no driver", "/runs/0 has x"])
        run = found["runs"][0]
        for result in run["results"]:
            self.assertEqual(run["tool"]["driver"]["rules"][result["ruleIndex"]]["id"], result["ruleId"])
            for one in [*result["locations"], *result.get("relatedLocations", [])]:
                uri, region = one["physicalLocation"]["artifactLocation"]["uri"], one["physicalLocation"]["region"]
                self.assertRegex(uri, r"^(?!/)(?!file:)[A-Za-z0-9_.~/%-]+$")
                self.assertGreaterEqual(min(region.values()), 1)
                self.assertLessEqual((region["startLine"], region["startColumn"]), (region["endLine"], region["endColumn"]))

    def test_it_has_errors_warnings_and_what_is_waived(self) -> None:
        run = self.document()["runs"][0]
        self.assertEqual([(r["ruleId"], r["level"], len(r["locations"]), [s["justification"] for s in r.get("suppressions", [])]) for r in run["results"]],
                         [("bound-added", "error", 1, []), ("item-removed", "error", 0, []), ("bound-added", "note", 1, ["nobody, 100% sure"])])
        self.assertEqual(run["results"][0]["locations"][0]["physicalLocation"],
                         {"artifactLocation": {"uri": "a%20folder/src/lib.rs", "uriBaseId": "%SRCROOT%"}, "region": {"startLine": 3, "startColumn": 1, "endLine": 4, "endColumn": 2}})
        self.assertEqual(run["invocations"], [{"executionSuccessful": True, "exitCode": 1,
                                               "toolExecutionNotifications": [{"level": "error", "message": {"text": "no answer to `x`: why"}}]}])
        self.assertEqual(run["properties"]["summaries"][0]["waived"], {"changed": 1})
        self.assertEqual(run["properties"]["notes"], ["compatible: `impl Clone for a::S`"])

    def test_without_an_answer_it_is_a_document_all_the_same(self) -> None:
        reporter, _, stream = self.output("sarif")
        reporter.fail("there is no Cargo.toml")
        reporter.end(3)
        found = json.loads(stream.getvalue())
        self.assertEqual(faults(found, LOG), [])
        self.assertEqual((found["runs"][0]["invocations"][0]["executionSuccessful"], found["runs"][0]["results"]), (False, []))


if __name__ == "__main__":
    unittest.main()
