"""`cargo celtisdarts` in a small workspace with tags: from folders below a package, with what its metadata says. Cargo, rustdoc and git are run."""
from __future__ import annotations

import contextlib
import io
import json
import os
import shutil
import unittest

from ..command import main_of_cargo
from .common import WHY_NO_PROGRAM, kept
from .test_older import Repository, manifest

FEATURES = "[features]\nextra = []\n"
SOURCE = "pub trait Draw {}\nimpl Draw for u8 {}\npub struct Held(u8);\n"
BOXES = "impl<T: Draw> Draw for Box<T> {}\n"
LATER = f'pub trait Draw {{}}\nimpl Draw for u8 {{}}\n#[cfg(not(feature = "extra"))]\npub struct Held(u8);\n#[cfg(feature = "extra")]\npub struct Held(*const u8);\n{BOXES}'
SETS = '[package.metadata.celtisdarts]\nfeature-sets = [["default"], ["extra"]]\n'


def waiver(code: str, item: str, reason: str = 'reason = "nobody has one"') -> str:
    return f'[[package.metadata.celtisdarts.waive]]\nclass = "{code}"\nitem = "{item}"\n{reason}\n'


OF_BOXES = waiver("impl-added", "impl<T> pool::Draw for Box<T>")
OF_HELD = waiver("auto-trait-lost", "pool::Held", 'reason = "one thread holds it"')


@unittest.skipUnless(shutil.which("cargo") and shutil.which("rustdoc"), "there is no cargo")
@unittest.skipIf(WHY_NO_PROGRAM, WHY_NO_PROGRAM)
class Workspace(Repository):
    def setUp(self) -> None:
        super().setUp()
        self.write("Cargo.toml", '[workspace]\nmembers = ["pool", "codec"]\nresolver = "2"\n')
        self.write(".gitignore", "target\n")
        self.pool("")
        self.write("pool/src/lib.rs", SOURCE)
        self.write("pool/src/deep/notes", "")
        self.write("codec/Cargo.toml", manifest("codec", '[dependencies]\npool = { path = "../pool" }\n'))
        self.write("codec/src/lib.rs", "pub struct Codec(pub pool::Held);\n")
        self.addCleanup(os.chdir, os.getcwd())

    def pool(self, more: str, version: str = "1.0.0") -> None:
        self.write("pool/Cargo.toml", manifest("pool", more).replace("1.0.0", version))

    def call(self, folder: str, *words: str) -> tuple[int, list[str], str]:
        os.chdir(os.path.join(self.folder, folder))
        with contextlib.redirect_stdout(io.StringIO()) as said, contextlib.redirect_stderr(io.StringIO()) as errors:
            status = main_of_cargo(["celtisdarts", *words, "--docs", kept("std")])
        self.assertNotIn("\x1b", said.getvalue() + errors.getvalue())
        return status, said.getvalue().splitlines(), errors.getvalue()

    def test_a_release_is_judged_by_what_the_package_says(self) -> None:
        self.commit("v1.0.0")
        self.write("pool/src/lib.rs", LATER)
        self.pool(FEATURES + SETS)
        status, out, err = self.call("pool/src/deep", "later")
        self.assertEqual((status, [line for line in out if line.startswith("pool")]),
                         (1, ["pool 1.0.0 to 1.0.0: breaking (1 breaking)", "pool 1.0.0 to 1.0.0: breaking (3 breaking)"]), err)
        self.assertEqual([line.rpartition(", ")[2] for line in out if line.startswith("comparing pool")], ["features default", "features extra"])
        self.assertIn("note: v1.0.0 has no feature extra: it is documented without\n", err)
        self.assertNotIn("codec", "".join(out))
        # The same again is not documented again.
        self.assertEqual(self.call("pool/src", "later", "--message-format", "short")[2], "note: the older version is v1.0.0\nnote: v1.0.0 has no feature extra: it is documented without\n")
        # What is waived is counted and said, and what waives nothing is told.
        self.pool(FEATURES + SETS + OF_BOXES + OF_HELD + waiver("item-removed", "pool::Gone"))
        status, out, err = self.call("pool", "later")
        self.assertEqual((status, [line for line in out if line.startswith("pool")]),
                         (0, ["pool 1.0.0 to 1.0.0: no break but what is waived (1 breaking waived)", "pool 1.0.0 to 1.0.0: no break but what is waived (3 breaking waived)"]), err)
        self.assertEqual(sum(line.startswith("waived, breaking: ") for line in out), 4)
        self.assertIn("warning[waiver-unused]: a waiver in Cargo.toml waives nothing: item-removed of `pool::Gone`; remove it", out)
        # By flags for features the metadata's are not tried.
        status, out, err = self.call("pool", "later", "--no-default-features", "--message-format", "json")
        self.assertEqual((status, [json.loads(line).get("waived") for line in out if '"summary"' in line]), (0, [{"breaking": 1}]), err)
        # By its number a major release may break; that is no matter for a flag that says otherwise.
        self.pool(FEATURES + SETS, "2.0.0")
        status, out, err = self.call("", "later", "-p", "pool", "-q")
        self.assertEqual((status, out[-1]), (0, "pool 1.0.0 to 2.0.0 (major): breaking, as a major release may be (3 breaking)"), err)
        self.assertEqual(self.call("", "later", "-p", "pool", "--release-type", "patch", "--features", "")[0], 1)

    def test_what_is_wrong_in_the_metadata_ends_the_call(self) -> None:
        self.pool(SETS + waiver("impl-added", "x", ""))
        status, out, err = self.call("pool", "later", "--message-format", "github")
        self.assertEqual((status, out, err), (3, ["::error::Cargo.toml: [package.metadata.celtisdarts] waive 1: reason has to be there, and is a text that says something"],
                                              "error: Cargo.toml: [package.metadata.celtisdarts] waive 1: reason has to be there, and is a text that says something\n"))
        # That is nobody's matter who asks of another package.
        self.assertEqual(self.call("codec", "ask", "codec::Codec: Send", "-q")[0], 0)
        self.assertEqual(self.call("codec", "ask")[0], 2)

    def test_questions_of_the_metadata_have_their_answers(self) -> None:
        self.write("pool/src/lib.rs", LATER)
        self.pool(FEATURES + SETS + '[package.metadata.celtisdarts.ask]\n"Held: Send" = "yes"\n"Held: Draw" = "no"\n')
        status, out, err = self.call("pool/src", "ask", "-q")
        self.assertEqual(status, 1, err)
        self.assertEqual([(line.split("    ")[0], "not as expected" in line) for line in out if not line.startswith(" ")],
                         [("with features default:", False), ("Held: Send", False), ("Held: Draw", False), ("with features extra:", False), ("Held: Send", True), ("Held: Draw", False)])
        self.assertEqual(self.call("pool", "ask", "--no-default-features")[0], 0)
        self.assertEqual(self.call("pool", "ask", "--expect", "yes")[0], 2)
        status, out, _ = self.call("", "ask", "--message-format", "github", "-F", "pool/extra", "--workspace")
        self.assertEqual((status, [line.split(",")[0] for line in out if line.startswith("::")]), (1, ["::error file=pool/src/lib.rs"]))

    def test_a_check_is_of_the_packages_that_are_chosen(self) -> None:
        def checked(*words: str) -> list[str]:
            status, out, err = self.call(*words)
            self.assertEqual(status, 0, err)
            self.assertTrue(out[0].startswith("judging "), out)
            return [line.split(" ")[0] for line in out if ": coherent" in line]
        self.assertEqual(checked("codec", "check", "-q"), ["codec"])
        self.assertEqual(sorted(checked("codec", "check", "--all")), ["codec", "pool"])
        self.assertEqual(sorted(checked("", "check")), ["codec", "pool"])
        self.assertEqual(checked("", "check", "--workspace", "--exclude", "codec"), ["pool"])


if __name__ == "__main__":
    unittest.main()
