"""That an answer is of what stands there now: whatever a crate is compiled from is edited, and asked again. Cargo and rustdoc are run."""
from __future__ import annotations

import contextlib
import io
import os
import shutil
import tempfile
import unittest
from unittest import mock

from ..command import main
from .common import WHY_NO_PROGRAM, kept

HELD = "pub struct {0}(pub {1});\n"
BUILD = '''use std::{env, fs};
fn main() {
    println!("cargo:rerun-if-changed=proto/p.proto");
    println!("cargo:rerun-if-env-changed=HELD_BY_VARIABLE");
    let by_variable = env::var("HELD_BY_VARIABLE").unwrap_or("u8".to_string());
    let by_file = fs::read_to_string("proto/p.proto").unwrap();
    let text = format!("pub struct Proto(pub {});\\npub struct Variable(pub {});\\n", by_file.trim(), by_variable);
    fs::write(format!("{}/made.rs", env::var("OUT_DIR").unwrap()), text).unwrap();
}
'''
FILES = {
    "app/Cargo.toml": '[package]\nname = "app"\nversion = "0.1.0"\nedition = "2021"\n[features]\nby_feature = []\n[dependencies]\nbeside = { path = "../beside" }\n'
                      '[workspace]\n',
    "app/build.rs": BUILD,
    "app/proto/p.proto": "u8\n",
    "app/.gitignore": "ignored.rs\n",
    "app/src/lib.rs": 'pub mod target;\nmod ignored;\npub use ignored::*;\ninclude!(concat!(env!("OUT_DIR"), "/made.rs"));\ninclude!("../../elsewhere/included.in");\n'
                      '#[path = "../../elsewhere/out.rs"]\npub mod out;\n#[cfg(doc)]\npub mod seen;\npub struct Beside(pub beside::Inner);\n'
                      'pub const TEXT: &str = include_str!("text.txt");\npub const SET: Option<&str> = option_env!("READ_BY_THE_SOURCE");\n'
                      '#[cfg(feature = "by_feature")]\npub struct Feature(pub *const u8);\n#[cfg(not(feature = "by_feature"))]\npub struct Feature(pub u8);\n'
                      '#[cfg(by_flag)]\npub struct Flag(pub *const u8);\n#[cfg(not(by_flag))]\npub struct Flag(pub u8);\n',
    "app/src/target/mod.rs": HELD.format("Target", "u8"),
    "app/src/ignored.rs": HELD.format("Ignored", "u8"),
    "app/src/seen.rs": HELD.format("Seen", "u8"),
    "app/src/text.txt": "a text",
    "elsewhere/included.in": HELD.format("Included", "u8"),
    "elsewhere/out.rs": HELD.format("Out", "u8"),
    "beside/Cargo.toml": '[package]\nname = "beside"\nversion = "0.1.0"\nedition = "2021"\n',
    "beside/src/lib.rs": HELD.format("Inner", "u8"),
}
# What is edited, what then stands there, and the type that holds it.
EDITS = (("app/src/target/mod.rs", HELD.format("Target", "*const u8"), "target::Target"), ("app/proto/p.proto", "*const u8\n", "Proto"),
         ("elsewhere/included.in", HELD.format("Included", "*const u8"), "Included"), ("elsewhere/out.rs", HELD.format("Out", "*const u8"), "out::Out"),
         ("app/src/ignored.rs", HELD.format("Ignored", "*const u8"), "Ignored"), ("app/src/seen.rs", HELD.format("Seen", "*const u8"), "seen::Seen"),
         ("beside/src/lib.rs", HELD.format("Inner", "*const u8"), "Beside"))


@unittest.skipUnless(shutil.which("cargo") and shutil.which("rustdoc"), "there is no cargo")
@unittest.skipIf(WHY_NO_PROGRAM, WHY_NO_PROGRAM)
class Fresh(unittest.TestCase):
    def setUp(self) -> None:
        room = tempfile.TemporaryDirectory()
        self.addCleanup(room.cleanup)
        self.room = room.name
        patch = mock.patch.dict(os.environ, {"XDG_CACHE_HOME": os.path.join(self.room, "cache"), "CARGO_NET_OFFLINE": "true"})
        patch.start()
        self.addCleanup(patch.stop)
        for name, text in FILES.items():
            self.write(name, text)

    def write(self, name: str, text: str) -> None:
        file = os.path.join(self.room, name)
        os.makedirs(os.path.dirname(file), exist_ok=True)
        with open(file, "w", encoding="utf-8") as handle:
            handle.write(text)

    def ask(self, *paths: str, extra: tuple[str, ...] = ()) -> tuple[list[str], bool]:
        """Whether each is `Send`, and whether cargo had anything to do."""
        words = ["ask", "--project", os.path.join(self.room, "app"), "--docs", kept("std"), *(f"app::{path}: Send" for path in paths)]
        with contextlib.redirect_stdout(io.StringIO()) as said, contextlib.redirect_stderr(io.StringIO()) as errors:
            status = main([*words, "--", *extra])
        self.assertEqual(status, 0, errors.getvalue())
        return ["yes" if line.split()[2] == "yes" else "no" for line in said.getvalue().splitlines() if not line.startswith(" ")], "documenting" in errors.getvalue()

    def test_whatever_is_edited_is_asked_anew(self) -> None:
        types = [path for _, _, path in EDITS]
        self.assertEqual(self.ask(*types), (["yes"] * len(types), True))
        self.assertEqual(self.ask(*types), (["yes"] * len(types), False))
        for number, (file, text, path) in enumerate(EDITS):
            self.write(file, text)
            self.assertEqual(self.ask(*types), (["no"] * (number + 1) + ["yes"] * (len(types) - number - 1), True), path)
        self.assertEqual(self.ask(*types), (["no"] * len(types), False))

    def test_variables_flags_and_features_are_asked_anew(self) -> None:
        types = ("Variable", "Feature", "Flag")
        self.assertEqual(self.ask(*types), (["yes"] * 3, True))
        with mock.patch.dict(os.environ, {"HELD_BY_VARIABLE": "*const u8"}):
            self.assertEqual(self.ask(*types), (["no", "yes", "yes"], True))
        self.assertEqual(self.ask(*types, extra=("--features", "by_feature")), (["yes", "no", "yes"], True))
        with mock.patch.dict(os.environ, {"RUSTFLAGS": "--cfg by_flag"}):
            self.assertEqual(self.ask(*types), (["yes", "yes", "no"], True))
        self.assertEqual(self.ask(*types)[0], ["yes"] * 3)

    def test_what_sources_read_of_files_and_variables_is_looked_at(self) -> None:
        self.ask("out::Out")
        self.write("app/src/text.txt", "another text")
        self.assertTrue(self.ask("out::Out")[1])
        with mock.patch.dict(os.environ, {"READ_BY_THE_SOURCE": "x"}):
            self.assertTrue(self.ask("out::Out")[1])
            self.assertFalse(self.ask("out::Out")[1])

    def test_documents_that_were_removed_are_made_again(self) -> None:
        self.ask("out::Out")
        place = os.path.join(self.room, "app", "target", "from-rustdoc")
        for name in os.listdir(place):
            if name.startswith("json-"):
                shutil.rmtree(os.path.join(place, name))
        self.assertEqual(self.ask("out::Out"), (["yes"], True))

    def test_a_map_is_of_the_documents_that_it_names(self) -> None:
        self.ask("out::Out")
        base = os.path.join(self.room, "app", "target", "from-rustdoc", "app")
        with contextlib.redirect_stdout(io.StringIO()) as said:
            self.assertEqual(main(["ask", base, "app::out::Out: Send"]), 0)
        self.assertIn("yes", said.getvalue())
        self.write("elsewhere/out.rs", HELD.format("Out", "*const u8"))
        map_before = os.path.join(self.room, "before.map")
        shutil.copy(base + ".map", map_before)
        self.ask("out::Out")
        with contextlib.redirect_stderr(io.StringIO()) as errors:
            self.assertEqual(main(["ask", map_before.removesuffix(".map"), "app::out::Out: Send"]), 3)
        self.assertIn("were made again since", errors.getvalue())


if __name__ == "__main__":
    unittest.main()
