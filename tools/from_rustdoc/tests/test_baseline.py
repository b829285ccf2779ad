"""A project and its older version, by `later --baseline` and by `cargo celtisdarts`: with git, cargo and rustdoc, where these are there."""
from __future__ import annotations

import os
import shutil
import subprocess
import tempfile
import unittest

from ..read.cargo import docs_folder
from ..read.terms import BadInput
from .common import HERE, WHY_NO_PROGRAM

TOOLS = os.path.dirname(os.path.dirname(HERE))
OLD = "pub struct S<T>(pub T);\npub trait Draw {}\nimpl<T> Draw for S<T> {}\n"
NEW = "pub struct S<T>(pub T);\npub trait Draw {}\nimpl<T> Draw for S<T> {}\nimpl<T> Draw for &T {}\n"


def missing() -> str:
    for name in ("git", "cargo", "rustdoc"):
        if not shutil.which(name):
            return f"there is no {name}"
    try:
        docs_folder(None)
    except BadInput as error:
        return str(error)
    return WHY_NO_PROGRAM


@unittest.skipIf(missing(), missing())
class Baseline(unittest.TestCase):
    room: str
    project: str
    environment: dict[str, str]

    @classmethod
    def setUpClass(cls) -> None:
        room = tempfile.TemporaryDirectory()
        cls.addClassCleanup(room.cleanup)
        cls.room = room.name
        cls.project = os.path.join(cls.room, "work", "project")
        cls.environment = {**os.environ, "XDG_CACHE_HOME": os.path.join(cls.room, "cache"), "PATH": os.path.join(cls.room, "bin") + os.pathsep + os.environ["PATH"]}
        os.makedirs(os.path.join(cls.room, "bin"))
        os.symlink(os.path.join(TOOLS, "cargo-celtisdarts"), os.path.join(cls.room, "bin", "cargo-celtisdarts"))
        cls.write(cls.project, OLD)
        with open(os.path.join(cls.project, ".gitignore"), "w", encoding="utf-8") as handle:
            handle.write("target\nCargo.lock\n")
        for words in (["init", "-q"], ["add", "-A"], ["commit", "-qm", "old"], ["tag", "v1.0"]):
            cls.git(*words)
        cls.write(cls.project, NEW)

    @staticmethod
    def write(folder: str, source: str, name: str = "to-draw") -> None:
        os.makedirs(os.path.join(folder, "src"), exist_ok=True)
        with open(os.path.join(folder, "Cargo.toml"), "w", encoding="utf-8") as handle:
            handle.write(f'[package]\nname = "{name}"\nversion = "1.0.0"\nedition = "2021"\n')
        with open(os.path.join(folder, "src", "lib.rs"), "w", encoding="utf-8") as handle:
            handle.write(source)

    @classmethod
    def git(cls, *words: str) -> str:
        # (In the folder above the project: the repository is larger than it.)
        top = os.path.dirname(cls.project)
        return subprocess.run(["git", "-c", "user.name=n", "-c", "user.email=e@example.org", *words], cwd=top, check=True, stdout=subprocess.PIPE, text=True).stdout

    def ended(self, *words: str, folder: str = "") -> tuple[int, str, str]:
        done = subprocess.run(words, cwd=folder or self.project, env=self.environment, stdout=subprocess.PIPE, stderr=subprocess.PIPE, text=True)
        return done.returncode, done.stdout, done.stderr

    def later(self, *words: str) -> tuple[int, str, str]:
        return self.ended(os.path.join(TOOLS, "from-rustdoc"), "later", *words)

    def test_a_revision_is_documented_in_a_folder_of_its_own_that_goes_again(self) -> None:
        status, out, err = self.later("--baseline", "HEAD")
        self.assertEqual(status, 1, err)
        self.assertIn("another crate may have `impl to_draw::Draw for &Mine`", out)
        self.assertIn("src/lib.rs:4:1", out)
        self.assertEqual(self.git("worktree", "list").count("\n"), 1)
        self.assertEqual(self.git("status", "--short", "--untracked-files=all").split(), ["M", "project/src/lib.rs"])

    def test_a_folder_is_compared_where_it_stands(self) -> None:
        there = os.path.join(self.room, "older")
        self.write(there, OLD)
        self.assertEqual(self.later("--baseline", there, ".")[0], 1)
        self.assertFalse(os.path.exists(os.path.join(there, "target")))
        # It has other sources now, and cargo is asked anew.
        self.write(there, NEW)
        status, out, err = self.later("--baseline", there, ".", "-p", "to-draw")
        self.assertEqual((status, out.splitlines()[1:]), (0, ["to_draw 1.0.0 to 1.0.0: compatible (nothing public has changed)"]), err)
        self.assertRegex(out, rf"^comparing to_draw 1\.0\.0 \({there}\) with to_draw 1\.0\.0 \([0-9a-f]{{9}} with changes\)\n")

    def test_what_has_moved_into_a_crate_of_its_own_is_the_same(self) -> None:
        older, newer = os.path.join(self.room, "whole"), os.path.join(self.room, "split")
        inside = "#[derive(Clone)] pub struct S<T>(pub T);\npub trait Draw {}\nimpl<T: Copy> Draw for S<T> {}\n"
        self.write(older, f"pub mod shapes {{\n{inside}}}\npub use shapes::S;\n")
        self.write(newer, "pub mod shapes { pub use core_of_it::*; }\npub use shapes::S;\n")
        with open(os.path.join(newer, "Cargo.toml"), "a", encoding="utf-8") as handle:
            handle.write('[dependencies]\ncore_of_it = { path = "core" }\n[workspace]\n')
        self.write(os.path.join(newer, "core"), inside.replace("Copy", "Clone"), "core_of_it")
        status, out, err = self.later("--baseline", older, newer)
        self.assertEqual((status, out.splitlines()[-1]), (0, "to_draw 1.0.0 to 1.0.0: compatible (1 compatible)"), err)
        self.write(os.path.join(newer, "core"), inside + "impl<T> Draw for &T {}\n", "core_of_it")
        status, out, err = self.later("--baseline", older, newer)
        self.assertEqual(status, 1, err)
        self.assertIn("another crate may have `impl to_draw::shapes::Draw for &Mine`", out)

    def test_what_no_document_tells_is_the_same_in_the_same_sources(self) -> None:
        older, newer = os.path.join(self.room, "waits"), os.path.join(self.room, "waits-too")
        for folder in (older, newer):
            self.write(folder, "pub async fn wait() {}\n")
        status, out, err = self.later("--strict", "--baseline", older, newer)
        self.assertEqual((status, out.splitlines()[1:]), (0, ["to_draw 1.0.0 to 1.0.0: compatible (nothing public has changed)"]), err)
        self.write(newer, "pub async fn wait() { let _ = std::rc::Rc::new(1); }\n")
        status, out, err = self.later("--strict", "--baseline", older, newer)
        self.assertEqual((status, out.splitlines()[-2:]), (4, ["not judged: 1 hidden type", "to_draw 1.0.0 to 1.0.0: no break found in what was judged"]), err)

    def test_what_is_no_version_is_told(self) -> None:
        for words, why in [(["--baseline", "v9"], "v9 is no folder with a Cargo.toml, and no revision of"), (["--baseline", self.room], "has no Cargo.toml"),
                           (["--baseline", "HEAD", "-p", "other"], "no package `other` is in this workspace (it has to-draw)")]:
            status, out, err = self.later(*words)
            self.assertEqual((status, out), (3, ""), words)
            self.assertIn(why, err.splitlines()[-1])

    def test_cargo_runs_it(self) -> None:
        status, out, err = self.ended("cargo", "celtisdarts", "later", "--quiet")
        self.assertEqual(status, 1, err)
        self.assertIn("to_draw 1.0.0 to 1.0.0: breaking (1 breaking)", out)
        status, out, _ = self.ended("cargo", "celtisdarts", "ask", "to_draw::S<u8>: to_draw::Draw", "--expect", "yes")
        self.assertEqual((status, out), (0, "to_draw::S<u8>: to_draw::Draw    yes   (certain)\n"))
        # What is documented is so until a source is newer.
        words = ("cargo", "celtisdarts", "ask", "to_draw::S<u8>: to_draw::Draw")
        self.assertNotIn("Checking", self.ended(*words)[2])
        self.write(self.project, NEW)
        self.assertIn("Checking", self.ended(*words)[2])
        manifest = os.path.join(self.project, "Cargo.toml")
        status, out, _ = self.ended("cargo", "celtisdarts", "check", "--manifest-path", manifest, folder=self.room)
        self.assertEqual(status, 0)
        self.assertIn("to_draw 1.0.0: coherent. 2 impls, all whole", out)
        self.assertEqual(self.ended("cargo", "celtisdarts", "nothing")[0], 2)
