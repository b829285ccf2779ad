"""Which older version is meant, and what git and cargo run for it: in repositories that are made here, some of them with cargo and rustdoc."""
from __future__ import annotations

import contextlib
import io
import os
import shutil
import subprocess
import tempfile
import unittest
from typing import Any
from unittest import mock

from ..command import main, main_of_cargo
from ..later.baseline import Documented, NothingOlder, Older, Run, by_default, check_out, older, older_words, only_older, run_by, told_of
from ..read.cargo import Project
from ..read.selection import Selection
from ..read.terms import BadInput
from .common import WHY_NO_PROGRAM, kept

NAMED = {"GIT_AUTHOR_NAME": "n", "GIT_AUTHOR_EMAIL": "e@example.org", "GIT_COMMITTER_NAME": "n", "GIT_COMMITTER_EMAIL": "e@example.org",
         "GIT_CONFIG_GLOBAL": os.devnull, "GIT_CONFIG_NOSYSTEM": "1"}


def manifest(name: str, more: str = "") -> str:
    return f'[package]\nname = "{name}"\nversion = "1.0.0"\nedition = "2021"\n{more}'


class Repository(unittest.TestCase):
    def setUp(self) -> None:
        self.room = os.path.realpath(tempfile.mkdtemp())
        self.addCleanup(shutil.rmtree, self.room)
        self.folder = os.path.join(self.room, "project")
        patch = mock.patch.dict(os.environ, {**NAMED, "XDG_CACHE_HOME": os.path.join(self.room, "cache"), "CARGO_NET_OFFLINE": "true"})
        patch.start()
        self.addCleanup(patch.stop)
        self.write("Cargo.toml", manifest("alone"))
        self.git("init", "-q", "-b", "main")

    def write(self, name: str, text: str, folder: str = "") -> None:
        file = os.path.join(folder or self.folder, name)
        os.makedirs(os.path.dirname(file), exist_ok=True)
        with open(file, "w", encoding="utf-8") as handle:
            handle.write(text)

    def git(self, *words: str, folder: str = "") -> str:
        return subprocess.run(["git", *words], cwd=folder or self.folder, check=True, stdout=subprocess.PIPE, stderr=subprocess.PIPE, text=True).stdout.strip()

    def commit(self, *tags: str) -> str:
        """Commits another file, and names the commit."""
        self.write("notes", ",".join(tags) or "none")
        self.git("add", "-A")
        self.git("commit", "-qm", "a commit")
        for tag in tags:
            self.git("tag", tag)
        return self.git("rev-parse", "HEAD")

    def refused(self, baseline: str, folder: str = "") -> str:
        with self.assertRaises(BadInput) as found:
            older(baseline, folder or self.folder)
        return str(found.exception)

    def chosen(self, wanted: list[str], packages: list[str]) -> list[tuple[str, list[str], str]]:
        return [(one.name, names, one.remark) for one, names in by_default(self.folder, wanted, packages)]

    def ended(self, *words: str) -> tuple[int, str, str]:
        with contextlib.redirect_stdout(io.StringIO()) as said, contextlib.redirect_stderr(io.StringIO()) as errors:
            try:
                status = main_of_cargo(["celtisdarts", *words]) if words[0] == "later" else main(list(words[1:]))
            except SystemExit as ended:
                status = int(str(ended.code))
        return status, said.getvalue(), errors.getvalue()


class Meant(Repository):
    def test_a_flag_that_is_cut_short_or_has_no_value_is_not_understood(self) -> None:
        for words in (["later", "--baselin", "v1"], ["later", "--baseline", ""], ["later", "--baseline="], ["later", "--baseline"], ["later", "--baseline=-x"],
                      ["later", "--baseline", "-x"], ["later", "--priv"], ["later", "--manifest-pat", "x"], ["from-rustdoc", "ask", "--proj", ".", "u8: Copy"],
                      ["from-rustdoc", "later", "--baselin", "v1", "."], ["from-rustdoc", "project", ".", "--jo", "2"], ["from-rustdoc", "check", "--message", "json", "x"]):
            status, out, _ = self.ended(*words)
            self.assertEqual((status, out), (2, ""), words)

    def test_what_stands_here_is_no_older_version(self) -> None:
        self.commit("v0.9")
        self.commit("v1.0")
        self.assertEqual(self.refused("v1.0"), "v1.0 is what stands here: nothing has changed since. Name an older version, as v0.9")
        self.assertIn("HEAD is what stands here", self.refused("HEAD"))
        self.assertIn("is the newer version itself", self.refused(self.folder))
        # What a build leaves is no change, and a source is one.
        self.write("target/x", "")
        self.write("Cargo.lock", "")
        self.refused("v1.0")
        self.write("src/lib.rs", "")
        self.assertEqual(older("v1.0", self.folder).name, "v1.0")

    def test_a_tag_on_this_commit_is_passed_over(self) -> None:
        self.commit("v0.9")
        self.commit("v1.0", "v1.0-again")
        [(name, names, remark)] = self.chosen([], ["alone"])
        self.assertEqual((name, names), ("v0.9", []))
        self.assertRegex(remark, r"^the older version is v0\.9; v1\.0(-again)? is what stands here$")
        # Work since then is compared with it.
        self.write("src/lib.rs", "")
        self.assertEqual(self.chosen([], ["alone"])[0][0][:4], "v1.0")
        self.commit()
        self.assertEqual(self.chosen([], ["alone"])[0][0][:4], "v1.0")

    def test_without_an_older_tag_there_is_none(self) -> None:
        self.commit()
        with self.assertRaisesRegex(BadInput, "there is no tag in this repository: name the older version by --baseline"):
            self.chosen([], ["alone"])
        self.git("tag", "v1.0")
        with self.assertRaisesRegex(BadInput, r"the only tag is v1\.0, which is what stands here"):
            self.chosen([], ["alone"])

    def test_each_package_has_its_own_tags(self) -> None:
        self.commit("v0.1")
        self.commit("pool-v0.1.1")
        self.commit("codec-v0.2.0")
        self.commit("pool-sync-0.3.0")
        self.commit("codec-tools-v9")
        self.commit()
        packages = ["pool", "codec", "pool_sync", "new"]
        self.assertEqual(self.chosen(["codec"], packages), [("codec-v0.2.0", ["codec"], "the older version is codec-v0.2.0")])
        self.assertEqual([name for name, _, _ in self.chosen(["pool"], packages)], ["pool-v0.1.1"])
        self.assertEqual([name for name, _, _ in self.chosen(["pool-sync"], packages)], ["pool-sync-0.3.0"])
        self.assertEqual([name for name, _, _ in self.chosen(["new"], [*packages, "codec-tools"])], ["v0.1"])
        self.assertEqual([(name, names) for name, names, _ in self.chosen([], packages[:2])], [("pool-v0.1.1", ["pool"]), ("codec-v0.2.0", ["codec"])])

    def test_packages_with_the_same_tags_are_compared_together(self) -> None:
        self.commit("v0.1")
        self.commit()
        self.assertEqual([(name, names) for name, names, _ in self.chosen([], ["a", "b"])], [("v0.1", [])])

    def test_a_package_whose_name_begins_another_has_its_own_tag(self) -> None:
        self.commit("pool-v1")
        self.commit("pool-2d-v2")
        self.commit()
        self.assertEqual([name for name, _, _ in self.chosen(["pool"], ["pool", "pool-2d"])], ["pool-v1"])

    def test_what_git_does_not_know_is_told(self) -> None:
        self.commit("v1.0")
        self.assertIn(f"nothing is no folder with a Cargo.toml, and no revision of {self.folder}", self.refused("nothing"))
        self.assertNotIn("shallow", self.refused("nothing"))
        self.commit()
        self.git("clone", "-q", "--depth", "1", f"file://{self.folder}", os.path.join(self.room, "shallow"))
        self.assertIn("this is a shallow clone, which has not all of them: `git fetch --unshallow --tags`", self.refused("v1.0", os.path.join(self.room, "shallow")))
        with self.assertRaisesRegex(BadInput, "there is no tag in this repository.*shallow clone"):
            by_default(os.path.join(self.room, "shallow"), [], ["alone"])

    def test_an_older_version_is_called_by_its_revision_too(self) -> None:
        commit = self.commit("v1.0")
        self.assertEqual([Older(name, commit=commit).shown() for name in ("v1.0", commit[:7])], [f"v1.0, {commit[:9]}", commit[:7]])


class WhatIsCompared(unittest.TestCase):
    def test_the_older_version_gets_the_packages_and_features_that_it_has(self) -> None:
        data = {"packages": [{"name": "a", "features": {"x": [], "default": []}}]}
        words = ["-p", "a", "-p", "b", "--features", "x,y", "--features=z", "-F", "x b/w", "--no-default-features", "--locked"]
        with contextlib.redirect_stderr(io.StringIO()) as said:
            self.assertEqual(older_words(words, data, "v1"), ["-p", "a", "--features", "x", "--features", "x,b/w", "--no-default-features", "--locked"])
        self.assertEqual([line.partition(": ")[2] for line in said.getvalue().splitlines()],
                         ["v1 has no feature y: it is documented without", "v1 has no feature z: it is documented without"])
        with self.assertRaisesRegex(NothingOlder, "^v1 has no package b, c; it has a$"):
            older_words(["-p", "b", "-p", "c"], data, "v1")

    def test_libraries_are_those_of_the_packages_and_those_that_are_gone(self) -> None:
        packages = [{"name": "a"}, {"name": "b"}]
        data = {"packages": packages, "workspace_members": ["a", "b"]}
        both = Documented(Project(), Project(), packages=({"a_lib": "a", "gone": "gone"}, {"a_lib": "a", "b": "b"}))
        whole, named = Selection(".", data, packages), Selection(".", data, packages[1:], ["-p", "b"], ["b"])
        with contextlib.redirect_stderr(io.StringIO()) as said:
            self.assertEqual(both.libraries(["a", "b"], whole), ["a_lib", "gone"])
        self.assertIn("the older version has no package `b`, which is not compared", said.getvalue())
        # Some of them are not all, where each has its own tag.
        self.assertEqual(both.libraries(["a"], whole), ["a_lib"])
        with self.assertRaisesRegex(NothingOlder, "^the older version has no library of b; it has a_lib, gone$"):
            both.libraries(["b"], named)


class WhatIsRun(Repository):
    def test_no_hook_of_git_is_run(self) -> None:
        commit = self.commit()
        for name in ("post-checkout", "post-index-change", "reference-transaction", "query-watchman"):
            self.write(f".git/hooks/{name}", f"#!/bin/sh\necho {name} >> {self.room}/ran\n")
            os.chmod(os.path.join(self.folder, ".git", "hooks", name), 0o755)
        self.git("config", "core.fsmonitor", ".git/hooks/query-watchman")
        check_out(self.folder, commit, os.path.join(self.room, "there"))
        with contextlib.suppress(BadInput):
            older("HEAD", self.folder)
        self.assertTrue(os.path.isfile(os.path.join(self.room, "there", "tree", "Cargo.toml")))
        self.assertFalse(os.path.exists(os.path.join(self.room, "ran")))
        self.assertEqual(self.git("worktree", "list").count("\n"), 0)

    def test_what_only_the_older_version_runs_is_told(self) -> None:
        def package(name: str, kind: str, source: object = None) -> dict[str, Any]:
            return {"id": name, "name": name, "version": "1.0.0", "source": source, "targets": [{"kind": ["lib"]}, {"kind": [kind]}]}
        data = {"packages": [package("a", "custom-build"), package("m", "proc-macro", "registry"), package("b", "bin"), package("t", "custom-build")],
                "workspace_members": ["a"],
                "resolve": {"nodes": [{"id": "a", "deps": [{"pkg": "m", "dep_kinds": [{"kind": "build"}]}, {"pkg": "t", "dep_kinds": [{"kind": "dev"}]}]},
                                      {"id": "m", "deps": []}, {"id": "t", "deps": []}]}}
        self.assertEqual(run_by(data), Run(["a 1.0.0"], ["m 1.0.0"]))
        self.assertEqual(told_of(only_older(Run(["a 1"], ["m 1", "n 2"]), Run(["a 2"], ["m 1"])), "v1"),
                         "to document v1 runs build scripts and procedural macros of a 1 as they were then and of n 2, which the newer version does not use")
        self.assertEqual(told_of(only_older(Run([], ["m 1"]), Run([], ["m 1"])), "v1"), "")


@unittest.skipUnless(shutil.which("cargo") and shutil.which("rustdoc"), "there is no cargo")
@unittest.skipIf(WHY_NO_PROGRAM, WHY_NO_PROGRAM)
class Kept(Repository):
    """An older version that is documented: once."""

    def setUp(self) -> None:
        super().setUp()
        self.write(".gitignore", "target\nCargo.lock\n")
        self.write("src/lib.rs", "pub struct S(u8);\n")

    def later(self, *words: str) -> tuple[int, str, str]:
        return self.ended("later", "--manifest-path", os.path.join(self.folder, "Cargo.toml"), "--docs", kept("std"), *words)

    def test_an_older_version_is_documented_once(self) -> None:
        self.commit("v1.0")
        self.write("src/lib.rs", "pub struct S(*const u8);\n")
        status, out, err = self.later()
        self.assertEqual((status, err.count("Checking alone")), (1, 2), err)
        commit = self.git("rev-parse", "HEAD")
        self.assertRegex(out.splitlines()[0], rf"^comparing alone 1\.0\.0 \(v1\.0, {commit[:9]}\) with alone 1\.0\.0 \({commit[:9]} with changes\)$")
        self.assertEqual(self.later(), (1, out, "note: the older version is v1.0\n"))
        # A tag that has moved is another version, and that is told.
        self.commit()
        self.git("tag", "-f", "v1.0")
        self.write("src/lib.rs", "pub struct S(u8);\n")
        status, _, err = self.later("--baseline", "v1.0")
        self.assertEqual((status, err.count("Checking alone")), (0, 2), err)
        self.assertIn(f"the tag v1.0 has moved: it was {commit[:9]}, and is", err)
        self.assertEqual(self.git("status", "--short"), "M src/lib.rs")

    def test_build_scripts_of_the_older_version_are_told_of_before_and_can_be_refused(self) -> None:
        self.write("build.rs", f'fn main() {{ std::fs::write("{self.room}/ran", "").unwrap(); }}\n')
        self.commit("v1.0")
        self.git("rm", "-q", "build.rs")
        self.write("src/lib.rs", "pub struct S(u8);\npub struct T;\n")
        said = "to document v1.0 runs build scripts and procedural macros of alone 1.0.0 as they were then"
        status, out, err = self.later("--no-build-scripts")
        self.assertEqual((status, out, err.splitlines()[-1]), (3, "", f"error: {said}, which --no-build-scripts forbids"))
        self.assertFalse(os.path.exists(os.path.join(self.room, "ran")))
        status, _, err = self.later()
        self.assertEqual((status, os.path.exists(os.path.join(self.room, "ran"))), (0, True), err)
        self.assertLess(err.index(said), err.index("Compiling alone"))
        self.assertEqual(self.later("--no-build-scripts")[0], 3)
        # Without any of its own it may be compared.
        self.commit("v1.1")
        self.write("src/lib.rs", "pub struct S(u8);\npub struct T;\npub struct U;\n")
        self.assertEqual(self.later("--no-build-scripts")[0], 0)


if __name__ == "__main__":
    unittest.main()
