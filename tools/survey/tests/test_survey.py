"""The registry, results of steps, the database and the page; and the rules, where snakemake is installed."""
from __future__ import annotations

import json
import os
import shutil
import sqlite3
import subprocess
import tempfile
import unittest
from collections import Counter
from typing import Any
from unittest import mock

from from_rustdoc.read.cargo import Project
from from_rustdoc.read.proved import TOP, proved_program
from from_rustdoc.read.terms import BadInput
from from_rustdoc.tests.common import kept, world

from .. import database, figures, registry, results, steps, translator
from ..registry import Dependency, Package
from ..steps import chosen, first_error, is_added, without_impls


def put(folder: str, name: str, text: str) -> str:
    file = os.path.join(folder, name)
    os.makedirs(os.path.dirname(file), exist_ok=True)
    with open(file, "w", encoding="utf-8") as handle:
        handle.write(text)
    return file


def manifest(name: str, version: str, more: str = "") -> str:
    return f'[package]\nedition = "2018"\nname = "{name}"\nversion = "{version}"\n{more}[dependencies.other]\nversion = "9"\n'


class Room(unittest.TestCase):
    def setUp(self) -> None:
        self.room = tempfile.mkdtemp()
        self.addCleanup(shutil.rmtree, self.room)


class Registry(Room):
    def packages(self) -> list[Package]:
        for name, version in (("nom", "7.1.1"), ("nom", "4.2.3"), ("nom", "10.0.0-alpha.1"), ("nom", "10.0.0")):
            put(self.room, f"{name}-{version}/Cargo.toml", manifest(name, version))
            put(self.room, f"{name}-{version}/src/lib.rs", "")
        put(self.room, "derive-1.0.0/Cargo.toml", manifest("derive", "1.0.0", '[lib]\nproc-macro = true\n'))
        put(self.room, "tool-0.1.0/Cargo.toml", manifest("tool", "0.1.0"))
        put(self.room, "odd-0.1.0/Cargo.toml", manifest("odd", "0.1.0", '[lib]\npath = "lib/odd.rs"\n'))
        put(self.room, "odd-0.1.0/lib/odd.rs", "")
        put(self.room, "empty/README", "no manifest")
        return registry.packages(self.room)

    def test_packages_by_name_and_version(self) -> None:
        self.assertEqual([(p.folder, p.kind) for p in self.packages()], [
            ("derive-1.0.0", "proc-macro"), ("nom-4.2.3", "lib"), ("nom-7.1.1", "lib"), ("nom-10.0.0-alpha.1", "lib"), ("nom-10.0.0", "lib"),
            ("odd-0.1.0", "lib"), ("tool-0.1.0", "bin")])

    def test_the_version_before(self) -> None:
        among = self.packages()
        by_folder = {p.folder: p for p in among}
        self.assertEqual([registry.earlier(by_folder[f], among) for f in ("nom-4.2.3", "nom-10.0.0")], [None, by_folder["nom-10.0.0-alpha.1"]])
        self.assertEqual(registry.newest("nom", among), by_folder["nom-10.0.0"])

    def test_a_list_of_crates(self) -> None:
        file = put(self.room, "wanted.txt", "nom 7.1.1 +alloc +std   # a comment\n\nodd\nnone\n")
        found, missing = registry.read_dependencies(file, self.packages())
        self.assertEqual([d.line() for d in found], ['nom = { version = "=7.1.1", features = ["alloc", "std"] }', 'odd = { version = "=0.1.0" }'])
        self.assertEqual(missing, ["none"])

    def test_a_project_takes_its_crates_from_the_registry_alone(self) -> None:
        registry.write_project(os.path.join(self.room, "p"), [Dependency(Package("nom", "7.1.1"))], self.room)
        with open(os.path.join(self.room, "p", ".cargo", "config.toml"), encoding="utf-8") as handle:
            self.assertIn(f'directory = "{self.room}"', handle.read())

    def test_no_registry_is_an_error(self) -> None:
        with self.assertRaisesRegex(BadInput, "no registry"):
            registry.packages(os.path.join(self.room, "nothing"))


class Steps(Room):
    def test_a_step_that_fails_has_a_line_that_says_why_with_what_it_found(self) -> None:
        def work(step: results.Step) -> None:
            step.add("impl", header="impl A for B")
            raise BadInput("the registry is on fire")

        head, line = results.measured("check", work)
        self.assertEqual((head["status"], head["why"], line["header"]), ("failed", "the registry is on fire", "impl A for B"))

    def test_a_fault_is_a_line_too(self) -> None:
        (head,) = results.measured("check", lambda step: step.add("impl", number=1 // 0))
        self.assertEqual((head["status"], head["why"].split(":")[1].strip()), ("failed", "ZeroDivisionError"))

    def test_cargos_first_error_and_the_crate_that_it_is_in(self) -> None:
        log = put(self.room, "log", "   Compiling a v1\nwarning: unused\nerror[E0557]: feature has been removed\nerror: could not compile `a` (lib) due to 1 error\n")
        self.assertEqual(first_error(log), "in a: error[E0557]: feature has been removed")

    def test_metadata_of_two_versions_of_one_crate_is_left_out_but_for_the_crate_itself(self) -> None:
        found = {"nom": [("registry#nom@7.1.1", "new.rmeta"), ("registry#nom@4.2.3", "old.rmeta")], "time": [("registry#time@0.1.0", "1"), ("registry#time@0.3.0", "3")],
                 "libc": [("registry#libc@0.2.0", "libc.rmeta")], "surveyed": [("path#surveyed@0.1.0", "own.rmeta")]}
        self.assertEqual(chosen(found, Package("nom", "7.1.1")), {"nom": "new.rmeta", "libc": "libc.rmeta"})

    def test_what_an_added_impl_is(self) -> None:
        cases: list[tuple[dict[str, Any], bool]] = [({}, True), ({"trait": None}, False), ({"is_synthetic": True}, False),
                                                    ({"blanket_impl": {"generic": "T"}}, False)]
        for body, is_one in cases:
            impl = {"trait": {"path": "A"}, "is_synthetic": False, "blanket_impl": None, **body}
            self.assertEqual(is_added({"inner": {"impl": impl}}), is_one, body)
        self.assertFalse(is_added({"inner": {"struct": {"impls": []}}}))

    def test_a_crate_without_its_impls(self) -> None:
        kept = os.path.join(TOP, "tools", "from_rustdoc", "tests", "json", "before.json")
        with open(kept, encoding="utf-8") as handle:
            impls = [n for n, item in json.load(handle)["index"].items() if is_added(item)]
        self.assertGreater(len(impls), 3)
        with open(kept, encoding="utf-8") as handle:
            data = json.load(handle)
        struct = next(item for item in data["index"].values() if "struct" in item["inner"])
        struct["inner"]["struct"]["impls"] = [int(impls[0]), 999999]
        file = os.path.join(self.room, "without.json")
        self.assertEqual(without_impls(put(self.room, "with.json", json.dumps(data)), file), len(impls))
        with open(file, encoding="utf-8") as handle:
            left = json.load(handle)["index"]
        self.assertEqual([item for item in left.values() if is_added(item)], [])
        self.assertEqual(left[str(struct["id"])]["inner"]["struct"]["impls"], [999999])

    def test_lines_that_are_none_are_an_error(self) -> None:
        for text in ("{", "[]", '{"step": "read"}'):
            with self.assertRaises(BadInput, msg=text):
                list(results.read(put(self.room, "bad.jsonl", text + "\n")))


class Documented(Room):
    """What cargo would do is done by a stand-in: it leaves documents in cargo's folder."""

    def test_projects_share_the_documents_of_the_registrys_crates(self) -> None:
        setup = steps.Setup(os.path.join(self.room, "out"), os.path.join(self.room, "registry"))
        folder = setup.folder(Package("user", "1.0.0"))
        os.makedirs(folder)

        def document(_: str, extra: list[str], shared: str) -> Project:
            self.assertEqual(shared, os.path.join(self.room, "out", "documents"))
            put(self.room, "json/ab-1/taken", "")
            return Project(files={name: put(self.room, f"json/{name}-1/{name}.json", name) for name in ("ab", "user")})

        with mock.patch.object(translator, "document", document), mock.patch.dict(os.environ):
            project, made = steps.documented(folder, setup, os.path.join(folder, "log"))
        self.assertEqual((made, project.files), (1, {name: os.path.join(folder, "doc", f"{name}.json") for name in ("ab", "user")}))
        self.assertTrue(all(map(os.path.exists, project.files.values())))


class Adopted(Room):
    """The crates of a project that is documented already, without the folder of the project."""

    def test_each_crate_of_the_registry_has_what_it_uses(self) -> None:
        among = [Package("ab", "1.0.0"), Package("user", "1.0.0"), Package("user", "2.0.0"), Package("other", "1.0.0")]
        setup = steps.Setup(self.room)
        inputs = {"json": [], "links": {"uses": {"ab": [], "user": ["ab"]}, "root": "/project"}}
        compiled = {"ab": [("registry#ab@1.0.0", "ab.rmeta")], "user": [("registry#user@1.0.0", "user.rmeta")]}
        with mock.patch.object(translator, "map_of", return_value={"inputs": inputs}), mock.patch.object(translator, "read", return_value=world("ab", "user")), \
                mock.patch.object(steps, "compiled_in", return_value=compiled) as cargo:
            self.assertEqual(steps.adopt(setup, "/project/target/from-rustdoc/user", among), among[:2])
        cargo.assert_called_once_with("/project", "/project/target/from-rustdoc", 1)
        for package, used in ((among[0], ["ab"]), (among[1], ["ab", "user"])):
            project = steps.load_project(setup.folder(package))
            self.assertEqual((project.members, sorted(project.files), sorted(project.closure([package.crate]))), ([package.crate], used, used))
            self.assertEqual((results.head(setup.file(package, "document"))["status"], results.head(setup.file(package, "document"))["crates"]), ("done", len(used)))
            self.assertTrue(all(os.path.samefile(file, kept(name)) for name, file in project.files.items()))
        # What rustc reads is known without cargo.
        self.assertEqual(steps.metadata_of(setup, setup.folder(among[1]), among[1]), {"ab": "ab.rmeta", "user": "user.rmeta"})


@unittest.skipUnless(proved_program(), "there is no proved program of these sources")
class Checked(unittest.TestCase):
    def test_a_stored_crate_is_checked_with_each_of_its_impls(self) -> None:
        self.assertEqual([(found.word, found.why) for found in [translator.check(world("before"), "before", None)]], [("coherent", "")])
        found = translator.check(world("shapes"), "shapes", None)
        self.assertEqual(found.word, "not settled")
        self.assertIn("`impl shapes::Draw for extern \"system\" fn(u8)`", found.why)
        self.assertEqual(len(found.impls), len(world("shapes").crates["shapes"].impls))
        self.assertEqual(Counter(impl["fate"] for impl in found.impls)["loss"], 1)
        self.assertIn(("From", "shapes::Tree"), {(impl["trait"], impl["type"]) for impl in found.impls})


def step_line(step: str, status: str = "done", **more: Any) -> dict[str, Any]:
    return {"kind": "step", "step": step, "status": status, "why": "", "seconds": 2.0, "processor": 1.5, "memory": 90, **more}


class Joined(Room):
    PACKAGES = [Package("base", "1.0.0"), Package("user", "0.1.0"), Package("other", "0.1.0"), Package("derive", "0.1.0", "proc-macro")]

    def database(self) -> str:
        """A crate, two that use it, of which one has an impl that a new one of the first meets, and one that failed."""
        header = "impl<T> PartialEq<&T> for base::B"
        impl = {"kind": "impl", "source": "b.rs:1", "losses": [], "trait": "PartialEq", "type": "base::B"}
        question = {"kind": "question", "how": "auto trait", "question": "base::B: Send", "said": "yes", "basis": "by law", "foundation": "by law", "rests_on": [],
                    "rustc": "no", "rustc_why": "E0277 told", "verdict": "wrong"}
        change = {"kind": "change", "how": "as if added", "code": "impl-added", "word": "breaking", "text": "told", "header": header, "source": "b.rs:1",
                  "reason": "another crate may have `impl PartialEq<&Mine> for base::B`"}
        base = os.path.join(self.room, "crates", "base-1.0.0")
        results.write(os.path.join(base, "document.jsonl"), [step_line("document", bytes=3000000, own_bytes=1000000, crates=5, made=2)])
        results.write(os.path.join(base, "check.jsonl"), [step_line("check", word="coherent"), {**impl, "header": header, "fate": "whole"},
                                                          {**impl, "header": "impl Odd for base::B", "fate": "loss", "trait": "Odd"}])
        results.write(os.path.join(base, "ask.jsonl"), [step_line("ask"), question, {**question, "verdict": "not well formed"}])
        results.write(os.path.join(base, "judge.jsonl"), [step_line("judge", how="as if added"), change])
        user = os.path.join(self.room, "crates", "user-0.1.0")
        put(user, "project.json", json.dumps({"links": {"uses": {"user": ["middle@1.0.0"], "middle@1.0.0": ["base"]}}}))
        results.write(os.path.join(user, "check.jsonl"), [step_line("check", word="not settled", verdict_why="overlap: one | other"),
                                                          {**impl, "header": "impl PartialEq<&user::U> for base::B", "fate": "whole"}])
        other = os.path.join(self.room, "crates", "other-0.1.0")
        put(other, "project.json", json.dumps({"links": {"uses": {"other": ["base"]}}}))
        results.write(os.path.join(other, "check.jsonl"), [step_line("check", word="coherent"),
                                                           {**impl, "header": "impl PartialEq<u8> for other::O", "type": "other::O", "fate": "whole"}])
        results.write(os.path.join(self.room, "crates", "derive-0.1.0", "document.jsonl"), [{**step_line("document", "failed"), "why": "in derive: error: no"}])
        file = os.path.join(self.room, "survey.sqlite")
        database.joined(self.room, self.PACKAGES, file)
        return file

    def test_all_lines_are_in_the_database(self) -> None:
        connection = sqlite3.connect(self.database())
        counts = {table: connection.execute(f"select count(*) from {table}").fetchone()[0] for table in ("crates", "steps", "impls", "questions", "changes", "uses")}
        connection.close()
        self.assertEqual(counts, {"crates": 4, "steps": 7, "impls": 4, "questions": 2, "changes": 1, "uses": 3})

    def test_the_page_has_the_figures(self) -> None:
        page = figures.page(self.database())
        for line in ("4 crates with their versions: 3 lib, 1 proc-macro.", "| whole | 3 | 75.0 % |", "| document | 1 | 1 | 0 |", "## Queries compared with rustc: 1",
                     "| base 1.0.0 | base::B: Send | yes (by law) | no E0277 told |", "| document | in derive: error: no | 1 |",
                     "| user 0.1.0 | not settled | overlap: one \\| other |", "Documents: 3 MB with what each crate uses, 1 MB of the crates themselves.",
                     "Of 5 documents that crates and their projects took, rustdoc made 2; the others were there."):
            self.assertIn(line, page)

    def test_it_names_the_crates_that_an_added_impl_meets(self) -> None:
        (line,) = [line for line in figures.page(self.database()).splitlines() if line.startswith("| base 1.0.0 | impl<T> PartialEq")]
        self.assertTrue(line.endswith("| user 0.1.0 |"), line)

    def test_a_line_of_an_unknown_kind_is_an_error(self) -> None:
        results.write(os.path.join(self.room, "crates", "base-1.0.0", "check.jsonl"), [step_line("check"), {"kind": "odd"}])
        with self.assertRaisesRegex(BadInput, "unknown kind"):
            database.joined(self.room, self.PACKAGES, os.path.join(self.room, "survey.sqlite"))


@unittest.skipUnless(shutil.which("snakemake"), "snakemake is not installed")
class Rules(Room):
    def test_each_crate_has_its_steps_and_a_pair_needs_both_versions(self) -> None:
        for name, version in (("nom", "4.2.3"), ("nom", "7.1.1"), ("either", "1.6.1")):
            put(self.room, f"registry/{name}-{version}/Cargo.toml", manifest(name, version))
            put(self.room, f"registry/{name}-{version}/src/lib.rs", "")
        done = subprocess.run(["snakemake", "-s", os.path.join(TOP, "tools", "survey", "Snakefile"), "--cores", "1", "-n", "--directory", self.room, "--config",
                               f"registry={self.room}/registry", "out=out", "questions=5"], stdout=subprocess.PIPE, stderr=subprocess.STDOUT, text=True)
        self.assertEqual(done.returncode, 0, done.stdout[-800:])
        for line in ("document 3", "read 3", "check 3", "ask 3", "judge 3", "join 1", "page 1"):
            self.assertIn(line.split(), [words.split()[:2] for words in done.stdout.splitlines()])
        self.assertNotIn("--feature", done.stdout)
        self.assertIn("nom-4.2.3/document.jsonl", next(line for line in done.stdout.splitlines() if "input:" in line and "nom-7.1.1/read" in line and "nom-4.2.3" in line))

    def test_a_file_names_the_packages_and_their_features(self) -> None:
        for name, version in (("nom", "7.1.1"), ("either", "1.6.1")):
            put(self.room, f"registry/{name}-{version}/Cargo.toml", manifest(name, version))
            put(self.room, f"registry/{name}-{version}/src/lib.rs", "")
        wanted = put(self.room, "wanted.txt", "# one of them\nnom +alloc +std\n")
        done = subprocess.run(["snakemake", "-s", os.path.join(TOP, "tools", "survey", "Snakefile"), "--cores", "1", "-n", "-p", "--directory", self.room, "--config",
                               f"registry={self.room}/registry", "out=out", f"packages={wanted}", f"features={wanted}"],
                              stdout=subprocess.PIPE, stderr=subprocess.STDOUT, text=True)
        self.assertEqual(done.returncode, 0, done.stdout[-800:])
        self.assertRegex(done.stdout, r"run document nom-7.1.1 .*--feature alloc --feature std\n")
        self.assertNotIn("either", done.stdout)
