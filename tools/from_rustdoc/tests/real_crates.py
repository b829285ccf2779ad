"""Crates of Debian's package registry: each is coherent, since it compiles, and thousands of generated questions get rustc's answers.

It needs cargo with the rustdoc of the known format, std's documents, the built program, and crates of the registry:
`apt-get install librust-semver-dev librust-either-dev librust-smallvec-dev librust-bytes-dev librust-itoa-dev ..`. What is missing is
skipped with a word. `FROM_RUSTDOC_PROGRAM` names another program that answers texts.
"""
from __future__ import annotations

import os
import shutil
import sys
import tempfile
import unittest
from collections import Counter
from typing import Optional

from ..ask.program import run
from ..ask.questions import Asker
from ..ask.verdicts import refusal
from ..model.world import World
from ..read.cargo import Project, docs_folder, document
from ..read.html_docs import Pages
from ..read.proved import proved_program
from ..read.terms import BadInput
from ..report.items import Report
from ..report.messages import Sources, rendered
from ..write.build import Translation
from ..write.checker import check_texts
from .generated import compiled, questions

REGISTRY = "/usr/share/cargo/registry"
CRATES = """semver either smallvec bytes itoa anyhow arrayvec hashbrown http indexmap itertools log memchr nom num-traits num-integer num-bigint
            num-rational num-complex once_cell petgraph serde serde_json url""".split()
ASKED_OF_EACH = int(os.environ.get("FROM_RUSTDOC_QUESTIONS", "150"))
PROGRAM = os.environ.get("FROM_RUSTDOC_PROGRAM") or proved_program()


def missing() -> str:
    """What this machine has not; empty where all is there."""
    if not shutil.which("cargo") or not shutil.which("rustc"):
        return "there is no cargo"
    if not os.path.isdir(REGISTRY):
        return "Debian's registry of crates is not installed"
    if PROGRAM is None:
        return "there is no proved program of these sources"
    try:
        docs_folder(None)
    except BadInput as error:
        return str(error)
    return ""


def version(name: str) -> Optional[str]:
    found = [f for f in os.listdir(REGISTRY) if f.rsplit("-", 1)[0] == name]
    return found[0].rsplit("-", 1)[1] if found else None


def new_project(folder: str, crates: list[str]) -> None:
    os.makedirs(os.path.join(folder, "src"))
    os.makedirs(os.path.join(folder, ".cargo"))
    lines = ["[package]", 'name = "probe"', 'version = "0.1.0"', 'edition = "2021"', "[dependencies]"]
    with open(os.path.join(folder, "Cargo.toml"), "w", encoding="utf-8") as handle:
        handle.write("\n".join(lines + [f'{name} = "={version(name)}"' for name in crates]) + "\n")
    with open(os.path.join(folder, ".cargo", "config.toml"), "w", encoding="utf-8") as handle:
        handle.write(f'[source.crates-io]\nreplace-with = "debian"\n[source.debian]\ndirectory = "{REGISTRY}"\n')
    open(os.path.join(folder, "src", "lib.rs"), "w", encoding="utf-8").close()


@unittest.skipIf(missing(), missing())
class RealCrates(unittest.TestCase):
    folder: str
    crates: list[str]
    project: Project
    pages: Pages

    @classmethod
    def setUpClass(cls) -> None:
        cls.folder = os.path.join(tempfile.mkdtemp(), "probe")
        cls.crates = [c for c in CRATES if version(c)]
        new_project(cls.folder, cls.crates)
        cls.project = document(cls.folder, ["--offline"], quiet=True)
        cls.pages = Pages(docs_folder(None))

    @classmethod
    def tearDownClass(cls) -> None:
        shutil.rmtree(os.path.dirname(cls.folder))

    def world(self, crate: str) -> World:
        world = World(self.pages)
        world.load([self.project.files[c] for c in self.project.closure([crate])], self.project.links)
        return world

    def test_all_are_coherent(self) -> None:
        refused: list[str] = []
        unsettled: list[str] = []
        for crate in self.crates:
            translation = Translation(self.world(crate.replace("-", "_")))
            translation.build()
            texts = {mode: "\n".join(translation.text(mode)[0]) + "\n" for mode in ("upper", "lower")}
            self.assertEqual(check_texts(translation, texts), [], crate)
            for mode, text in texts.items():
                places = Report(translation).places(mode)
                for name, verdict in run(text, PROGRAM).refusals().items():
                    told = f"{crate}, {mode}: {name}: {rendered(refusal(verdict, name, places), Sources())}"
                    # An overlap of the upper text alone that rests on a loss is not settled, which is no refusal.
                    (unsettled if mode == "upper" and "rests on a loss" in told else refused).append(told)
            print(f"{crate}: {'; '.join(Report(translation).summary()[-1:])}", file=sys.stderr, flush=True)
        print("\n".join(["not settled:", *unsettled]), file=sys.stderr, flush=True)
        self.assertEqual(refused, [])
        self.assertLess(len(unsettled), 2)

    def test_questions_get_rustcs_answers(self) -> None:
        count: Counter[str] = Counter()
        wrong = []
        for seed, crate in enumerate(self.crates):
            name = crate.replace("-", "_")
            world = self.world(name)
            asked = questions(world, name, ASKED_OF_EACH, seed)
            held = compiled(asked, self.folder, self.pages, world)
            asked = [a for a, h in zip(asked, held) if h is not None]
            held = [h for h in held if h is not None]
            translation = Translation(world)
            translation.roots = [root for a in asked for root in a.question.roots()]
            translation.build()
            verdicts = Asker(translation, PROGRAM, check=False).ask([a.question for a in asked])
            for a, h, verdict in zip(asked, held, verdicts):
                count[f"{verdict.word}, rustc {'yes' if h else 'no'}"] += 1
                if (verdict.word == "yes") != h and verdict.word != "not settled":
                    wrong.append(f"{crate}: {a.rust}: {verdict.word} ({verdict.basis}), {a.question.prove}")
            print(f"{crate}: {sum(count.values())} questions so far: {dict(count)}", file=sys.stderr, flush=True)
        self.assertEqual(wrong, [])
