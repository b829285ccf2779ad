"""The projects of projects.txt, each with what it uses, and the application of application.txt: none is refused except by what is outside of the
translator, and queries get rustc's answers.

It needs cargo with a rustdoc of a known format, std's documents, a program that answers texts, and the crates in a registry of cargo's
(Debian's packages librust-*-dev, or the folder that SURVEY_REGISTRY names). What a machine has not is skipped with a word.
SURVEY_PROGRAM names the program, SURVEY_OUT a folder for the documents, SURVEY_PROJECTS how many projects are taken,
SURVEY_QUESTIONS how many queries each gets, SURVEY_JOBS how many processes cargo may use.
"""
from __future__ import annotations

import os
import re
import resource
import shutil
import subprocess
import sys
import tempfile
import unittest
from collections import Counter
from typing import Any, Optional

from from_rustdoc.read.cargo import docs_folder
from from_rustdoc.read.proved import TOP
from from_rustdoc.read.terms import BadInput

from .. import registry, results, steps
from ..compare import COUNTED, NOT_READ, NOT_SETTLED, WRONG
from ..registry import Dependency, Package

REGISTRY = os.environ.get("SURVEY_REGISTRY", "/usr/share/cargo/registry")
PROGRAMS = (os.environ.get("SURVEY_PROGRAM", ""), os.path.join(TOP, "crates", "celtisdarts", "out", "celtisdarts"), os.path.join(TOP, "release", "celtisdarts"))
PROGRAM = next((file for file in PROGRAMS if file and os.path.exists(file)), None)
JOBS = int(os.environ.get("SURVEY_JOBS", "2"))
HERE = os.path.dirname(os.path.dirname(os.path.abspath(__file__)))
# What cargo, rustc and rustdoc say of crates that they never take.
OUTSIDE = (r"in \S+: error", r"error(\[E\d+\])?: ", r"two versions of it are in use")
# What rustc says of the same.
QUERIES = {"serde_json::Value: Send": True, "tokio::sync::Mutex<std::cell::Cell<u8>>: Sync": True, "chrono::NaiveDate: Copy": True,
             "itertools::Combinations<std::vec::IntoIter<u8>>: Iterator<Item = Vec<u8>>": True, "uuid::Uuid: Iterator": False,
             "tokio::sync::MutexGuard<'static, std::cell::Cell<u8>>: Sync": False, "url::Url: serde::Serialize": False}
# Processor seconds: an idle machine needs less than a fifth of the two of asks.
FIRST_ASK, SECOND_ASK = 15.0, 10.0


def missing() -> str:
    """What this machine has not; empty where all is there."""
    if not shutil.which("cargo") or not shutil.which("rustc"):
        return "there is no cargo"
    if not os.path.isdir(REGISTRY):
        return f"there is no registry of crates in {REGISTRY}"
    if PROGRAM is None:
        return "the program is not built"
    try:
        docs_folder(None)
    except BadInput as error:
        return str(error)
    return ""


def log(*words: Any) -> None:
    print(*words, file=sys.stderr, flush=True)


def children() -> float:
    used = resource.getrusage(resource.RUSAGE_CHILDREN)
    return used.ru_utime + used.ru_stime


class Room(unittest.TestCase):
    setup: steps.Setup
    room: Optional[str] = None

    @classmethod
    def setUpClass(cls) -> None:
        out = os.environ.get("SURVEY_OUT")
        if out is None:
            out = cls.room = tempfile.mkdtemp()
        cls.setup = steps.Setup(out, REGISTRY, os.path.join(out, "target"), PROGRAM, JOBS)

    @classmethod
    def tearDownClass(cls) -> None:
        if cls.room is not None:
            shutil.rmtree(cls.room)


@unittest.skipIf(missing(), missing())
class Projects(Room):
    def step(self, name: str, package: Package, work: Any) -> tuple[results.Line, list[results.Line]]:
        """Does a step of a crate, or takes what an earlier run of it found."""
        file = self.setup.file(package, name)
        if not os.path.exists(file):
            results.write(file, results.measured(name, work))
        lines = list(results.read(file))
        log(f"{package.folder}: {name}: {lines[0]['status']} {lines[0]['why']} ({lines[0]['processor']} s)")
        return lines[0], lines[1:]

    def dependencies(self) -> list[Dependency]:
        found, absent = registry.read_dependencies(os.path.join(HERE, "projects.txt"), registry.packages(REGISTRY))
        if absent:
            log(f"the registry has no {', '.join(absent)}")
        if not found:
            self.skipTest("the registry has none of the projects")
        return found[:int(os.environ.get("SURVEY_PROJECTS", len(found)))]

    def documented(self, dependency: Dependency) -> bool:
        head, _ = self.step("document", dependency.package, lambda s: steps.document(self.setup, dependency.package, s, dependency.features))
        if head["status"] != results.DONE:
            self.assertTrue(any(re.match(reason, head["why"]) for reason in OUTSIDE), f"{dependency.package.folder}: {head['why']}")
        return bool(head["status"] == results.DONE)

    def test_no_project_is_refused_and_nearly_all_impls_are_whole(self) -> None:
        fates: Counter[str] = Counter()
        refused, verdicts = [], Counter[str]()
        for dependency in self.dependencies():
            if not self.documented(dependency):
                continue
            head, lines = self.step("check", dependency.package, lambda s: steps.check(self.setup, dependency.package, s))
            if head["status"] != results.DONE or head["word"] == "not coherent":
                refused.append(f"{dependency.package.folder}: {head['why'] or head.get('verdict_why')}")
                continue
            verdicts[head["word"]] += 1
            fates.update(line["fate"] for line in lines if line["kind"] == "impl")
        total = sum(fates.values())
        log(f"{sum(verdicts.values())} projects: {dict(verdicts)}; {total} impls: {dict(fates)}")
        self.assertEqual(refused, [])
        self.assertGreater(fates["whole"], 0.99 * total)

    def test_queries_get_rustcs_answers(self) -> None:
        counts: Counter[str] = Counter()
        wrong, failed = [], []
        for dependency in self.dependencies():
            if not self.documented(dependency):
                continue
            head, lines = self.step("ask", dependency.package, lambda s: steps.ask(self.setup, dependency.package, int(os.environ.get("SURVEY_QUESTIONS", "100")), s))
            if head["status"] == results.FAILED:
                failed.append(f"{dependency.package.folder}: {head['why']}")
            counts.update(line["verdict"] for line in lines)
            wrong += [f"{dependency.package.folder}: {line['question']}: {line['said']} ({line['basis']}), rustc {line['rustc']} {line['rustc_why']}"
                      for line in lines if line["verdict"] in (WRONG, NOT_READ)]
        answered = sum(counts[word] for word in COUNTED)
        log(f"{answered} queries: {dict(counts)}")
        self.assertEqual((failed, wrong), ([], []))
        self.assertLess(counts[NOT_SETTLED], 0.005 * answered + 1)


@unittest.skipIf(missing(), missing())
class Application(Room):
    """It is checked whole, and a query is answered in seconds, the second time in less."""

    def call(self, *words: str, cache: str) -> tuple[subprocess.CompletedProcess[str], float]:
        """A call of from-rustdoc and the processor seconds that it took, without those of others that it waited for."""
        began = children()
        done = subprocess.run([sys.executable, os.path.join(TOP, "tools", "from-rustdoc"), *words], stdout=subprocess.PIPE, stderr=subprocess.PIPE, text=True,
                              env={**os.environ, "XDG_CACHE_HOME": cache})
        return done, children() - began

    def test_the_application_is_checked_and_answers(self) -> None:
        dependencies, absent = registry.read_dependencies(os.path.join(HERE, "application.txt"), registry.packages(REGISTRY))
        if absent:
            self.skipTest(f"the registry has no {', '.join(absent)}")
        folder = os.path.join(self.setup.out, "application")
        registry.write_project(folder, dependencies, REGISTRY)
        cache = os.path.join(self.setup.out, "cache_of_application")
        shutil.rmtree(cache, ignore_errors=True)
        assert PROGRAM is not None
        done, seconds = self.call(folder, "--quiet", "--program", PROGRAM, "--jobs", str(JOBS), "--", "--offline", "-j", str(JOBS), cache=cache)
        log(f"cargo and the check: {seconds:.1f} s")
        crates = [line for line in done.stdout.splitlines() if re.match(r"\w+ [\d.]+\S*: ", line)]
        self.assertIn(done.returncode, (0, 1, 4), done.stderr[-500:])
        self.assertGreater(len(crates), 14, done.stdout[-500:])
        self.assertEqual([line for line in crates if ": coherent." not in line and ": not settled" not in line], [])
        base = os.path.join(folder, "target", "from-rustdoc", "surveyed")
        done, seconds = self.call("check", base, "--quiet", "--program", PROGRAM, "--jobs", str(JOBS), cache=cache)
        log(f"the check: {seconds:.1f} s, {len(crates)} crates, {sum(': coherent.' in line for line in crates)} coherent")
        shutil.rmtree(cache)
        for limit in (FIRST_ASK, SECOND_ASK):
            done, seconds = self.call("ask", base, "--quiet", "--program", PROGRAM, next(iter(QUERIES)), cache=cache)
            log(f"an ask: {seconds:.1f} s: {done.stdout.strip()}")
            self.assertIn("    yes", done.stdout, done.stderr[-500:])
            self.assertLess(seconds, limit)
        done, seconds = self.call("ask", base, "--quiet", "--program", PROGRAM, *QUERIES, cache=cache)
        log(f"{len(QUERIES)} asks: {seconds:.1f} s\n{done.stdout}")
        answers = dict(line.split("    ")[:2] for line in done.stdout.splitlines() if not line.startswith(" ") and "    " in line)
        self.assertEqual({query: answers.get(query, "").split(" ")[0] == "yes" for query in QUERIES}, QUERIES)
