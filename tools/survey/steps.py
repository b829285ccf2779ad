"""The steps of a survey, of one crate each: document, read, check, ask, judge. Each leaves a file of results in the crate's folder."""
from __future__ import annotations

import contextlib
import fcntl
import json
import os
import re
import shutil
import subprocess
import tempfile
import time
from collections import Counter
from dataclasses import asdict, dataclass
from typing import Any, Iterator, Optional

from from_rustdoc.read.cargo import TAKEN, Links, Project
from from_rustdoc.read.terms import BadInput
from from_rustdoc.read.unit import copied

from . import compare, results, translator
from .compiler import OPEN, REJECTED, Compiler, Verdict
from .documents import Crate, Documents
from .generate import Query, Generator
from .registry import Dependency, Package, write_project
from .results import Skipped, Step

BATCH = 150
ADDED = "impl-added"
CARGO = ["--offline"]
# Of a crate whose project was documented before: the metadata of what it uses.
COMPILED = "compiled.json"
# What rustdoc made of the registry's crates, for all projects that use them.
SHARED = "documents"


@dataclass
class Setup:
    """Where a survey is: its folder, the registry, the folder that cargo builds in (one of its own for each crate if none is given),
    the program that answers texts, and how many processes cargo may use."""
    out: str
    registry: Optional[str] = None
    target: Optional[str] = None
    program: Optional[str] = None
    jobs: int = 1

    def folder(self, package: Package) -> str:
        return os.path.join(self.out, "crates", package.folder)

    def file(self, package: Package, step: str) -> str:
        return os.path.join(self.folder(package), step + ".jsonl")

    def build(self, folder: str) -> str:
        return os.path.abspath(self.target or os.path.join(folder, "target"))


# ---- documents
@contextlib.contextmanager
def locked(folder: str) -> Iterator[None]:
    """One step at a time has cargo's folder: the documents in it are those of one project."""
    os.makedirs(folder, exist_ok=True)
    with open(os.path.join(folder, "survey.lock"), "w", encoding="utf-8") as handle:
        fcntl.flock(handle, fcntl.LOCK_EX)
        yield


@contextlib.contextmanager
def errors_to(file: str) -> Iterator[None]:
    """Sends the errors of processes to a file."""
    before = os.dup(2)
    with open(file, "w", encoding="utf-8") as handle:
        os.dup2(handle.fileno(), 2)
    try:
        yield
    finally:
        os.dup2(before, 2)
        os.close(before)


def first_error(file: str) -> str:
    """The first error of cargo, with the package that it is in."""
    with open(file, encoding="utf-8", errors="replace") as handle:
        lines = handle.read().splitlines()
    errors = [line for line in lines if re.match(r"error(\[\w+\])?:", line)]
    package = next((m.group(1) for m in (re.search(r"could not (?:document|compile) `([^`]*)`", line) for line in lines) if m), "")
    return (f"in {package}: " if package else "") + (errors[0] if errors else lines[-1] if lines else "cargo said nothing")


def documented(folder: str, setup: Setup, log: str) -> tuple[Project, int]:
    """Documents a project in cargo's folder, and takes the documents from there; how many of them rustdoc made."""
    target = setup.build(folder)
    made = 0
    with locked(target), errors_to(log):
        os.environ["CARGO_TARGET_DIR"] = target
        try:
            project = translator.document(os.path.join(folder, "project"), [*CARGO, "-j", str(setup.jobs)], os.path.join(setup.out, SHARED))
        except BadInput as error:
            raise BadInput(first_error(log) if os.path.getsize(log) else str(error))
        stored = os.path.join(folder, "doc")
        shutil.rmtree(stored, ignore_errors=True)
        os.makedirs(stored)
        for name, file in project.files.items():
            is_fresh = name in project.units and project.units[name].is_fresh
            made += not (is_fresh or os.path.exists(os.path.join(os.path.dirname(file), TAKEN)))
            # (A document stays where cargo knows it: a folder of builds is shared.)
            project.files[name] = os.path.join(stored, f"{name}.json")
            copied(file, project.files[name])
    if setup.target is None:
        shutil.rmtree(target, ignore_errors=True)
    return project, made


def save_project(folder: str, project: Project) -> None:
    """The project, with the names of its files from the crate's folder on."""
    links: dict[str, Any] = {**project.links.kept(), "names": {}}
    cfgs = {name: sorted(found) for name, found in project.links.cfgs.items() if found is not None}
    data = {"files": {name: os.path.relpath(file, folder) for name, file in project.files.items()}, "links": links, "cfgs": cfgs,
            "members": project.members}
    with open(os.path.join(folder, "project.json"), "w", encoding="utf-8") as handle:
        json.dump(data, handle)


def load_project(folder: str) -> Project:
    try:
        with open(os.path.join(folder, "project.json"), encoding="utf-8") as handle:
            data = json.load(handle)
    except OSError:
        raise Skipped("it is not documented")
    files = {name: os.path.abspath(os.path.join(folder, file)) for name, file in data["files"].items()}
    links = Links(**data["links"])
    links.names = {file: name for name, file in files.items() if "@" in name}
    links.cfgs = {name: frozenset(cfgs) for name, cfgs in data["cfgs"].items()}
    return Project(links, data["members"], files)


def own_name(project: Project, package: Package) -> str:
    """The crate's name among those of its project: with its version, where there are two of them."""
    name = next((n for n in (package.crate, f"{package.crate}@{package.version}") if n in project.files), None)
    if name is None:
        raise BadInput(f"cargo made no documents of a crate {package.crate}")
    return name


def document(setup: Setup, package: Package, step: Step, features: tuple[str, ...] = ()) -> None:
    folder = setup.folder(package)
    if package.kind != "lib":
        raise Skipped({"proc-macro": "a procedural macro: it has no items"}.get(package.kind, "it has no library"))
    write_project(os.path.join(folder, "project"), [Dependency(package, features)], setup.registry)
    project, made = documented(folder, setup, os.path.join(folder, "document.log"))
    name = own_name(project, package)
    save_project(folder, project)
    sizes = {crate: os.path.getsize(file) for crate, file in project.files.items()}
    step.figures = {"crates": len(sizes), "made": made, "bytes": sum(sizes.values()), "own_bytes": sizes[name],
                    "versions": sorted(n for n in sizes if "@" in n)}


def adopt(setup: Setup, base: str, among: list[Package]) -> list[Package]:
    """Takes the crates of a project that `from-rustdoc` has documented as if each had been documented by itself; `base` is that of its map.
    They are those of the registry; others, the project's own among them, are left."""
    inputs = translator.map_of(base)["inputs"]
    links = Links(**inputs["links"])
    world = translator.read(inputs["json"], links)
    files = {name: crate.file for name, crate in world.crates.items()}
    compiled = compiled_in(links.root, os.path.dirname(os.path.abspath(base)), setup.jobs)
    known = {(package.crate, package.version): package for package in among}
    found = [(name, known[key]) for name, crate in world.crates.items() if (key := (name.split("@")[0], crate.version)) in known]
    for name, package in found:
        folder = setup.folder(package)
        project = Project(links, [name], {used: files[used] for used in Project(links, files=files).closure([name])})
        os.makedirs(folder, exist_ok=True)
        save_project(folder, project)
        with open(os.path.join(folder, COMPILED), "w", encoding="utf-8") as handle:
            json.dump(compiled, handle)
        sizes = {used: os.path.getsize(file) for used, file in project.files.items()}
        results.write(setup.file(package, "document"), results.measured("document", lambda step: step.figures.update(
            crates=len(sizes), bytes=sum(sizes.values()), own_bytes=sizes[name], versions=sorted(n for n in sizes if "@" in n))))
    return [package for _, package in found]


# ---- reading and checks
def crates_of(project: Project, name: str) -> list[str]:
    return [project.files[used] for used in project.closure([name])]


def read(setup: Setup, package: Package, step: Step) -> None:
    """Reads the crate and what it uses, twice: the second time from what was stored."""
    project = load_project(setup.folder(package))
    name = own_name(project, package)
    files = crates_of(project, name)
    began = time.monotonic()
    world = translator.read(files, project.links)
    middle = time.monotonic()
    translator.read(files, project.links)
    crate = world.crates[name]
    step.figures = {"crates": len(world.crates), "first": round(middle - began, 2), "second": round(time.monotonic() - middle, 2),
                    "items": len(crate.declarations), "impls": len(crate.impls), "doc_cfgs": len(world.doc_cfgs)}


def check(setup: Setup, package: Package, step: Step) -> None:
    project = load_project(setup.folder(package))
    name = own_name(project, package)
    found = translator.check(translator.read(crates_of(project, name), project.links), name, setup.program)
    fates = Counter(impl["fate"] for impl in found.impls)
    step.figures = {"word": found.word, "verdict_why": found.why, "impls": len(found.impls), "whole": fates["whole"], "loss": fates["loss"],
                    "out": fates["out"]}
    for impl in found.impls:
        step.add("impl", **impl)


# ---- queries
Compiled = dict[str, list[tuple[str, str]]]


def metadata_of(setup: Setup, folder: str, package: Package) -> dict[str, str]:
    """The crates' metadata as rustc reads it, by the crates' names; of two versions of one crate neither, but for the crate itself."""
    stored = os.path.join(folder, COMPILED)
    if os.path.exists(stored):
        with open(stored, encoding="utf-8") as handle:
            return chosen({name: [(number, file) for number, file in files] for name, files in json.load(handle).items()}, package)
    with locked(setup.build(folder)):
        return chosen(compiled_in(os.path.join(folder, "project"), os.path.join(setup.build(folder), "from-rustdoc"), setup.jobs), package)


def compiled_in(project: str, target: str, jobs: int) -> Compiled:
    """The metadata of each library that a project uses, by the crates' names, each with its package."""
    words = ["cargo", "check", *CARGO, "-j", str(jobs), "--message-format", "json", "--target-dir", target]
    done = subprocess.run(words, cwd=project, stdout=subprocess.PIPE, stderr=subprocess.PIPE, text=True)
    if done.returncode != 0:
        raise BadInput(f"cargo check failed: {(done.stderr.splitlines() or ['it said nothing'])[-1]}")
    found: Compiled = {}
    for line in done.stdout.splitlines():
        message = json.loads(line)
        if message.get("reason") == "compiler-artifact" and "lib" in message["target"]["kind"]:
            for file in message["filenames"]:
                if file.endswith(".rmeta"):
                    found.setdefault(message["target"]["name"].replace("-", "_"), []).append((message["package_id"], file))
    return found


def chosen(found: Compiled, package: Package) -> dict[str, str]:
    chosen_files = {}
    for name, files in found.items():
        if name == "surveyed":
            continue
        own = [file for number, file in files if name == package.crate and number.endswith(f"@{package.version}")]
        if len(files) == 1 or own:
            chosen_files[name] = (own or [files[0][1]])[0]
    return chosen_files


def ask(setup: Setup, package: Package, count: int, step: Step) -> None:
    """Queries about the crate, to rustc and, if rustc takes them, to the translator."""
    folder = setup.folder(package)
    project = load_project(folder)
    name = own_name(project, package)
    files = {used: project.files[used] for used in project.closure([name])}
    # If it uses two versions of a crate, a query could name either.
    documents = Documents({used: file for used, file in files.items() if "@" not in used})
    queries = Generator(Crate(files[name], documents), f"{package.name} {package.version}").queries(count)
    if not queries:
        raise Skipped("it has no public items for a query")
    externs = metadata_of(setup, folder, package)
    rows, step.figures = answered(queries, externs, list(files.values()), project.links, os.path.join(folder, package.crate), setup.program)
    for row in rows:
        step.add("question", **row)


def answered(queries: list[Query], externs: dict[str, str], files: list[str], links: Links, base: str,
             program: Optional[str]) -> tuple[list[dict[str, Any]], dict[str, Any]]:
    """A row for each query, and the times that rustc and the translator took."""
    began = time.monotonic()
    with tempfile.TemporaryDirectory() as room:
        compiler = Compiler(externs, sorted({os.path.dirname(file) for file in externs.values()}), room)
        verdicts = [v for start in range(0, len(queries), BATCH) for v in compiler.verdicts(queries[start:start + BATCH])]
    middle = time.monotonic()
    translator.write_base(base, files, links)
    found = answers(queries, verdicts, base, program)
    rows = [compare.row(q, a, v) for q, a, v in zip(queries, found, verdicts)]
    return rows, {"rustc_seconds": round(middle - began, 2), "translator_seconds": round(time.monotonic() - middle, 2), "rounds": compiler.rounds,
                  "counts": dict(compare.counts(rows))}


def answers(queries: list[Query], verdicts: list[Verdict], base: str, program: Optional[str]) -> list[translator.Answer]:
    """The answers to the queries that rustc decides."""
    numbers = [n for n, v in enumerate(verdicts) if v.word not in (REJECTED, OPEN)]
    found = dict(zip(numbers, translator.ask(base, [queries[n] for n in numbers], program)))
    return [found.get(n, translator.Answer("not asked")) for n in range(len(queries))]


# ---- releases
def without_impls(file: str, to: str) -> int:
    """A crate's documents without the impls of traits that it writes; how many these were."""
    with open(file, encoding="utf-8") as handle:
        data = json.load(handle)
    taken = {number for number, item in data["index"].items() if is_added(item)}
    data["index"] = {number: item for number, item in data["index"].items() if number not in taken}
    for item in data["index"].values():
        body = next(iter(item["inner"].values()))
        for key in ("impls", "implementations"):
            if isinstance(body, dict) and key in body:
                body[key] = [number for number in body[key] if str(number) not in taken]
    with open(to, "w", encoding="utf-8") as handle:
        json.dump(data, handle)
    return len(taken)


def is_added(item: dict[str, Any]) -> bool:
    body = item["inner"].get("impl")
    return body is not None and body["trait"] is not None and not body["is_synthetic"] and body["blanket_impl"] is None


def judge(setup: Setup, package: Package, older: Optional[Package], step: Step) -> None:
    """The release from an earlier version. If there is none, each impl of the crate as if this version had added it."""
    folder = setup.folder(package)
    project = load_project(folder)
    name = own_name(project, package)
    new = project.files[name]
    # `later` takes one version of each crate that both versions use.
    also = [project.files[used] for used in project.closure([name]) if "@" not in used and used != name]
    if older is not None:
        before = load_project(setup.folder(older))
        old, how = before.files[own_name(before, older)], "release"
    else:
        old, how = os.path.join(folder, "without_impls.json"), "as if added"
        without_impls(new, old)
    try:
        found = translator.later(old, new, also, setup.program)
    finally:
        if older is None:
            os.remove(old)
    # The other changes of a version without impls are not its authors' changes.
    changes = [c for c in found.changes if older is not None or c.code == ADDED]
    words = Counter(c.word for c in changes if c.code == ADDED)
    step.figures = {"how": how, "before": older.version if older else "", "answer": found.answer if older else "", "added": sum(words.values()),
                    "breaking": words["breaking"], "compatible": words["compatible"], "not_settled": words["not settled"],
                    "changes": len(changes) - sum(words.values())}
    for change in changes:
        step.add("change", how=how, **asdict(change))
