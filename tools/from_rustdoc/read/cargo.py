"""Projects: has cargo check them, by which rustdoc makes the JSON of each library, and reads what uses what. Cargo decides what is made again."""
from __future__ import annotations

import functools
import hashlib
import json
import os
import re
import subprocess
import sys
from dataclasses import dataclass, field
from typing import Any, Iterable, Iterator, Sequence

from . import proved
from .console import console
from .doc_cfg import Cfgs
from .terms import BadInput

FLAGS = "-Z unstable-options --output-format json --document-private-items --document-hidden-items"
HERE = os.path.dirname(os.path.abspath(__file__))
PINS = ("rust-toolchain.toml", "rust-toolchain")
# What is shared of documents, and what says next to one that it was taken from there.
SHARED, TAKEN = "shared", "taken"
LIBRARIES = ("lib", "rlib", "dylib", "cdylib", "staticlib")
# What cargo says of its work where there was none.
NO_WORK = "Finished"


@dataclass
class Links:
    """How the crates of one build belong together: which crates each one uses. Of a crate that is there more than once each has a name with
    its version, by its file. `artifacts` has the names by the compiled files, which no two units share. `cfgs` of a crate are known if it was
    documented here, `doc_cfgs` is what depends on `cfg(doc)`, where that was looked for; `root` is the workspace's folder, from which rustdoc
    names its sources; `editions` has its own crates."""
    uses: dict[str, list[str]] = field(default_factory=dict)
    names: dict[str, str] = field(default_factory=dict)
    artifacts: dict[str, str] = field(default_factory=dict)
    cfgs: dict[str, Cfgs] = field(default_factory=dict)
    doc_cfgs: dict[str, list[str]] | None = None
    root: str = ""
    editions: dict[str, str] = field(default_factory=dict)

    def kept(self) -> dict[str, Any]:
        return {"uses": self.uses, "names": self.names, "artifacts": self.artifacts, "doc_cfgs": self.doc_cfgs, "root": self.root,
                "editions": self.editions}


@dataclass
class Project:
    """`files` has the JSON of each crate that has one, `members` the workspace's own crates; `folder` is where the documents are."""
    links: Links = field(default_factory=Links)
    members: list[str] = field(default_factory=list)
    files: dict[str, str] = field(default_factory=dict)
    folder: str = ""
    units: dict[str, Unit] = field(default_factory=dict)

    @property
    def uses(self) -> dict[str, list[str]]:
        return self.links.uses

    @property
    def root(self) -> str:
        return self.links.root

    def closure(self, names: list[str]) -> list[str]:
        return [name for name in closure(names, self.uses) if name in self.files]


@dataclass
class Unit:
    """A library that cargo has checked and rustdoc documented: a package with its features and the units that it uses. `stem` is the name of
    its compiled file, `uses` those of other units. `is_fresh` says that nothing was to be done."""
    stem: str
    package: str
    crate: str
    version: str
    file: str
    target: str = ""
    cfgs: list[str] = field(default_factory=list)
    uses: list[str] = field(default_factory=list)
    is_fresh: bool = False


def closure(begin: list[str], uses: dict[str, list[str]]) -> list[str]:
    found: dict[str, None] = {}
    todo = list(begin)
    while todo:
        one = todo.pop(0)
        if one not in found:
            found[one] = None
            todo += uses.get(one, [])
    return list(found)


def command(words: list[str], folder: str, environment: dict[str, str] | None = None) -> str:
    try:
        done = subprocess.run(words, cwd=folder, env={**os.environ, **(environment or {})}, stdout=subprocess.PIPE, text=True)
    except OSError as error:
        raise BadInput(f"`{words[0]}` cannot be run: {error}")
    if done.returncode != 0:
        raise BadInput(f"`{' '.join(words)}` failed" + pinned(folder))
    return done.stdout


def pinned(folder: str) -> str:
    """What pins the toolchain of the folder, to be reported where that may be the reason."""
    place = os.path.abspath(folder)
    while not os.environ.get("RUSTUP_TOOLCHAIN"):
        for name in PINS:
            if os.path.exists(os.path.join(place, name)):
                return f"; {os.path.join(place, name)} pins the toolchain: RUSTUP_TOOLCHAIN=stable, for one, names another"
        if place == os.path.dirname(place):
            return ""
        place = os.path.dirname(place)
    return ""


def docs_folder(given: str | None, folder: str = ".") -> str:
    """The folder of std's documents, those of the toolchain that the project's folder has."""
    if given:
        if not os.path.exists(os.path.join(given, "core")) and not given.endswith(".json"):
            raise BadInput(f"{given} has no documents of std: it needs the folders `core`, `alloc` and `std`")
        return given
    found = os.path.join(said_by_rustc(folder, "sysroot").strip(), "share", "doc", "rust", "html")
    if not os.path.isdir(os.path.join(found, "core")):
        raise BadInput(f"std's documents are not in {found}: install them by `rustup component add rust-docs`, or name their folder by --docs")
    return found


@functools.lru_cache(maxsize=None)
def said_by_rustc(folder: str, what: str, target: str = "") -> str:
    return command(["rustc", "--print", what, *(["--target", target] if target else [])], folder)


# ---- what uses what
def library_name(package: dict[str, Any]) -> str | None:
    for target in package["targets"]:
        if any(kind in LIBRARIES for kind in target["kind"]):
            return str(target["name"]).replace("-", "_")
    return None


def read_metadata(text: str) -> Project:
    """A project by cargo's metadata, which says what uses what, but knows no documents."""
    data = json.loads(text)
    names = {package["id"]: library_name(package) for package in data["packages"]}
    project = Project(Links(root=data.get("workspace_root", "")))
    for node in data["resolve"]["nodes"]:
        name = names.get(node["id"])
        if name is None:
            continue
        uses = project.uses.setdefault(name, [])
        for dependency in node["deps"]:
            kinds = [kind["kind"] for kind in dependency.get("dep_kinds", [])] or [None]
            other = names.get(dependency["pkg"])
            if other and None in kinds and other not in uses:
                uses.append(other)
    project.members = [n for n in (names.get(i) for i in data["workspace_members"]) if n]
    project.links.editions = {str(names[p["id"]]): str(p.get("edition", "")) for p in data["packages"] if names[p["id"]] in project.members}
    return project


def project_of(units: list[Unit], members: list[str], root: str) -> Project:
    """A project of the units that were documented; `members` are the packages of the workspace. What its libraries do not use is no part of it."""
    by_stem = {unit.stem: unit for unit in units}
    of_members = [unit.stem for unit in own_units(units, members)]
    uses = {unit.stem: [stem for stem in unit.uses if stem in by_stem] for unit in units}
    names = unique_names([by_stem[stem] for stem in closure(of_members, uses)], of_members)
    project = Project(Links(root=root))
    for stem, name in names.items():
        project.files[name] = by_stem[stem].file
        project.uses[name] = list(dict.fromkeys(names[used] for used in uses[stem]))
    project.links.names = {file: name for name, file in project.files.items() if "@" in name}
    project.links.artifacts = names
    project.members = [names[stem] for stem in of_members]
    return project


def own_units(units: list[Unit], members: list[str]) -> Iterator[Unit]:
    """A unit of each member. One that procedural macros use too may have been checked twice: then it is the one that none uses."""
    used = {stem for unit in units for stem in unit.uses}
    for member in members:
        of_member = sorted((unit for unit in units if unit.package == member), key=lambda unit: unit.stem in used)
        yield from of_member[:1]


def unique_names(units: list[Unit], members: list[str]) -> dict[str, str]:
    """The names of units, by their compiled files: of a crate that is there more than once each has its version in its name, but for the
    workspace's own."""
    count: dict[str, int] = {}
    for unit in units:
        count[unit.crate] = count.get(unit.crate, 0) + 1
    own = [unit.crate for unit in units if unit.stem in members]
    names: dict[str, str] = {}
    for unit in units:
        is_alone = count[unit.crate] == 1 or unit.stem in members and own.count(unit.crate) == 1
        name = unit.crate if is_alone else f"{unit.crate}@{unit.version}"
        taken = sum(n == name or n.startswith(name + "+") for n in names.values())
        names[unit.stem] = f"{name}+{taken + 1}" if taken else name
    return names


def align(old: Project, new: Project) -> None:
    """Gives a crate that is there more than once in one of two versions of a project the same names in both: with the part of its version that
    a compatible one has too, where that distinguishes them."""
    both = (old, new)
    doubled = {name.partition("@")[0] for project in both for name in project.units if "@" in name}
    for project in both:
        own = {name: (name.partition("@")[0], unit.version) for name, unit in project.units.items()}
        wanted = {name: f"{crate}@{compatible(version)}" for name, (crate, version) in own.items() if crate in doubled and name not in project.members}
        rename(project, {name: one for name, one in wanted.items() if list(wanted.values()).count(one) == 1})


def compatible(version: str) -> str:
    """`1` of `1.4.2`, `0.4` of `0.4.2`."""
    parts = version.split("+")[0].split("-")[0].split(".")
    first = next((number for number, part in enumerate(parts) if part != "0"), len(parts) - 1)
    return ".".join(parts[:first + 1])


def rename(project: Project, names: dict[str, str]) -> None:
    def of(name: str) -> str:
        return names.get(name, name)

    links = project.links
    links.uses = {of(name): list(map(of, uses)) for name, uses in links.uses.items()}
    links.artifacts = {stem: of(name) for stem, name in links.artifacts.items()}
    project.files = {of(name): file for name, file in project.files.items()}
    project.units = {of(name): unit for name, unit in project.units.items()}
    project.members = list(map(of, project.members))
    links.names = {file: name for name, file in project.files.items() if "@" in name}


# ---- documents
def document(folder: str, extra: list[str], quiet: bool = False, manifest: str | None = None, target: str | None = None,
             shared: str | None = None, data: dict[str, Any] | None = None) -> Project:
    """Documents the project and all that it uses, into `target/from-rustdoc`, where cargo finds that anything has changed. Another project's
    manifest is documented as this folder would be, by its toolchain and its configuration, into a target below that. `data` is what `metadata` says."""
    has_manifest(folder, manifest)
    of = ["--manifest-path", os.path.abspath(manifest)] if manifest else []
    data = data or metadata(folder, extra, of)
    shared = shared or os.path.join(os.path.dirname(target) if target else target_of(data), SHARED)
    target = target or target_of(data)
    if not any(library_name(package) for package in data["packages"]):
        raise BadInput(f"{folder} has no library that is documented: a project of programs or procedural macros alone has nothing to read")
    place = os.path.join(target, f"json-{made_by()}")
    words = ["cargo", "check", "--lib", *["--quiet"] * (quiet or "--quiet" in extra or "-q" in extra), "--target-dir", target,
             "--message-format", "json-render-diagnostics", *of, *flags_of_check(extra)]
    told = "" if quiet else f"documenting {manifest or 'the project'} and what it uses"
    units, missing = units_of(messages(words, folder, environment(place, shared), told), place)
    if missing:
        # Someone has removed documents, or they were made by another version of this tool: then cargo is to find nothing fresh.
        forget(target)
        units, missing = units_of(messages(words, folder, environment(place, shared), told), place)
    if missing:
        raise BadInput(f"rustdoc made no document of {', '.join(missing)}")
    project = project_of(units, data["workspace_members"], data["workspace_root"])
    if "--no-deps" in extra:
        project.files = {name: project.files[name] for name in project.members}
    project.folder = target
    project.units = {name: next(u for u in units if u.file == file) for name, file in project.files.items()}
    editions = {package["id"]: package["edition"] for package in data["packages"]}
    project.links.editions = {name: editions[project.units[name].package] for name in project.members}
    return project


def has_manifest(folder: str, manifest: str | None = None) -> None:
    if not os.path.exists(manifest or os.path.join(folder, "Cargo.toml")):
        raise BadInput(f"{folder} has no Cargo.toml" if manifest is None else f"there is no {manifest}")


def made_by() -> str:
    """A sum of what makes documents besides cargo's own settings: the files that are called, the flags, rustdoc where another one is named."""
    total = hashlib.sha256(repr((FLAGS, os.environ.get("RUSTDOC", ""))).encode())
    for name in ("rustc.sh", "unit.py"):
        with open(os.path.join(HERE, name), "rb") as handle:
            total.update(handle.read())
    return total.hexdigest()[:12]


def environment(place: str, shared: str) -> dict[str, str]:
    """What has cargo call `unit.py` for each unit."""
    flags = {"RUSTC_WRAPPER": os.path.join(HERE, "rustc.sh"), "FROM_RUSTDOC_WRAPPER": os.environ.get("RUSTC_WRAPPER", ""),
             "FROM_RUSTDOC_PYTHON": sys.executable, "FROM_RUSTDOC_JSON": os.path.abspath(place), "FROM_RUSTDOC_FLAGS": FLAGS,
             "FROM_RUSTDOC_SHARED": os.path.abspath(shared)}
    if "RUSTDOC" in os.environ:
        flags["FROM_RUSTDOC_TOOL"] = os.environ["RUSTDOC"]
    return flags


def flags_of_check(extra: list[str]) -> list[str]:
    """Cargo's flags, without those that `cargo check --lib` does not take twice, or not at all."""
    return [word for word in extra if word not in ("--lib", "--no-deps", "--quiet", "-q")]


def messages(words: list[str], folder: str, environment: dict[str, str], told: str) -> Iterator[dict[str, Any]]:
    """What cargo says for machines. What it says for people is passed on if it works, after a line of what is done."""
    # (Imported here, as below what an answer does not need: to load it takes long next to that.)
    import tempfile
    with tempfile.TemporaryFile() as said:
        try:
            started = subprocess.Popen(words, cwd=folder, env={**os.environ, **passed_on(), **environment}, stdout=said, stderr=subprocess.PIPE, text=True,
                                       errors="replace")
        except OSError as error:
            raise BadInput(f"`{words[0]}` cannot be run: {error}")
        assert started.stderr is not None
        with started:
            for line in started.stderr:
                at_work = progress_of(line)
                if told and line.strip() and not is_no_work(line):
                    console.note(told)
                    told = ""
                if at_work:
                    console.progress(f"documenting {min(int(at_work[1]) + 1, int(at_work[2]))} of {at_work[2]}: {at_work[3]}")
                elif line.strip() and not is_no_work(line):
                    console.write(line)
        console.clear()
        if started.returncode:
            raise BadInput(f"`{' '.join(words)}` failed" + pinned(folder))
        said.seek(0)
        for line in said.read().decode().splitlines():
            if line.startswith("{"):
                yield json.loads(line)


def passed_on() -> dict[str, str]:
    """Has cargo say what is passed on as it does on a terminal: with its colours and its progress."""
    found = {"CARGO_TERM_COLOR": "always"} if console.is_coloured else {}
    return {**found, "CARGO_TERM_PROGRESS_WHEN": "always", "CARGO_TERM_PROGRESS_WIDTH": "200"} if console.has_progress else found


def progress_of(line: str) -> re.Match[str] | None:
    """How many units are done of how many, and which are at work, where a line of cargo says it."""
    return re.match(r" *Building \[[=> ]*\] (\d+)/(\d+): (.*\S)", plain(line))


def plain(line: str) -> str:
    return re.sub(r"\x1b\[[0-9;]*[mK]", "", line)


def is_no_work(line: str) -> bool:
    return plain(line).split()[:1] == [NO_WORK]


def units_of(said: Iterable[dict[str, Any]], place: str) -> tuple[list[Unit], list[str]]:
    """The libraries that are checked, by cargo's messages, and the names of those that have no document."""
    units, missing = [], []
    for message in said:
        if message.get("reason") != "compiler-artifact" or not any(kind in LIBRARIES for kind in message["target"]["kind"]) or \
                not all(file.endswith(".rmeta") for file in message["filenames"]):
            continue
        stem = os.path.basename(message["filenames"][0]).rsplit(".", 1)[0]
        try:
            with open(os.path.join(place, stem, "unit"), encoding="utf-8") as handle:
                known = json.load(handle)
            unit = Unit(stem, message["package_id"], known["crate"], known["version"], os.path.join(place, stem, known["crate"] + ".json"),
                        known["target"], known["cfgs"], known["uses"], bool(message.get("fresh")))
        except (OSError, ValueError, KeyError):
            unit = None
        if unit is not None and os.path.isfile(unit.file):
            units.append(unit)
        else:
            missing.append(message["package_id"])
    return units, missing


def forget(target: str) -> None:
    import glob
    import shutil
    for pattern in (os.path.join(target, "*", ".fingerprint"), os.path.join(target, "*", "*", ".fingerprint")):
        for place in glob.glob(pattern):
            shutil.rmtree(place, ignore_errors=True)
    for place in glob.glob(os.path.join(target, "json-*")):
        shutil.rmtree(place, ignore_errors=True)


def add_cfgs(project: Project, folder: str) -> None:
    """What is set where each crate is compiled."""
    for name, unit in project.units.items():
        project.links.cfgs[name] = frozenset(said_by_rustc(folder, "cfg", unit.target).split("\n")).union(unit.cfgs)


# ---- what depends on `cfg(doc)`, stored while the documents stay
def states(files: Iterable[str]) -> list[list[int]]:
    """By what a document is known to be the one that was read: its time, its size and its place on the disk."""
    return [[found.st_mtime_ns, found.st_size, found.st_ino] for found in map(os.stat, files)]


def state_of(project: Project) -> str:
    return json.dumps([proved.tool_sum(), {**project.links.kept(), "doc_cfgs": None}, project.files, states(project.files.values())], sort_keys=True)


def recall_doc_cfgs(project: Project, folder: str) -> None:
    """What was found of these very documents; else what is needed to find it."""
    known = proved.known(doc_cfgs_of(project), state_of(project))
    if known is not None:
        project.links.doc_cfgs = json.loads(known)
    else:
        add_cfgs(project, folder)


def keep_doc_cfgs(project: Project, found: dict[str, list[str]]) -> None:
    if project.links.doc_cfgs is None:
        proved.keep(doc_cfgs_of(project), {"state": state_of(project), "found": json.dumps(found)})


def doc_cfgs_of(project: Project) -> str:
    return os.path.join(project.folder, "doc-cfgs.json")


# ---- cargo's metadata
def metadata(folder: str, extra: Sequence[str], of: Sequence[str] = ()) -> dict[str, Any]:
    """Of the workspace's own packages alone, which takes no time."""
    found: dict[str, Any] = json.loads(command(["cargo", "metadata", "--no-deps", "--format-version", "1", *of, *configured(extra)], folder))
    return found


def whole_metadata(folder: str, extra: list[str], of: Sequence[str]) -> dict[str, Any]:
    """Of all packages that are used."""
    host = next(line.split()[1] for line in command(["rustc", "-vV"], folder).splitlines() if line.startswith("host:"))
    target = next((value for word, value in zip(extra, extra[1:]) if word == "--target"), host)
    words = ["cargo", "metadata", "--format-version", "1", "--filter-platform", target, *of, *configured(extra), *chosen(extra)]
    found: dict[str, Any] = json.loads(command(words, folder))
    return found


def chosen(extra: Sequence[str]) -> list[str]:
    """Those of cargo's flags that choose what is used."""
    return [word for word in extra if word in ("--offline", "--locked", "--frozen")] + features(extra)


def features(extra: Sequence[str]) -> list[str]:
    """Those of cargo's flags that choose features."""
    found: list[str] = []
    for number, word in enumerate(extra):
        if word in ("--all-features", "--no-default-features") or word.startswith("--features="):
            found.append(word)
        elif word in ("--features", "-F"):
            found += extra[number:number + 2]
    return found


def configured(extra: Sequence[str]) -> list[str]:
    """Those of cargo's flags that say where the target is."""
    found: list[str] = []
    for number, word in enumerate(extra):
        if word in ("--config", "-Z"):
            found += [word, *extra[number + 1:number + 2]]
        elif word.startswith(("--config=", "-Z")):
            found.append(word)
    return found


def target_of(data: dict[str, Any]) -> str:
    """Where the documents of a project are, by its metadata."""
    return os.path.join(data["target_directory"], "from-rustdoc")
