"""The older version of a project: which one is meant, its files in a folder of their own, and the documents of both versions.

The files of a revision are stored with the documents, so that cargo finds nothing to do where it finds nothing changed. No hook of git is run.
"""
from __future__ import annotations

import argparse
import contextlib
import functools
import hashlib
import json
import os
import subprocess
from dataclasses import dataclass, field
from typing import Any, Iterator, Sequence

from ..read import cargo
from ..read.proved import cache_folder, keep
from ..read.console import console
from ..read.selection import Selection
from ..read.terms import BadInput

# Neither hooks nor a program that watches files.
GIT = ("-c", "core.hooksPath=/dev/null", "-c", "core.fsmonitor=false")
LOCK = "Cargo.lock"
# How many older versions of a project are stored, those that were compared last.
KEPT = 4
SHORT = 9


@dataclass
class Older:
    """A folder, or a commit. `name` is what it is called; a `remark` says why it was taken."""
    name: str
    folder: str = ""
    commit: str = ""
    remark: str = ""

    def shown(self) -> str:
        revision = self.commit[:SHORT] or revision_of(self.folder)
        return f"{self.name}, {revision}" if revision and not self.commit.startswith(self.name) else self.name


@dataclass
class Documented:
    """Both versions, each with the JSON of its crates, what they are called, and the packages of their libraries."""
    old: cargo.Project
    new: cargo.Project
    names: tuple[str, str] = ("", "")
    packages: tuple[dict[str, str], dict[str, str]] = field(default_factory=lambda: ({}, {}))

    def libraries(self, wanted: list[str], chosen: Selection) -> list[str]:
        """The libraries that are compared: those of the older version that are of these packages, and if all are compared those that are gone."""
        old, new = self.packages
        there = [package["name"] for package in chosen.data["packages"]]
        is_whole = chosen.is_whole() and wanted == chosen.names()
        found = [name for name, package in old.items() if package in wanted or is_whole and package not in there]
        for package in wanted:
            if package not in old.values() and package in chosen.named:
                raise NothingOlder(f"the older version has no library of {package}" + (f"; it has {', '.join(old)}" if old else ""))
            if package not in old.values() and package in new.values() and found:
                console.note(f"the older version has no package `{package}`, which is not compared")
        if not found:
            raise NothingOlder(f"the older version has no library of {', '.join(wanted)}")
        return found


class NothingOlder(BadInput):
    """There is nothing to compare with."""


# ---- git
def git(folder: str, *words: str, **environment: str) -> str:
    try:
        done = subprocess.run(["git", "-C", folder, *GIT, *words], env={**os.environ, **environment}, stdout=subprocess.PIPE, stderr=subprocess.PIPE, text=True)
    except OSError as error:
        raise BadInput(f"`git` cannot be run: {error}")
    if done.returncode != 0:
        raise BadInput(f"`git {' '.join(words)}` failed: {' '.join(done.stderr.split())}")
    return done.stdout.rstrip()


def found_by_git(folder: str, *words: str) -> str:
    """What git says, nothing where it fails."""
    with contextlib.suppress(BadInput):
        return git(folder, *words)
    return ""


def commit_of(folder: str, name: str) -> str:
    return found_by_git(folder, "rev-parse", "--verify", "--quiet", "--end-of-options", f"{name}^{{commit}}")


def changes(folder: str) -> list[str]:
    """The files that are not as they were committed, but for what a build leaves."""
    found = found_by_git(folder, "status", "--porcelain", "--no-renames")
    lines = [(line[:2], line[3:].strip('"')) for line in found.splitlines()]
    return [name for state, name in lines if not (state == "??" and os.path.basename(name.rstrip("/")) in ("target", LOCK))]


@dataclass
class Here:
    """What is in a folder of a repository, asked of git once."""
    folder: str

    @functools.cached_property
    def tree(self) -> str:
        return found_by_git(self.folder, "rev-parse", "HEAD^{tree}")

    @functools.cached_property
    def changed(self) -> list[str]:
        return changes(self.folder)

    def is_at(self, commit: str, without: Sequence[str] = ()) -> bool:
        """Whether a commit has the very files that are here; `without` are names of files that do not count."""
        is_changed = any(os.path.basename(name) not in without for name in self.changed)
        return not is_changed and git(self.folder, "rev-parse", f"{commit}^{{tree}}") == self.tree


def shallow(folder: str) -> str:
    """What to do where git does not have all revisions."""
    if found_by_git(folder, "rev-parse", "--is-shallow-repository") != "true":
        return ""
    return "; this is a shallow clone, which has not all of them: `git fetch --unshallow --tags` (in GitHub's actions/checkout, `fetch-depth: 0`)"


# ---- which one is meant
def named(text: str) -> str:
    """The value of `--baseline`, for the reader of words."""
    if not text.strip() or text.startswith("-"):
        raise argparse.ArgumentTypeError(f"`{text}` names no revision and no folder")
    return text


def is_folder(baseline: str) -> bool:
    """Whether a folder of that name stands here; else it is a revision."""
    return os.path.isfile(os.path.join(baseline, "Cargo.toml"))


def older(baseline: str, folder: str) -> Older:
    """The older version that was named."""
    if is_folder(baseline):
        if os.path.realpath(baseline) == os.path.realpath(folder):
            raise BadInput(f"{baseline} is the newer version itself: name an older one")
        return Older(baseline, os.path.abspath(baseline))
    if os.path.isdir(baseline):
        raise BadInput(f"{baseline} has no Cargo.toml")
    top = git(folder, "rev-parse", "--show-toplevel")
    commit = commit_of(folder, baseline)
    if not commit:
        raise BadInput(f"{baseline} is no folder with a Cargo.toml, and no revision of {top}{shallow(folder)}")
    if Here(folder).is_at(commit):
        before = nearest_tag(folder, excluded=tags_here(folder))
        raise BadInput(f"{baseline} is what stands here: nothing has changed since. Name an older version" + (f", as {before}" if before else ""))
    return Older(baseline, commit=commit)


def tags_here(folder: str) -> list[str]:
    return found_by_git(folder, "tag", "--points-at", "HEAD").splitlines()


def nearest_tag(folder: str, matching: Sequence[str] = (), excluded: Sequence[str] = ()) -> str:
    return found_by_git(folder, "describe", "--tags", "--abbrev=0", *(f"--match={tag}" for tag in matching), *(f"--exclude={tag}" for tag in excluded))


def patterns(package: str) -> list[str]:
    """How tags of one package among several begin."""
    names = dict.fromkeys((package, package.replace("_", "-"), package.replace("-", "_")))
    return [f"{name}{between}[0-9]*" for name in names for between in ("-v", "-", "@", "@v", "/v", "/")]


def latest(here: Here, package: str, packages: list[str]) -> Older:
    """The nearest tag that is not what is here: of several packages one of this package, else one of none of them."""
    others = [tag for other in packages if other.replace("_", "-") != package.replace("_", "-") for tag in patterns(other)]
    kinds = ([patterns(package), [tag for tag in others if tag.startswith(tuple(package + between for between in "-@/"))]], [[], others])
    skipped: list[str] = []
    for matching, excluded in kinds if len(packages) > 1 else (([], []),):
        while True:
            tag = nearest_tag(here.folder, matching, [*excluded, *skipped])
            if not tag:
                break
            commit = commit_of(here.folder, f"refs/tags/{tag}")
            if not here.is_at(commit, (LOCK,)):
                remark = f"; {skipped[-1]} is what stands here" if skipped else ""
                return Older(tag, commit=commit, remark=f"the older version is {tag}{remark}")
            skipped.append(tag)
    whose = f" of {package}" if len(packages) > 1 else ""
    why = f"the only tag{whose} is {skipped[-1]}, which is what stands here" if skipped else f"there is no tag{whose} in this repository"
    raise BadInput(f"{why}: name the older version by --baseline, with a revision or a folder{shallow(here.folder)}")


def by_default(folder: str, wanted: list[str], packages: list[str]) -> list[tuple[Older, list[str]]]:
    """The older versions where none is named, each with the packages that are compared with it (all, if there is one for all)."""
    here = Here(folder)
    if len(packages) <= 1:
        return [(latest(here, "", packages), wanted)]
    found: dict[str, tuple[Older, list[str]]] = {}
    # (Each is looked for: tags of several packages are not made at one time.)
    for package in wanted or packages:
        one = latest(here, package, packages)
        found.setdefault(one.name, (one, []))[1].append(package)
    return [(one, [] if len(found) == 1 and not wanted else names) for one, names in found.values()]


# ---- its files
@contextlib.contextmanager
def files_of(one: Older, folder: str) -> Iterator[str]:
    """The folder of the older version. That of a revision stays for the next time where it can be stored."""
    if one.folder:
        yield one.folder
        return
    top = git(folder, "rev-parse", "--show-toplevel")
    inside = os.path.relpath(os.path.realpath(folder), os.path.realpath(top))
    with contextlib.ExitStack() as stack:
        room = os.path.join(cache_folder(), "baselines", sum_of(os.path.realpath(top)))
        try:
            os.makedirs(room, exist_ok=True)
        except OSError:
            import tempfile
            room = stack.enter_context(tempfile.TemporaryDirectory(prefix="from-rustdoc-"))
        place = os.path.join(room, one.commit)
        if not os.path.isdir(place):
            check_out(top, one.commit, place)
        os.utime(place)
        keep_newest(room, "")
        tree = os.path.join(place, "tree")
        for number, (lock, there) in enumerate([(os.path.join(top, LOCK), os.path.join(tree, LOCK)), (os.path.join(folder, LOCK), os.path.join(tree, inside, LOCK))]):
            keep_lock(lock, there, os.path.join(place, f"lock-{number}"))
        yield os.path.normpath(os.path.join(tree, inside))


def check_out(top: str, commit: str, place: str) -> None:
    """Puts the files of a commit there, all or none."""
    import shutil
    import tempfile
    room = tempfile.mkdtemp(dir=os.path.dirname(place))
    try:
        index = os.path.join(room, "index")
        git(top, "read-tree", commit, GIT_INDEX_FILE=index)
        git(top, "checkout-index", "--all", f"--prefix={os.path.join(room, 'tree', '')}", GIT_INDEX_FILE=index)
        os.remove(index)
        with contextlib.suppress(OSError):
            os.rename(room, place)
        if not os.path.isdir(place):
            raise BadInput(f"the files of {commit} cannot be put into {place}")
    finally:
        shutil.rmtree(room, ignore_errors=True)


def keep_lock(lock: str, there: str, copied: str) -> None:
    """Where the lock file is no part of the repository both versions use the same dependencies. (Cargo may write the older version's, so that a
    copy says which one it has.)"""
    is_own = os.path.exists(there) and not os.path.exists(copied)
    if is_own or not os.path.isfile(lock) or not os.path.isdir(os.path.dirname(there)) or os.path.exists(copied) and bytes_of(copied) == bytes_of(lock):
        return
    for target in (copied, there):
        with open(target, "wb") as handle:
            handle.write(bytes_of(lock))


def bytes_of(file: str) -> bytes:
    with open(file, "rb") as handle:
        return handle.read()


def keep_newest(room: str, beginning: str) -> None:
    """Removes the folders that were used long ago."""
    with contextlib.suppress(OSError):
        places = [os.path.join(room, name) for name in os.listdir(room) if name.startswith(beginning)]
        for place in sorted(places, key=os.path.getmtime, reverse=True)[KEPT:]:
            import shutil
            shutil.rmtree(place, ignore_errors=True)


def sum_of(text: str) -> str:
    return hashlib.sha256(text.encode()).hexdigest()[:16]


# ---- what it runs
@dataclass
class Run:
    """What cargo runs to document a version, by the packages that have it: build scripts and procedural macros, of its own and of others."""
    own: list[str] = field(default_factory=list)
    others: list[str] = field(default_factory=list)


def run_by(data: dict[str, Any]) -> Run:
    """By cargo's metadata. What tests alone use does not count."""
    packages = {package["id"]: package for package in data["packages"]}
    uses = {node["id"]: [d["pkg"] for d in node["deps"] if any(kind["kind"] != "dev" for kind in d["dep_kinds"])] for node in data["resolve"]["nodes"]}
    found = Run()
    for package in map(packages.__getitem__, cargo.closure(data["workspace_members"], uses)):
        if any(kind in ("custom-build", "proc-macro") for target in package["targets"] for kind in target["kind"]):
            (found.own if package["source"] is None else found.others).append(f"{package['name']} {package['version']}")
    return found


def only_older(old: Run, new: Run) -> Run:
    """What is run of the older version that is not run of the newer one all the same."""
    return Run(old.own, [package for package in old.others if package not in new.others])


def told_of(run: Run, name: str) -> str:
    """What is said before anything of the older version is run."""
    parts = [f"of {', '.join(run.own)} as they were then"] * bool(run.own) + [f"of {', '.join(run.others)}, which the newer version does not use"] * bool(run.others)
    return f"to document {name} runs build scripts and procedural macros {' and '.join(parts)}" if parts else ""


# ---- the documents of both
@contextlib.contextmanager
def documented(one: Older, chosen: Selection, words: list[str], quiet: bool, runs_nothing: bool = False) -> Iterator[Documented]:
    """Documents both versions, as cargo would in the newer one's folder, by cargo's words. The older one's sources are there while this lasts."""
    folder, data = chosen.folder, chosen.data
    home = cargo.target_of(data)
    with files_of(one, folder) as there:
        # Each has a place of its own for its documents, so that cargo takes no others for them.
        target = os.path.join(home, f"baseline-{one.commit[:12] or sum_of(there)}")
        manifest = os.path.join(there, "Cargo.toml")
        if not os.path.isfile(manifest):
            raise NothingOlder(f"{one.name} has no {os.path.relpath(os.path.join(folder, 'Cargo.toml'), data['workspace_root'])}: there is nothing to compare with")
        before = cargo.metadata(folder, words, ["--manifest-path", manifest])
        words_before = older_words(words, before, one.name)
        if runs_nothing or not os.path.isdir(target):
            runs = [run_by(cargo.whole_metadata(folder, own, of)) for own, of in ((words_before, ["--manifest-path", manifest]), (words, []))]
            said = told_of(only_older(runs[0], runs[1]), one.name)
            if said and runs_nothing:
                raise BadInput(f"{said}, which --no-build-scripts forbids")
            if said:
                console.note(f"{said} (--no-build-scripts refuses that)")
        remember(one, folder, os.path.join(home, "baselines.json"))
        old = cargo.document(folder, words_before, quiet, manifest, target, data=before)
        os.utime(target)
        keep_newest(home, "baseline-")
        new = cargo.document(folder, words, quiet, data=data)
        cargo.align(old, new)
        for project in (old, new):
            cargo.recall_doc_cfgs(project, folder)
        yield Documented(old, new, (one.shown(), revision_of(folder) or folder), (packages_of(old, before), packages_of(new, data)))


def packages_of(project: cargo.Project, data: dict[str, Any]) -> dict[str, str]:
    """The packages of a project's own libraries."""
    names = {package["id"]: package["name"] for package in data["packages"]}
    return {library: names[project.units[library].package] for library in project.members if library in project.files}


def older_words(words: list[str], data: dict[str, Any], name: str) -> list[str]:
    """Cargo's words for the older version: without the packages and features that it does not have."""
    packages = [package["name"] for package in data["packages"]]
    features = {feature for package in data["packages"] for feature in package["features"]}
    found: list[str] = []
    rest = iter(words)
    for word in rest:
        flag, equals, value = word.partition("=")
        if flag == "-p":
            package = next(rest)
            found += [flag, package] if package in packages else []
        elif flag in ("--features", "-F"):
            asked = (value if equals else next(rest, "")).replace(",", " ").split()
            known = [one for one in asked if one in features or "/" in one]
            if known != asked:
                console.note(f"{name} has no feature {', '.join(one for one in asked if one not in known)}: it is documented without")
            found += ["--features", ",".join(known)] if known else []
        else:
            found.append(word)
    if "-p" in words and "-p" not in found:
        raise NothingOlder(f"{name} has no package {', '.join(p for w, p in zip(words, words[1:]) if w == '-p')}; it has {', '.join(packages)}")
    return found


def revision_of(folder: str) -> str:
    """The revision that is in a folder. Nothing if its files are none of git's."""
    if not found_by_git(folder, "ls-files", "--error-unmatch", "Cargo.toml"):
        return ""
    head = commit_of(folder, "HEAD")[:SHORT]
    return f"{head} with changes" if head and changes(folder) else head


def remember(one: Older, folder: str, file: str) -> None:
    """Says if a tag is not what it was when it was compared last."""
    if not one.commit or not commit_of(folder, f"refs/tags/{one.name}"):
        return
    known: dict[str, str] = {}
    with contextlib.suppress(OSError, ValueError), open(file, encoding="utf-8") as handle:
        known = dict(json.load(handle))
    if known.get(one.name, one.commit) != one.commit:
        console.warn(f"the tag {one.name} has moved: it was {known[one.name][:SHORT]}, and is {one.commit[:SHORT]} now")
    if known.get(one.name) != one.commit:
        keep(file, {**known, one.name: one.commit})
