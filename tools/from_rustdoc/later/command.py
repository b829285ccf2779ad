"""The command `later`: two JSON files, or a project and its older version, which are documented first."""
from __future__ import annotations

import argparse
import functools
import json
import os
import signal
import sys
from collections import Counter
from typing import Callable, Optional, Sequence

from ..model.world import World
from ..read import cargo
from ..read.cargo import Links
from ..read.console import console
from ..read.selection import Selection, Trial, selected
from ..read.settings import Waiver, features_told, of_metadata
from ..read.terms import BadInput, Place
from ..report.classes import CHANGES
from ..report.messages import Message, Output, Sources, Span, worst
from ..report.outputs import reporter_of
from .baseline import Documented, NothingOlder, Older, by_default, documented, older
from .bump import release_type
from .claims import Programs
from .release import NOT_JUDGED, Release, compared
from .waivers import unused, waive

MAXIMAL_TOLD = 5
# Reads crates: their files, std's documents, how they belong together, and whether the first is said to use the others.
WorldReader = Callable[..., World]


def programs_of(arguments: argparse.Namespace) -> Programs:
    return Programs(arguments.program, arguments.program_that_explains)


def told(release: Release, output: Output, is_strict: bool = False) -> int:
    release.raise_levels(is_strict)
    told: Counter[str] = Counter()
    for message in release.messages:
        why = message.text.rpartition(": ")[2] if message.word == NOT_JUDGED and not message.waived else ""
        told[why] += 1
        # What others cannot name is counted; `--private` has it judged. Of what is not judged for one reason people see the first.
        if output.is_json or message.word not in ("private", "sealed") and (not why or told[why] <= MAXIMAL_TOLD):
            output.message(message)
    if release.not_judged:
        output.line(release.uncovered())
    status = release.exit_status(is_strict)
    output.summary(release.summary(), release.crate, release.answer, status,
                   counts={word: release.count(word) for word in dict.fromkeys(m.word for m in release.messages)}, not_judged=dict(release.not_judged),
                   waived=dict(release.waived()), release_type=release.kind or None)
    return status


def of_files(arguments: argparse.Namespace, read: WorldReader, links: Optional[Links]) -> int:
    """Compares two JSON files."""
    files = arguments.files
    worlds = [read([file, *arguments.with_crates], arguments.docs, links, True) for file in files]
    crates = [next(c.name for c in w.crates.values() if c.file == f) for w, f in zip(worlds, files)]
    if crates[0] != crates[1]:
        raise BadInput(f"{crates[0]} and {crates[1]} are two crates, not two versions of one")
    folders = [os.path.dirname(os.path.abspath(file)) for file in files]
    output = reporter_of(arguments).output(Sources({"old": folders[:1], "": folders[1:]}))
    return judged(worlds, crates[0], arguments, output)


def judged(worlds: list[World], crate: str, arguments: argparse.Namespace, output: Output, waivers: Sequence[Waiver] = ()) -> int:
    same = functools.partial(is_same, worlds[0], worlds[1], output.sources)
    release = compared(worlds[0], worlds[1], crate, arguments.private, programs_of(arguments), same)
    by_number = release_type(*release.versions)
    release.kind, release.is_given = arguments.release_type or by_number, arguments.release_type not in (None, by_number)
    waive(release, waivers)
    return told(release, output, arguments.strict)


def is_same(old: World, new: World, sources: Sources) -> bool:
    """Whether all crates have the same versions, files and texts."""
    files = [{(c.name, c.version): c.sources for c in world.crates.values()} for world in (old, new)]
    places = [Place(file, 1, 1, 1, 1) for its in files[0].values() for file in its]
    texts = [[sources.text(sources.path(Span(place, version=version))) for place in places] for version in ("old", "")]
    return files[0] == files[1] and None not in texts[0] and texts[0] == texts[1]


def of_project(arguments: argparse.Namespace, extra: list[str], read: WorldReader) -> int:
    """Compares each library of a project with an older version of the project, for each set of features."""
    signal.signal(signal.SIGTERM, lambda number, frame: sys.exit(143))
    folder = arguments.files[0] if arguments.files else "."
    cargo.has_manifest(folder)
    data = cargo.metadata(folder, extra)
    chosen = selected(folder, data, arguments.package, arguments.workspace, arguments.exclude)
    of_workspace, settings = of_metadata(data, chosen.packages, CHANGES)
    trials = chosen.trials(extra, settings, of_workspace)
    comparison = Comparison(arguments, read, chosen, {name: [*its.waivers, *of_workspace.waivers] for name, its in settings.items()},
                            [waiver for waiver in of_workspace.waivers if not waiver.package])
    statuses = []
    for one, packages in versions_before(arguments, chosen):
        if one.remark:
            console.note(one.remark)
        for trial in trials:
            names = [name for name in packages or chosen.names() if not trial.packages or name in trial.packages]
            if names:
                statuses += comparison.with_features(one, names, trial, extra)
    waivers = [waiver for name in chosen.names() for waiver in settings[name].waivers]
    waivers += [w for w in of_workspace.waivers if (w.package in chosen.names() if w.package else chosen.is_whole())]
    for message in unused(waivers):
        reporter_of(arguments).output().message(message)
    return worst(statuses)


def versions_before(arguments: argparse.Namespace, chosen: Selection) -> list[tuple[Older, list[str]]]:
    """The older versions, each with the packages that are compared with it; all that are chosen, where none is named."""
    if arguments.baseline is not None:
        return [(older(arguments.baseline, chosen.folder), [])]
    return by_default(chosen.folder, [] if chosen.is_whole() else chosen.names(), [package["name"] for package in chosen.data["packages"]])


class Comparison:
    """One call. `waivers` are those of each package, `of_all` those that name none."""

    def __init__(self, arguments: argparse.Namespace, read: WorldReader, chosen: Selection, waivers: dict[str, list[Waiver]], of_all: list[Waiver]) -> None:
        self.arguments = arguments
        self.read = read
        self.chosen = chosen
        self.waivers = waivers
        self.of_all = of_all

    def with_features(self, one: Older, names: list[str], trial: Trial, extra: list[str]) -> list[int]:
        wanted = [word for name in names for word in ("-p", name)] if trial.packages else self.chosen.words
        try:
            return self.of_both(one, names, trial, [*extra, *wanted, *trial.words])
        except NothingOlder as error:
            if trial.packages and not set(names) & set(self.chosen.named):
                console.note(f"{error}: there is nothing to compare")
                return []
            raise

    def of_both(self, one: Older, names: list[str], trial: Trial, words: list[str]) -> list[int]:
        arguments = self.arguments
        with documented(one, self.chosen, words, arguments.quiet, arguments.no_build_scripts) as both:
            output = reporter_of(arguments).output(Sources({"old": [both.old.root], "": [both.new.root]}))
            output.features = features_told(trial.words) if trial.is_told else ""
            doc_cfgs: list[dict[str, list[str]]] = [{}, {}]
            libraries = both.libraries(names, self.chosen)
            statuses = [self.of_library(name, both, output, doc_cfgs) for name in libraries]
            if libraries == both.old.members == both.new.members:
                for project, found in zip((both.old, both.new), doc_cfgs):
                    cargo.keep_doc_cfgs(project, found)
        return statuses

    def of_library(self, name: str, both: Documented, output: Output, doc_cfgs: list[dict[str, list[str]]]) -> int:
        """Compares one library, and adds to what was found of its crates."""
        versions = [project.units[name].version if name in project.units else "" for project in (both.old, both.new)]
        say_versions(name, versions, both.names, output)
        package = both.packages[1].get(name, "")
        waivers = [waiver for waiver in self.waivers.get(package, ()) if waiver.package in ("", package)]
        if name not in both.new.files:
            release = gone(name, versions[0], self.arguments.release_type or "")
            waive(release, self.of_all)
            return told(release, output)
        worlds = [self.read([p.files[c] for c in p.closure([name])], self.arguments.docs, p.links) for p in (both.old, both.new)]
        for found, world in zip(doc_cfgs, worlds):
            found.update(world.doc_cfgs)
        return judged(worlds, name, self.arguments, output, waivers)


def gone(name: str, version: str, kind: str) -> Release:
    """A library that the newer version has not."""
    return Release(name, (version, ""), [Message(f"the library `{name}` is gone", "crate-removed", "breaking", name)], kind=kind, is_given=bool(kind))


def say_versions(name: str, versions: list[str], names: tuple[str, str], output: Output) -> None:
    """What is compared with what."""
    if output.is_json:
        old, new = ({"version": version or None, "name": called} for version, called in zip(versions, names))
        output.write(json.dumps({"$message_type": "versions", "crate": name, "old": old, "new": new, "features": output.features or None}) + "\n")
        return
    old_text, new_text = (f"{name} {version} ({called})" if version else f"no {name} ({called})" for version, called in zip(versions, names))
    output.line(f"comparing {old_text} with {new_text}" + (f", {output.features}" if output.features else ""))


def later(arguments: argparse.Namespace, extra: list[str], read: WorldReader, links: Optional[Links]) -> int:
    if arguments.baseline is not None or arguments.of_project:
        if len(arguments.files) > 1:
            raise BadInput("`later --baseline` takes one project")
        return of_project(arguments, extra, read)
    if len(arguments.files) != 2:
        raise BadInput("`later` takes two JSON files, the older one first, or `--baseline` with a revision or a folder")
    return of_files(arguments, read, links)
