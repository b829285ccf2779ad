"""What `cargo celtisdarts` does with its words: for the packages that are chosen, with each set of features that is tried."""
from __future__ import annotations

import argparse
from typing import Any

from . import flags
from .command import answered, check_project, conditions, documents, output_of, world_of
from .command import serve as serve_project
from .model.world import World
from .read import cargo
from .read.selection import Selection, Trial, project_folder, selected
from .read.settings import Expected, Settings, features_told, of_metadata
from .report.classes import CHANGES
from .report.messages import worst



class Call:
    """One call in a project: its packages, and what their metadata says."""

    def __init__(self, arguments: argparse.Namespace, extra: list[str]) -> None:
        arguments.told_features = ""
        self.arguments = arguments
        self.extra = extra
        self.folder = project_folder(arguments.manifest_path)
        self.chosen: Selection = selected(self.folder, cargo.metadata(self.folder, extra), arguments.package, arguments.workspace, arguments.exclude)
        self.of_workspace, self.settings = of_metadata(self.chosen.data, self.chosen.packages, CHANGES)

    def trials(self) -> list[Trial]:
        return self.chosen.trials(self.extra, self.settings, self.of_workspace)

    def documents(self, trial: Trial) -> tuple[str, dict[str, Any], World]:
        """The documents by one set of features."""
        words = [word for name in trial.packages for word in ("-p", name)] if trial.packages else self.chosen.words
        self.arguments.told_features = features_told(trial.words) if trial.is_told else ""
        return documents(self.folder, [*self.extra, *words, *trial.words], self.arguments)


def run(name: str, arguments: argparse.Namespace, extra: list[str]) -> int:
    return {"later": later, "ask": ask, "check": check, "conditions": asked, "traits": asked, "serve": serve}[name](arguments, extra)


def later(arguments: argparse.Namespace, extra: list[str]) -> int:
    from .later.command import of_project
    arguments.files = [project_folder(arguments.manifest_path)]
    return of_project(arguments, extra, world_of)


def ask(arguments: argparse.Namespace, extra: list[str]) -> int:
    """The queries that are given, by the features that are given; else those of the metadata, by all sets of features."""
    call = Call(arguments, extra)
    if arguments.words:
        arguments.questions = [(word, None) for word in arguments.words]
        _, inputs, world = call.documents(Trial())
        return answered(inputs, world, arguments)
    if not any(its.asks for its in (call.of_workspace, *call.settings.values())):
        raise flags.WrongWords("`ask` takes a question, as 'mine::Pool: Send'; without one it asks those of [package.metadata.celtisdarts.ask], where there are none")
    if arguments.expect is not None:
        raise flags.WrongWords("--expect goes with questions that are given: those of the metadata have their own answers")
    statuses = []
    for trial, asks in questions_by_trial(call):
        arguments.questions = [(one.question, one.answer) for one in asks]
        _, inputs, world = call.documents(trial)
        statuses.append(answered(inputs, world, arguments))
    return worst(statuses)


def asked(arguments: argparse.Namespace, extra: list[str]) -> int:
    """`conditions` and `traits`, by the features that are given."""
    call = Call(arguments, extra)
    arguments.project = call.folder
    return conditions(arguments, [*extra, *call.chosen.words])


def serve(arguments: argparse.Namespace, extra: list[str]) -> int:
    call = Call(arguments, extra)
    arguments.project = call.folder
    return serve_project(arguments, [*extra, *call.chosen.words])


def questions_by_trial(call: Call) -> list[tuple[Trial, list[Expected]]]:
    """The workspace's queries are about all packages that are chosen, by the workspace's features."""
    trials = call.trials()
    if len({tuple(trial.packages) for trial in trials}) > 1 and call.of_workspace.asks:
        of_all = call.chosen.trials(call.extra, {name: Settings() for name in call.chosen.names()}, call.of_workspace)
        alone = [(trial, call.of_workspace.asks) for trial in of_all]
        shared: list[Expected] = []
    else:
        alone, shared = [], call.of_workspace.asks
    found = [(trial, [*shared, *(one for name in trial.packages or call.chosen.names() for one in call.settings[name].asks)]) for trial in trials]
    return [*alone, *((trial, asks) for trial, asks in found if asks)]


def check(arguments: argparse.Namespace, extra: list[str]) -> int:
    call = Call(arguments, extra)
    statuses = []
    for trial in call.trials():
        base, inputs, world = call.documents(trial)
        own = own_crates(call, trial, world)
        names = list(world.crates) if arguments.all else own
        output = output_of(arguments, inputs)
        others = len(world.crates) - len(own)
        output.line(why(len(names), others if not arguments.all else 0) + (f", {arguments.told_features}" if arguments.told_features else ""))
        statuses.append(check_project(base, inputs, world, arguments, names))
    return worst(statuses)


def own_crates(call: Call, trial: Trial, world: World) -> list[str]:
    """The libraries of the packages that are chosen."""
    wanted = trial.packages or call.chosen.names()
    libraries = {cargo.library_name(package) for package in call.chosen.packages if package["name"] in wanted}
    return [name for name in world.crates if name in libraries]


def why(count: int, others: int) -> str:
    """What a check is for."""
    more = f"; --all judges {others} more that are used" if others else ""
    return f"judging {count} crate{'s' * (count != 1)} a second time, beside rustc: is the orphan rule kept, and do no impls overlap{more}"
