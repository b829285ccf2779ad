"""The command of the survey: a step of one crate, the database, and the page of figures. `Snakefile` calls it for each."""
from __future__ import annotations

import argparse
import os
import sys
from typing import Callable

from from_rustdoc.read.terms import BadInput

from . import database, figures, registry, results, steps
from .registry import Package

USAGE = """survey: steps of a survey of a registry of crates. tools/survey/Snakefile calls it; docs/RUSTDOC.md describes it.

  survey list --registry DIR                           the packages of a registry, a line each
  survey document NAME-VERSION [--feature NAME ..]     a step of one crate; its results are OUT/crates/NAME-VERSION/STEP.jsonl
  survey read|check NAME-VERSION                       further steps, each from what those before it have left
  survey ask NAME-VERSION --questions N                N queries about the crate, to rustc and to the translator
  survey judge NAME-VERSION [--before NAME-VERSION]    the release from an earlier version, else each impl as if it were added
  survey adopt BASE                                    takes the crates of a project that from-rustdoc has documented, for further steps
  survey join                                          all results as OUT/survey.sqlite
  survey page                                          OUT/figures.md, of the database

Further flags: --registry DIR (sources of crates, as cargo's directory sources), --out DIR, --target DIR (one folder for all that cargo
builds, else one for each crate), --program FILE (the program that answers texts), --jobs N (of cargo)."""
ONE_CRATE = ("document", "read", "check", "ask", "judge")


def package_of(name: str, among: list[Package]) -> Package:
    for package in among:
        if package.folder == name:
            return package
    raise BadInput(f"the registry has no {name}")


def step(arguments: argparse.Namespace) -> int:
    among = registry.packages(arguments.registry)
    package = package_of(arguments.package, among)
    setup = steps.Setup(arguments.out, arguments.registry, arguments.target, arguments.program, arguments.jobs)
    older = package_of(arguments.before, among) if arguments.before else None
    work: dict[str, Callable[[results.Step], None]] = {
        "document": lambda s: steps.document(setup, package, s, tuple(arguments.feature)), "read": lambda s: steps.read(setup, package, s),
        "check": lambda s: steps.check(setup, package, s), "ask": lambda s: steps.ask(setup, package, arguments.questions, s),
        "judge": lambda s: steps.judge(setup, package, older, s)}
    lines = results.measured(arguments.command, work[arguments.command])
    results.write(setup.file(package, arguments.command), lines)
    why = f": {lines[0]['why']}" if lines[0]["why"] else ""
    print(f"{package.folder}: {arguments.command}: {lines[0]['status']}{why}")
    return 0


def listed(arguments: argparse.Namespace) -> int:
    for package in registry.packages(arguments.registry):
        print(package.folder, package.kind)
    return 0


def adopt(arguments: argparse.Namespace) -> int:
    setup = steps.Setup(arguments.out, arguments.registry, arguments.target, arguments.program, arguments.jobs)
    for package in steps.adopt(setup, arguments.base, registry.packages(arguments.registry)):
        print(package.folder)
    return 0


def join(arguments: argparse.Namespace) -> int:
    among = [p for p in registry.packages(arguments.registry) if os.path.isdir(os.path.join(arguments.out, "crates", p.folder))]
    database.joined(arguments.out, among, os.path.join(arguments.out, "survey.sqlite"))
    print(f"{len(among)} crates: {os.path.join(arguments.out, 'survey.sqlite')}")
    return 0


def page(arguments: argparse.Namespace) -> int:
    text = figures.page(os.path.join(arguments.out, "survey.sqlite"))
    with open(os.path.join(arguments.out, "figures.md"), "w", encoding="utf-8") as handle:
        handle.write(text)
    print(os.path.join(arguments.out, "figures.md"))
    return 0


def parser() -> argparse.ArgumentParser:
    common = argparse.ArgumentParser(add_help=False)
    common.add_argument("--registry", default="/usr/share/cargo/registry")
    common.add_argument("--out", default="survey")
    common.add_argument("--target")
    common.add_argument("--program")
    common.add_argument("--jobs", type=int, default=1)
    common.add_argument("--questions", type=int, default=100)
    common.add_argument("--before")
    common.add_argument("--feature", action="append", default=[])
    top = argparse.ArgumentParser(prog="survey", usage=USAGE)
    commands = top.add_subparsers(dest="command", required=True)
    for name in ONE_CRATE:
        commands.add_parser(name, parents=[common], usage=USAGE).add_argument("package")
    commands.add_parser("adopt", parents=[common], usage=USAGE).add_argument("base")
    for name in ("list", "join", "page"):
        commands.add_parser(name, parents=[common], usage=USAGE)
    return top


def main(words: list[str]) -> int:
    sys.setrecursionlimit(20000)
    arguments = parser().parse_args(words)
    try:
        return {"list": listed, "adopt": adopt, "join": join, "page": page}.get(arguments.command, step)(arguments)
    except BadInput as error:
        print(f"survey: {error}", file=sys.stderr)
        return 3
