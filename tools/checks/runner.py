"""Checks the repository. The checks are modules of tools/checks.

    tools/check                     all that the gate runs, in its order
    tools/check NAME...             these checks, or all of a group that --list names
    tools/check NAME OPTION...      one check, with options of its own: tools/check NAME --help lists them
    tools/check --list              the checks by group, with what each tries
    tools/check --verbose NAME...   prints each case that passes too

A case that fails is named, with the reason. The last line is 'N passed, M failed', after several checks for all of them. The status is 0 if
none failed and each check tried something, 1 otherwise, and 2 for wrong arguments.
"""
from __future__ import annotations

import argparse
import importlib
import resource
import time
import traceback
from types import ModuleType
from typing import Sequence

from .common import Missing, Tally

# By group, in the order of the gate: checks without a program, those of the built program, those that compile something too, which the
# gate runs beside them, and those that are run by hand.
GROUPS = {
    "sources": ["promises", "documents", "reading", "shape", "packages"],
    "programs": [
        "examples", "slips", "explanations", "explained_words", "statuses", "options", "asking", "transcripts", "limits", "prefixes", "orders",
        "monotone", "values", "hostile",
    ],
    "compiled": ["tests", "walks", "driven", "refused_growth", "rustdoc_cases", "survey_cases", "bindings"],
    "by_hand": ["explained", "explained_json"],
}
GATE = [*GROUPS["sources"], *GROUPS["programs"], *GROUPS["compiled"]]
ALL = [name for names in GROUPS.values() for name in names]


def module_of(name: str) -> ModuleType:
    return importlib.import_module(f"checks.{name}")


def print_list() -> None:
    for group, names in GROUPS.items():
        print(group)
        for name in names:
            print(f"    {name:16} {(module_of(name).__doc__ or '').splitlines()[0]}")


def words_of(name: str, words: Sequence[str]) -> argparse.Namespace:
    """The options of one check, as it reads them."""
    module = module_of(name)
    reader = argparse.ArgumentParser(prog=f"tools/check {name}", description=module.__doc__, formatter_class=argparse.RawDescriptionHelpFormatter)
    if hasattr(module, "add_words"):
        module.add_words(reader)
    return reader.parse_args(words)


def try_one(name: str, given: argparse.Namespace, is_verbose: bool) -> Tally:
    """Runs one check. If it cannot continue, or tries nothing, that is one more failure."""
    tally = Tally(is_verbose)
    try:
        module_of(name).check(tally, given)
        if not tally.passed + tally.failed:
            tally.report(name, "it tried nothing")
    except Missing as missing:
        tally.report(name, str(missing))
    except Exception:  # whatever it is, the other checks are run and this one has failed
        tally.report(name, f"it ended before its last case\n{traceback.format_exc()}")
    return tally


def try_all(names: Sequence[str], given: Sequence[argparse.Namespace], is_verbose: bool) -> Tally:
    total = Tally()
    for name, words in zip(names, given):
        if len(names) > 1:
            print(f"tools/check: {name}", flush=True)
        began = time.monotonic()
        tally = try_one(name, words, is_verbose)
        if len(names) > 1:
            print(f"tools/check: {name} took {time.monotonic() - began:.0f} s")
        print(tally.line(), flush=True)
        total.passed += tally.passed
        total.failed += tally.failed
    if len(names) > 1:
        print(total.line())
    return total


def split(words: Sequence[str]) -> tuple[list[str], list[str]]:
    """The leading names of checks, and the words after them."""
    names: list[str] = []
    for at, word in enumerate(words):
        if word not in ALL and word not in GROUPS:
            return names, list(words[at:])
        names += GROUPS.get(word, [word])
    return names, []


def main(words: Sequence[str]) -> int:
    reader = argparse.ArgumentParser(prog="tools/check", description=__doc__, formatter_class=argparse.RawDescriptionHelpFormatter)
    reader.add_argument("--list", action="store_true")
    reader.add_argument("--verbose", action="store_true")
    reader.add_argument("words", nargs=argparse.REMAINDER, metavar="NAME [WORDS]")
    given = reader.parse_args(words)
    if given.list:
        print_list()
        return 0
    names, rest = split(given.words)
    if rest and len(names) != 1:
        reader.error(f"'{rest[0]}' names no check, and only one check can have options of its own: --list names all")
    names = names or GATE
    read = [words_of(name, rest) for name in names]
    resource.setrlimit(resource.RLIMIT_CORE, (0, 0))
    total = try_all(names, read, given.verbose)
    return 0 if total.passed and not total.failed else 1
