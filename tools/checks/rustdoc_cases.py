"""from-rustdoc on stored crates. With --real also on crates of Debian, compared with rustc, if these and cargo are installed."""
from __future__ import annotations

import argparse
import sys
import unittest
from functools import partial
from typing import Any

from .common import TOP, Tally

TOOLS = TOP / "tools"


class Result(unittest.TextTestResult):
    """Counts each test in the tally."""

    def __init__(self, tally: Tally, *words: Any, **more: Any) -> None:
        super().__init__(*words, **more)
        self.tally = tally

    def addSuccess(self, test: unittest.TestCase) -> None:
        super().addSuccess(test)
        self.tally.report(test.id(), None)


def check(tally: Tally, given: argparse.Namespace) -> None:
    run_tests(tally, "from_rustdoc", "*_crates.py" if given.real else "test_*.py")


def run_tests(tally: Tally, package: str, pattern: str) -> None:
    """Runs the tests of a package of tools/ in the files that the pattern names."""
    # (types of real crates are deep)
    sys.setrecursionlimit(20000)
    suite = unittest.defaultTestLoader.discover(str(TOOLS / package / "tests"), pattern, str(TOOLS))
    result = unittest.TextTestRunner(stream=sys.stderr, verbosity=0, resultclass=partial(Result, tally)).run(suite)
    for case, why in result.skipped:
        print(f"skipped {case.id().rpartition('.')[2]}: {why}")
    for case, why in [*result.failures, *result.errors]:
        tally.report(case.id(), why)


def add_words(reader: argparse.ArgumentParser) -> None:
    reader.add_argument("--real", action="store_true")
