"""The survey of a registry on stored crates. With --real also on projects of Debian's crates, compared with rustc, if these and cargo are installed."""
from __future__ import annotations

import argparse

from .common import Tally
from .rustdoc_cases import add_words, run_tests

__all__ = ["add_words", "check"]


def check(tally: Tally, given: argparse.Namespace) -> None:
    run_tests(tally, "survey", "real_*.py" if given.real else "test_*.py")
