"""The tests of the layers, compiled without proofs (tools/driver/terms and tools/driver/solver): each in a run of its own.

A test has five minutes of the processor. A test in the sources that the program does not list has not run, and fails.
"""
from __future__ import annotations

import argparse
import re

from .common import TOP, Limits, Tally, run
from .driver import SOURCES, driver, tests

TEST = re.compile(r"^ *#\[test\]\n(?: *#.*\n)*(?:pub(?:\(crate\))? )?fn (\w+)", re.M)
FOLDERS = ("terms", "solver")


def written() -> list[str]:
    """The tests of the sources, by the names that the program lists."""
    found = []
    for file in sorted(it for folder in FOLDERS for it in (SOURCES / folder).rglob("*.rt.txt")):
        module = "::".join(str(file.relative_to(SOURCES)).removesuffix(".rt.txt").split("/"))
        found += [f"{module}::{name}" for name in TEST.findall(file.read_text(encoding="utf-8"))]
    return found


def check(tally: Tally, _: argparse.Namespace) -> None:
    listed = tests()
    for name in sorted({*written(), *listed}):
        if name not in listed:
            tally.report(name, f"it is in {SOURCES.relative_to(TOP)}, and the program does not list it")
            continue
        ended = run([driver(), name], limits=Limits(seconds=300))
        is_well = ended.status == 0 and ended.last_line() == "test result: ok"
        tally.expect(name, is_well, f"it ends with status {ended.status}: {ended.errors.decode()[-2000:]}")
    print(f"tests: {len(listed)}")
