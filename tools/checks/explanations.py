"""Explanations written by hand: for texts/explained/NAME.txt, at depth 8, `--explain` has to print NAME.expected.

    tools/check explanations
    tools/check explanations --program FILE

The expected output was written by hand from the rules, before the program ran: the cause at the end of the chain, with its names, lines
and rule, and what to write instead. If the program says the same as well in other words, its words were taken. Twelve of the texts are
problems that Rust programmers meet, and were compared with the messages of rustc for the same crate.

WAITING has the texts that the program explains less well, with what is missing. Such a text fails once it is explained as expected: then
take it out.
"""
from __future__ import annotations

import argparse
from functools import partial

from .common import TOP, Tally, Wrong, difference, program, run

FOLDER = TOP / "texts/explained"
DEPTH = "8"
WAITING: dict[str, str] = {}


def hold(path: str, name: str) -> None:
    """A text is explained as expected, or waits for it."""
    text, expected = ((FOLDER / f"{name}.{kind}").read_bytes() for kind in ("txt", "expected"))
    found = run([path, DEPTH, "--explain", "--file", f"{name}.txt"], text).output
    if name not in WAITING:
        fault = difference(found, expected)
        if fault:
            raise Wrong(fault)
    elif found == expected:
        raise Wrong("it is explained as expected: take it out of WAITING")


def add_words(reader: argparse.ArgumentParser) -> None:
    reader.add_argument("--program")


def check(tally: Tally, given: argparse.Namespace) -> None:
    path = given.program or program("celtisdarts")
    names = {it.stem for it in FOLDER.iterdir()}
    for name in sorted(names):
        tally.hold(f"explanation {name}", partial(hold, path, name))
    tally.expect("all that wait are there", set(WAITING) <= names, f"{sorted(set(WAITING) - names)}")
