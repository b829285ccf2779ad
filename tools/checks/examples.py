"""Each example on the built programs: examples/NAME/input.txt has to give expected.txt.

The depth limits are in the file `depth` (8 without it), the exit status in `status` (0 without it). If an example has a file
`explained`, the program has to give that with `--explain`, with the same exit status, and the same as JSON. Where it has a file
`colored`, that is what it gives with colours.
"""
from __future__ import annotations

import argparse
from functools import partial

from .common import Example, Tally, Wrong, difference, examples, program, run
from .explained_json import read_lines, text_of


def try_file(tally: Tally, example: Example, name: str, words: list[str], *options: str) -> None:
    """At each depth the program has to give the file of the example, with its exit status."""
    expected = example.file(name)
    if expected is None:
        return
    for depth in example.depths:
        ended = run([*words, depth, *options], example.text)
        status = f"status {ended.status}, {example.status} is expected" if ended.status != example.status else ""
        tally.report(f"example {example.name}, {name} at depth {depth}", status or difference(ended.output, expected))


def hold_json(example: Example, explaining: list[str]) -> None:
    """The explanation of the example as JSON has rustc's keys, and is that as text."""
    printed = run([*explaining, example.depths[0], "--json"], example.text).output
    fault = difference(text_of(read_lines(printed)).encode("ascii"), example.file("explained") or b"")
    if fault:
        raise Wrong(fault)


def check(tally: Tally, _: argparse.Namespace) -> None:
    answering = program("celtisdarts")
    explaining = [answering, "--explain"]
    for example in examples():
        try_file(tally, example, "expected.txt", [answering])
        try_file(tally, example, "explained", explaining)
        if example.file("explained") is not None:
            tally.hold(f"example {example.name} as JSON", partial(hold_json, example, explaining))
        try_file(tally, example, "colored", explaining, "--color", "always")
