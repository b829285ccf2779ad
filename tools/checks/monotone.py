"""A greater depth never says less: the answers to each text at rising depths.

    tools/check monotone                          240 random texts, the families that cycle or grow, and the texts of texts/depths
    tools/check monotone --texts 20000            20,000 random texts
    tools/check monotone --first 417 --texts 1 --program FILE
    tools/check monotone --show 417               prints that text

A search that meets the depth limit, or that is given up, leaves a pair of impls as `overlap`, a query as `maybe` or `open`, supertraits as
`undecided`. At a greater depth the line may be another one. Any other line stays as it is at each greater depth, up to the line of a crate that
is refused at one of the two depths alone: then the later lines are about other impls.

A text of texts/depths has one answer by the rules, NAME.expected, at each of these depths: 16, 32, 64, 100, 128, 139, 200, 255.
"""
from __future__ import annotations

import argparse
import os
import random
import sys
from concurrent.futures import ThreadPoolExecutor
from typing import Iterator, NamedTuple, Optional, Sequence

from texts import families, kept

from .common import TOP, Ended, Limits, Tally, difference, program, run

FOLDER = TOP / "texts" / "depths"
DEPTHS = (3, 4, 5, 6, 8, 12, 16, 24, 32, 48, 64, 96, 100, 128, 139, 172, 200, 255)
RULED_DEPTHS = (16, 32, 64, 100, 128, 139, 200, 255)
# So many depths are tried of a random text.
SOME = 4
# A text with answers by the rules is answered within these. Of the others a run that takes longer than `SHORT` is skipped, and counted.
LIMITS = Limits(seconds=20, memory=512 * 1024 * 1024)
SHORT = LIMITS._replace(seconds=6)
# The first words of answers of a search that met the depth or was given up.
OPEN = ("overlap", "maybe", "open", "undecided")
# The families of these kinds are tried, at the smaller of their sizes.
FAMILIES = [*families.CYCLES, *families.AUTO_TRAITS, *families.DEEP]


class Line(NamedTuple):
    """A line of an answer: what it is about, and the answer."""

    of: str
    answer: str

    def is_open(self) -> bool:
        return self.answer.split(" ", 1)[0] in OPEN


class Case(NamedTuple):
    """A text, and the depths of its runs, each greater than the one before."""

    name: str
    text: bytes
    depths: Sequence[int]


def lines_of(ended: Ended) -> list[Line]:
    return [Line(of, answer) for of, found, answer in (it.partition(": ") for it in ended.output.decode("latin-1").splitlines()) if found]


def lost_answer(before: Sequence[Line], after: Sequence[Line]) -> Optional[str]:
    """The first line that says less at the greater depth."""
    for one, other in zip(before, after):
        if one == other:
            continue
        if one.of != other.of or not one.is_open():
            return f"'{one.of}: {one.answer}' became '{other.of}: {other.answer}'"
        if one.of.startswith("crate "):
            return None
    return f"the line of {before[len(after)].of} is gone" if len(after) < len(before) else None


def fault_of(case: Case, runs: Sequence[tuple[int, Ended]]) -> Optional[str]:
    """The first answer that is lost at a greater depth, for each two depths."""
    for at, (depth, ended) in enumerate(runs):
        for greater, other in runs[at + 1 :]:
            fault = lost_answer(lines_of(ended), lines_of(other))
            if fault:
                return f"from depth {depth} to {greater}: {fault}"
    return None


def runs_of(path: str, case: Case) -> list[tuple[int, Ended]]:
    """The runs that ended with an answer within the limits."""
    runs = ((depth, run([path, str(depth)], case.text, SHORT)) for depth in case.depths)
    return [(depth, ended) for depth, ended in runs if ended.status in (0, 1)]


def text_by_lot(number: int) -> Case:
    name, text, _ = kept.make_text("1", number)
    depths = sorted(random.Random(f"depths of {number}").sample(DEPTHS, SOME))
    return Case(f"text {number} by lot, {name}", text, depths)


def cases(first: int, texts: int) -> Iterator[Case]:
    for family in FAMILIES:
        yield Case(f"family {family.name}", families.text_of(family, family.sizes[0]), RULED_DEPTHS)
    for number in range(first, first + texts):
        yield text_by_lot(number)


def try_ruled(tally: Tally, path: str) -> None:
    """The texts whose answers the rules give."""
    for file in sorted(FOLDER.glob("*.txt")):
        expected = file.with_suffix(".expected").read_bytes()
        for depth in RULED_DEPTHS:
            ended = run([path, str(depth)], file.read_bytes(), LIMITS)
            tally.report(f"{file.stem} at depth {depth}", difference(ended.output, expected))


def add_words(reader: argparse.ArgumentParser) -> None:
    reader.add_argument("--texts", type=int, default=240)
    reader.add_argument("--first", type=int, default=1)
    reader.add_argument("--program", metavar="FILE")
    reader.add_argument("--show", type=int, metavar="NUMBER")


def check(tally: Tally, given: argparse.Namespace) -> None:
    if given.show is not None:
        sys.stdout.buffer.write(text_by_lot(given.show).text)
        return
    path = given.program or program("celtisdarts")
    try_ruled(tally, path)
    passed_over = 0
    with ThreadPoolExecutor(os.cpu_count()) as pool:
        tried = ((case, pool.submit(runs_of, path, case)) for case in cases(given.first, given.texts))
        for case, ended in list(tried):
            runs = ended.result()
            passed_over += len(case.depths) - len(runs)
            tally.report(case.name, fault_of(case, runs))
    print(f"monotone: {passed_over} runs had no answer within {SHORT.seconds} s and 512 MB")
