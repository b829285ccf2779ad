"""The words of benches/answers."""
from __future__ import annotations

import argparse
import functools
import multiprocessing
import os
import sys
from collections import Counter
from dataclasses import dataclass
from typing import Optional

from .kept import line_to_store, make_text
from .runs import program_here


@dataclass(frozen=True)
class Stored:
    """A line of a file: the text's sum, the depth and the answer."""

    sum: str
    depth: int
    answer: str


def keep(program: str, out: str, seed: str, first: int, texts: int, jobs: int) -> int:
    """Writes the file, and prints which texts took longest."""
    slowest: list[tuple[float, int, int]] = []
    with multiprocessing.Pool(jobs) as pool, open(out, "w", encoding="latin-1") as file:
        work = functools.partial(line_to_store, program, seed)
        for number, (line, seconds, size) in enumerate(pool.imap(work, range(first, first + texts), 20), first):
            file.write(line + "\n")
            slowest = sorted(slowest + [(seconds, number, size)], reverse=True)[:12]
            if (number - first + 1) % 1000 == 0:
                print(f"benches/answers: {number - first + 1} texts", file=sys.stderr, flush=True)
    for seconds, number, size in slowest:
        print(f"text {number}: {seconds:.2f} s for {size} bytes, {make_text(seed, number)[0]}, depth {make_text(seed, number)[2]}")
    print(f"{texts} answers are stored")
    return 0


def read_stored(path: str) -> dict[int, Stored]:
    with open(path, encoding="latin-1") as file:
        rows = [line.rstrip("\n").split(" ", 3) for line in file]
    return {int(row[0]): Stored(row[1], int(row[2]), row[3]) for row in rows}


def kind_of(line: str) -> str:
    """What a line of an answer says, without what it says it of."""
    answer = line.split(": ", 1)[-1]
    return "no answer" if line.startswith("no answer") else answer.split(" ", 1)[0]


def differing(one: str, other: str) -> list[tuple[str, str]]:
    """The lines of two answers that differ, side by side."""
    lines, others = one.split(" | "), other.split(" | ")
    if len(lines) != len(others):
        return [(one, other)]
    return [(a, b) for a, b in zip(lines, others) if a != b]


def change_of(pair: tuple[str, str]) -> str:
    """What became what, of two lines."""
    return " -> ".join(kind_of(it) for it in pair)


def compare(paths: list[str], seed: str) -> int:
    """Prints each difference, and how many there are of a kind. Fails where there is one, or nothing to compare."""
    one, other = (read_stored(it) for it in paths)
    both = [it for it in sorted(one) if it in other and one[it].sum == other[it].sum and one[it].depth == other[it].depth]
    changes: Counter[str] = Counter()
    differ = 0
    for number in both:
        if one[number].answer == other[number].answer:
            continue
        differ += 1
        pairs = differing(one[number].answer, other[number].answer)
        changes.update(sorted({change_of(it) for it in pairs}))
        print(f"text {number}, {make_text(seed, number)[0]}, depth {one[number].depth}: benches/answers --show {number}")
        for before, after in pairs:
            print(f"    {before}\n    {after}")
    for change, count in changes.most_common():
        print(f"{count} texts with {change}")
    unmatched = len(set(one) | set(other)) - len(both)
    print(f"{len(both)} texts compared, {differ} differ" + (f", {unmatched} are in one file alone or have another sum" if unmatched else ""))
    return 0 if both and not differ and not unmatched else 1


def show(seed: str, number: int) -> int:
    name, text, depth = make_text(seed, number)
    sys.stdout.buffer.write(text)
    print(f"benches/answers: text {number}, of the kind {name}, at depth {depth}", file=sys.stderr)
    return 0


def main(about: Optional[str], words: list[str]) -> int:
    reader = argparse.ArgumentParser(description=about, formatter_class=argparse.RawDescriptionHelpFormatter)
    reader.add_argument("--program", default=program_here(), metavar="FILE")
    reader.add_argument("--out", metavar="FILE")
    reader.add_argument("--compare", nargs=2, metavar="FILE")
    reader.add_argument("--show", type=int, metavar="NUMBER")
    reader.add_argument("--texts", type=int, default=20000)
    reader.add_argument("--first", type=int, default=1)
    reader.add_argument("--seed", default="1")
    reader.add_argument("--jobs", type=int, default=2)
    given = reader.parse_args(words)
    if given.show is not None:
        return show(given.seed, given.show)
    if given.compare:
        return compare(given.compare, given.seed)
    if not given.out:
        reader.error("one of --out, --compare and --show is needed")
    if not os.access(given.program, os.X_OK):
        reader.error(f"there is no program {given.program}")
    return keep(given.program, given.out, given.seed, given.first, given.texts, given.jobs)
