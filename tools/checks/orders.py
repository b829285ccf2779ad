"""Queries in other orders and at other depths, and with them sections and `supers` lines.

One session answers all queries of a crate, and results that it stored for one never change the answer to another.
"""
from __future__ import annotations

import argparse
from itertools import permutations
from typing import NamedTuple, Sequence

from .common import Tally, difference, program, run

LEVELS = """crate base
trait Show
struct V<T>
impl<T> Show for V<T> where T: Show
impl Show for u8
"""
V7, V9 = "V<V<V<V<V<V<V<u8>>>>>>>", "V<V<V<V<V<V<V<V<V<u8>>>>>>>>>"


class Query(NamedTuple):
    """The lines of a query, or of a section with its impls, and the answer."""

    lines: str
    answer: str


class Orders:
    """A text, and the queries after it."""

    def __init__(self, tally: Tally, name: str, declared: str, *queries: tuple[str, str]) -> None:
        self.tally, self.name, self.declared = tally, name, declared
        self.queries = [Query(*it) for it in queries]

    def expected(self, queries: Sequence[Query]) -> str:
        """The output: first the lines of the crate, of sections and of supertraits, then those of queries by their numbers."""
        checked, answered = ["crate base: accepted"], list[str]()
        for it in queries:
            word = it.lines.partition(" ")[0]
            if word in ("later", "supers"):
                checked.append(f"{word} base: {it.answer}")
            else:
                answered.append(f"{word} {len(answered) + 1}: {it.answer}")
        return "".join(f"{it}\n" for it in checked + answered)

    def ask(self, depth: int, *numbers: int) -> None:
        """Runs the queries with these numbers, from 1."""
        queries = [self.queries[it - 1] for it in numbers]
        text = self.declared + "".join(f"{it.lines}\n" for it in queries)
        ended = run([program("celtisdarts"), str(depth)], text.encode())
        fault = f"status {ended.status}" if ended.status else difference(ended.output, self.expected(queries).encode())
        self.tally.report(f"{self.name} at depth {depth}, order {' '.join(map(str, numbers))}", fault)

    def ask_all(self, depth: int, count: int) -> None:
        """Runs the first of them in each order."""
        for order in permutations(range(1, count + 1)):
            self.ask(depth, *order)


def try_levels(tally: Tally) -> None:
    """Types of few and of more levels than the depth has."""
    levels = Orders(tally, "types of many levels", LEVELS, ("prove in base u8: Show", "yes"), ("prove in base V<u8>: Show", "yes"),
                    (f"prove in base {V7}: Show", "yes"), (f"prove in base {V9}: Show", "maybe"))
    levels.ask_all(8, 4)
    levels.ask(8, 1, 2, 3, 4, 4, 3, 2, 1)


def try_pairs(tally: Tally) -> None:
    """Pairs of which one is too deep: the overflow under the first leaves the second a depth of 2, and one in the third query is refused at
    depth 7, whatever was queried before."""
    declared = f"{LEVELS}struct P<A, B>\nimpl<A, B> Show for P<A, B> where A: Show, B: Show\n"
    deep = "V<V<V<V<bool>>>>"
    pairs = Orders(tally, "pairs of which one is too deep", declared, (f"prove in base P<{V9}, bool>: Show", "unproved"),
                   (f"prove in base P<{V9}, {deep}>: Show", "maybe"), (f"prove in base P<V<u8>, {deep}>: Show", "unproved"))
    pairs.ask_all(8, 3)


def try_cycles(tally: Tally) -> None:
    """A cycle needs as many levels as it has goals. One next to a field that is refused is queried from either goal of the cycle."""
    declared = "crate base\nauto trait Safe\nstruct P<T>(T)\nstruct L(P<L>)\n"
    for depth, answer in ((1, "maybe"), (2, "yes"), (8, "yes"), (255, "yes")):
        Orders(tally, "an auto trait of a cycle", declared, ("prove in base L: Safe", answer)).ask(depth, 1)
    declared = "crate base\ntrait Nope\nauto trait Safe\nstruct Bad\nimpl Safe for Bad where Bad: Nope\nstruct B<T>(T)\nstruct A(B<A>, Bad)\n"
    refused = Orders(tally, "a cycle next to a field that is refused", declared, ("prove in base A: Safe", "unproved"), ("prove in base B<A>: Safe", "unproved"))
    refused.ask_all(8, 2)
    refused.ask(255, 1, 2, 1)


def try_impls(tally: Tally) -> None:
    """Impls that need each other, and one that needs a larger type."""
    declared = "crate base\ntrait Left\ntrait Right\nimpl Left for u8 where u8: Right\nimpl Right for u8 where u8: Left\n"
    Orders(tally, "two impls that need each other", declared, ("prove in base u8: Left", "maybe"), ("prove in base u8: Right", "maybe")).ask_all(8, 2)
    declared = "crate base\ntrait Show\nstruct V<T>\nimpl<T> Show for V<T> where V<V<T>>: Show\n"
    larger = Orders(tally, "an impl that needs a larger type", declared, ("prove in base V<u8>: Show", "maybe"), ("refute in base V<u8>: Show", "open"))
    for depth in (8, 255):
        larger.ask_all(depth, 2)


def supertraits(tally: Tally, name: str, nine: str, seven: str, supers: str) -> Orders:
    """Supertraits of headers, two sections and queries, with the answers for the types of nine and of seven levels, and for the headers."""
    declared = f"{LEVELS}trait Sub: Show\nimpl Sub for {V7}\nimpl Sub for {V9}\n"
    added = "later base\nimpl Sub for bool\nimpl<T> Show for &V<&T>\nimpl<T> Show for &T"
    return Orders(tally, name, declared, (f"prove in base {V9}: Show", nine), ("supers in base", supers),
                  ("later base\nimpl Show for bool\nimpl<T> Sub for V<T>", "compatible"), (added, "breaking impl 3"),
                  (f"prove in base {V7}: Show", seven), ("refute in base V<bool>: Sub", "no"))


def try_supertraits(tally: Tally) -> None:
    usual = supertraits(tally, "supertraits, sections and queries", "maybe", "yes", "undecided impl 4 clause 1")
    usual.ask_all(8, 4)
    usual.ask(8, 5, 2, 1, 3, 6, 4, 4, 6, 3, 1, 2, 5)
    for depth, answers in ((3, ("maybe", "maybe", "undecided impl 3 clause 1")), (20, ("yes", "yes", "held"))):
        other = supertraits(tally, "supertraits at another depth", *answers)
        other.ask(depth, 1, 2, 5, 2)
        other.ask(depth, 2, 5, 1)


def check(tally: Tally, _: argparse.Namespace) -> None:
    for part in (try_levels, try_pairs, try_cycles, try_impls, try_supertraits):
        part(tally)
