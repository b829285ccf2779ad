"""The texts of benches/answers: which makers, which depths, and a line for each."""
from __future__ import annotations

import hashlib
import random
from functools import partial
from typing import Callable, Union

from checks import makers

from . import by_lot
from .runs import Limits, Run, run_program

LIMITS = Limits(10, 256 * 1024 * 1024)
SOME_DEPTHS = [3, 4, 5, 6, 8, 12, 16, 24, 32, 48, 64, 96, 128, 172, 255]
Maker = Callable[[random.Random], Union[bytes, list[str]]]
# Made texts in place of the examples, whose number may change.
IN_PLACE = [makers.Crates(random.Random(f"in place of example {k}")).make(9, 6) for k in range(60)]
# Of a thousand texts so many are of this kind.
KINDS: list[tuple[str, int, Maker]] = [
    ("crates", 230, makers.crates_text),
    ("mutated", 80, partial(makers.mutated_text, others=IN_PLACE)),
    ("deep", 80, makers.deep_text),
    ("doubling", 100, makers.doubling_text),
    ("colliding", 20, makers.colliding_text),
    ("cyclic", 170, makers.cyclic_text),
    ("growing", 110, makers.growing_text),
    ("growing_premises", 120, by_lot.growing_premises_text),
    ("asked", 30, by_lot.asked_clique_text),
    ("stepping", 25, by_lot.stepping_text),
    ("wide_clauses", 30, by_lot.wide_clauses_text),
    ("multiplying", 5, by_lot.multiplying_text),
]
MAKERS = [(name, maker) for name, weight, maker in KINDS for _ in range(weight)]


def make_text(seed: str, number: int) -> tuple[str, bytes, int]:
    """The kind of a text, its bytes, and the depth of its run."""
    rng = random.Random(f"{seed}:{number}")
    name, maker = rng.choice(MAKERS)
    depth = rng.choice(SOME_DEPTHS) if rng.random() < 0.5 else rng.randint(3, 255)
    return name, makers.as_bytes(maker(rng)), depth


def sum_of(text: bytes) -> str:
    return hashlib.sha256(text).hexdigest()[:16]


def answer_of(run: Run) -> str:
    """The answer in one line, or why there is none."""
    if run.status in (0, 1):
        return " | ".join(run.output.decode("latin-1").rstrip("\n").split("\n"))
    return f"no answer: {'status ' + str(run.status) if run.status is not None else run.stopped}"


def line_to_store(program: str, seed: str, number: int) -> tuple[str, float, int]:
    """The line to store for a text, the seconds that it took, and its bytes."""
    _, text, depth = make_text(seed, number)
    run = run_program(program, depth, text, LIMITS)
    return f"{number} {sum_of(text)} {depth} {answer_of(run)}", run.seconds, len(text)
