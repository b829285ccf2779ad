"""Measures a program on the two sizes of a family, and rustc if it is installed."""
from __future__ import annotations

import math
from collections import Counter
from dataclasses import dataclass, field
from typing import Optional

from .families import Family, text_of
from .runs import Limits, Run, run_program
from .rustc import Judged, judge, startup_of

# A run that takes longer is not made again.
LONG = 1.0


@dataclass(frozen=True)
class Figure:
    """What one text took, less what an empty one takes: `stopped` says why there is no answer."""

    size: int
    bytes: int
    depth: int
    seconds: float
    peak: Optional[int]
    stopped: str
    answer: str


@dataclass
class Row:
    """The figures of a family, and those of rustc by each solver."""

    family: Family
    figures: list[Figure] = field(default_factory=list)
    rustc: dict[str, list[Judged]] = field(default_factory=dict)


@dataclass(frozen=True)
class Measuring:
    """What is measured, and how."""

    program: str
    limits: Limits
    runs: int
    depth: Optional[int]
    rustc: Optional[str]
    rustc_limits: Limits


def answer_of(output: bytes) -> str:
    """What an answer says, each kind of line once with its number."""
    kinds = Counter(line.split(": ", 1)[-1].split(" ")[0] for line in output.decode("latin-1").splitlines())
    kinds.pop("accepted", None)
    return ", ".join(f"{count} {kind}" for kind, count in kinds.items()) or "accepted"


def best_of(program: str, depth: int, text: bytes, limits: Limits, runs: int) -> Run:
    """The run that took least; the peak is that of the first."""
    first = best = run_program(program, depth, text, limits, with_peak=True)
    for _ in range(runs - 1):
        if best.stopped or best.seconds > LONG:
            break
        best = min(best, run_program(program, depth, text, limits), key=lambda it: it.seconds)
    return Run(best.status, best.stopped, best.seconds, first.peak, best.output)


def stopped_of(run: Run) -> str:
    if run.stopped:
        return run.stopped
    return {0: "", 1: run.output.decode("latin-1").strip(), 3: "memory"}.get(run.status or 0, f"status {run.status}")


def figure_of(measuring: Measuring, startup: float, family: Family, size: int) -> Figure:
    text = text_of(family, size)
    depth = measuring.depth or family.depth_at(size)
    run = best_of(measuring.program, depth, text, measuring.limits, measuring.runs)
    seconds = max(run.seconds - startup, 0.0)
    stopped = stopped_of(run)
    if stopped == "time":
        seconds = float(measuring.limits.seconds)
    return Figure(size, len(text), depth, seconds, run.peak, stopped, "" if stopped else answer_of(run.output))


def judged_of(measuring: Measuring, rustc: str, solver: str, startup: float, family: Family, size: int) -> Optional[Judged]:
    """What rustc took, less its start-up for each crate."""
    if family.rust is None:
        return None
    depth = measuring.depth or family.depth_at(size)
    best: Optional[Judged] = None
    for _ in range(measuring.runs):
        found = judge(rustc, solver, family.make(size), family.rust, depth, measuring.rustc_limits)
        best = found if best is None or found.seconds < best.seconds else best
        if found.stopped or found.seconds > LONG:
            break
    assert best is not None
    seconds = best.seconds if best.stopped == "time" else max(best.seconds - startup * best.crates, 0.0)
    return Judged(seconds, best.peak, best.crates, best.accepted, best.stopped)


@dataclass(frozen=True)
class Startups:
    """What the program and rustc take for nothing."""

    program: float
    rustc: dict[str, float]


def startups_of(measuring: Measuring, solvers: list[str]) -> Startups:
    empty = min(run_program(measuring.program, 8, b"crate a\n", measuring.limits).seconds for _ in range(9))
    if measuring.rustc is None:
        return Startups(empty, {})
    return Startups(empty, {it: startup_of(measuring.rustc, it, measuring.rustc_limits) for it in solvers})


def measure(measuring: Measuring, startups: Startups, family: Family) -> Row:
    """Both sizes; what is not ended at the smaller one is not tried at the larger."""
    row = Row(family)
    for size in family.sizes:
        row.figures.append(figure_of(measuring, startups.program, family, size))
        if row.figures[-1].stopped:
            break
    for solver, startup in startups.rustc.items():
        found: list[Judged] = []
        for size in family.sizes if measuring.rustc else ():
            judged = judged_of(measuring, measuring.rustc or "", solver, startup, family, size)
            if judged is not None:
                found.append(judged)
            if judged is None or judged.stopped:
                break
        row.rustc[solver] = found
    return row


def exponent_of(row: Row) -> Optional[float]:
    """The power of the size by which the time grows, if both sizes were answered and took long enough."""
    if len(row.figures) < 2 or any(it.stopped for it in row.figures) or row.figures[0].seconds < 0.0005:
        return None
    small, large = row.figures
    return math.log(large.seconds / small.seconds) / math.log(large.size / small.size)
