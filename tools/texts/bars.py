"""Bars for the time of small texts: where a text becomes at most four times as large, the program takes at most six times as long."""
from __future__ import annotations

from dataclasses import dataclass
from typing import Optional

from . import makers
from .makers import Maker
from .runs import Limits, Run, run_program

TIMES = 6.0
# Less time than this says nothing: then the larger text may take six times this.
SHORTEST = 0.002
# A run is made again so often, where it is short, and the least is taken.
RUNS = 5
LONG = 0.5


@dataclass(frozen=True)
class Bar:
    """A maker with two sizes, at a depth."""

    name: str
    make: Maker
    small: int
    large: int
    depth: int


# Bars that the program is under.
STANDING = [
    Bar("queries about arrays", makers.arrays, 500, 2000, 8),
    Bar("queries down a chain", makers.chain, 500, 2000, 64),
    Bar("trees of pairs", makers.tree, 200, 800, 64),
    Bar("refutations", makers.refute, 500, 2000, 8),
    Bar("a square of impls", makers.matrix, 400, 1600, 8),
    Bar("new goals each time", makers.fresh, 40, 160, 8),
    Bar("an impl with many where-clauses", makers.wide_impls, 16, 64, 8),
    Bar("a clique that is deeper than the limit", makers.clique, 32, 64, 8),
    Bar("a clique of an auto trait", makers.auto_clique, 32, 64, 255),
    Bar("levels that lead back", makers.ladder_refused, 50, 200, 255),
    Bar("a chain of two steps", makers.two_steps, 50, 200, 255),
    Bar("a chain longer than the depth", makers.struct_chain, 100, 400, 32),
    Bar("ends with many where-clauses", makers.wide_ends, 4, 16, 8),
]

# Bars that it passes only once the search is mended: each goes up when it does.
WAITING = [
    Bar("supertraits of a dyn", makers.supertraits_of_dyn, 31, 127, 8),
    Bar("the last supertrait of a dyn", makers.leaf_of_dyn, 127, 511, 8),
    Bar("supertraits of a where-clause", makers.supertraits_of_clause, 511, 2047, 8),
    Bar("three supertraits for each of a where-clause", makers.supertraits_of_three, 364, 1093, 8),
    Bar("a clique with queries for all", makers.clique_asked, 6, 12, 8),
    Bar("a clique of an auto trait with queries for all", makers.auto_clique_asked, 6, 12, 8),
    Bar("five where-clauses each, with queries for all", makers.steps_asked, 25, 100, 64),
    Bar("an auto trait over a graph", makers.auto_graph, 96, 384, 64),
    Bar("an auto trait over a graph with cycles", makers.auto_graph_cyclic, 96, 384, 64),
    Bar("a dyn of a tower longer than the depth", makers.dyn_tower, 32, 64, 8),
    Bar("headers that are disjoint in fn", makers.apart_in_fn, 120, 480, 8),
    Bar("headers that are disjoint in dyn", makers.apart_in_dyn, 120, 480, 8),
    Bar("headers that are disjoint at the fifth level", makers.apart_deep, 120, 480, 8),
    Bar("headers with many parameters", makers.apart_of_sixteen, 60, 240, 8),
    Bar("crates that use one base", makers.siblings_of_growing, 30, 120, 8),
    Bar("impls for references", makers.references_alone, 500, 2000, 8),
]


def least_run(program: str, bar: Bar, size: int, limits: Limits) -> Run:
    text = ("\n".join(bar.make(size)) + "\n").encode("ascii")
    best = run_program(program, bar.depth, text, limits)
    for _ in range(RUNS - 1):
        if best.status != 0 or best.seconds > LONG:
            break
        best = min(best, run_program(program, bar.depth, text, limits), key=lambda it: it.seconds)
    return best


def fault_of(program: str, bar: Bar, limits: Limits) -> Optional[str]:
    """What is wrong at the bar, if something is: it is tried twice, since other work on the machine may come between."""
    for _ in range(2):
        small, large = (least_run(program, bar, size, limits) for size in (bar.small, bar.large))
        for size, run in ((bar.small, small), (bar.large, large)):
            if run.status != 0:
                return f"no answer at {size}: {run.stopped or 'status ' + str(run.status)}"
        if large.seconds <= TIMES * max(small.seconds, SHORTEST):
            return None
    return f"{small.seconds:.3f} s at {bar.small} and {large.seconds:.3f} s at {bar.large}, which is more than {TIMES:.0f} times as long"
