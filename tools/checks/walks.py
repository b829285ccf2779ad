"""Each traversal of the layers on terms whose trees double at each level, up to 250 times, and on terms 10,000 levels deep.

Each has a stack of 800 KB, and is compiled without proofs (tools/driver/layers). Its result is known. A traversal of the tree would not end,
so a run has 60 seconds. `benches/layers` prints times.
"""
from __future__ import annotations

import argparse

from .common import Limits, Tally, run
from .driver import driver

SHAPES = [("pairs", 20), ("pairs", 60), ("pairs", 250), ("slices", 10000), ("structs", 10000)]
# A type over a leaf is one level deeper than its leaf for each level.
WALKS = {
    "instantiated": "an instance {} deep",
    "resolved": "a type {} deep",
    "bound": "a value {} deep",
    "equated": "two types {} deep",
    "related": "1 constraint",
    "canonicalized": "a form with 1 variable",
    "reopened": "a goal with 1 unknown",
}


def check(tally: Tally, _: argparse.Namespace) -> None:
    for shape, levels in SHAPES:
        for walk, form in WALKS.items():
            expected = form.format(levels + 1)
            ended = run([driver(), "layers::layer", f"{shape}_{walk}", str(levels)], limits=Limits(seconds=60, stack=800 * 1024))
            found = ended.output.decode("latin-1").partition("\n")[0]
            fault = f"status {ended.status} and '{found}', 0 and '{expected}' are expected"
            tally.expect(f"{shape}_{walk} {levels}", (ended.status, found) == (0, expected), fault)
