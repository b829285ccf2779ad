"""The families of texts that benches/families measures, each at sizes n and 4n."""
from __future__ import annotations

from dataclasses import dataclass
from typing import Optional

from . import makers
from .as_rust import Form
from .makers import Maker

ARRAYS = Form(slices=False)
SLICES = Form()


@dataclass(frozen=True)
class Family:
    """A maker with its two sizes, the depth of its runs if that is not the size, and its form in Rust, if it has one."""

    name: str
    make: Maker
    sizes: tuple[int, int]
    depth: Optional[int] = 128
    rust: Optional[Form] = ARRAYS

    def what(self) -> str:
        return (self.make.__doc__ or "").split("\n\n")[0].replace("\n    ", " ").strip()

    def depth_at(self, size: int) -> int:
        """The depth: the size itself where none is named, as far as a depth may go."""
        return min(size, 255) if self.depth is None else self.depth


FIRST = [
    Family("arrays", makers.arrays, (1000, 4000)),
    Family("structs", makers.structs, (1000, 4000)),
    Family("nested", makers.nested, (1000, 4000)),
    Family("blanket", makers.blanket, (500, 2000)),
    Family("chain", makers.chain, (1000, 4000)),
    Family("tree", makers.tree, (1000, 4000)),
    Family("refute", makers.refute, (1000, 4000)),
    Family("spread", makers.spread, (1000, 4000)),
]

SUPERTRAITS = [
    Family("supertraits_of_dyn", makers.supertraits_of_dyn, (127, 511)),
    Family("leaf_of_dyn", makers.leaf_of_dyn, (511, 2047)),
    Family("supertraits_of_clause", makers.supertraits_of_clause, (2047, 8191)),
    Family("supertraits_of_three", makers.supertraits_of_three, (1093, 9841)),
    Family("supertraits_of_impl", makers.supertraits_of_impl, (2047, 8191)),
    Family("endless_supertraits", makers.endless_supertraits, (10, 40)),
    Family("plain_lattice", makers.plain_lattice, (8, 32)),
    Family("supers_of_chain", makers.supers_of_chain, (1000, 4000)),
    Family("supers_of_tower", makers.supers_of_tower, (500, 2000)),
    Family("supers_of_tall_tower", makers.supers_of_tall_tower, (2000, 8000)),
    Family("supers_in_core", makers.supers_in_core, (15000, 60000), rust=None),
]

CYCLES = [
    Family("clique", makers.clique, (16, 64), 8),
    Family("clique_deep", makers.clique, (16, 64), 64),
    Family("auto_clique", makers.auto_clique, (16, 64), 255),
    Family("clique_asked", makers.clique_asked, (4, 16), 8),
    Family("auto_clique_asked", makers.auto_clique_asked, (4, 16), 8),
    Family("clique_asked_deep", makers.clique_asked, (15, 60), 255),
    Family("steps_asked", makers.steps_asked, (62, 248), 64),
    Family("ring", makers.ring, (50, 200), 255),
    Family("by_lot", makers.by_lot, (50, 200), 255),
    Family("ladder", makers.ladder, (50, 200), 255),
    Family("ladder_refused", makers.ladder_refused, (50, 200)),
    Family("wide_ends", makers.wide_ends, (4, 16), 8),
]

AUTO_TRAITS = [
    Family("auto_graph", makers.auto_graph, (125, 500)),
    Family("auto_graph_cyclic", makers.auto_graph_cyclic, (125, 500)),
    Family("auto_graph_upward", makers.auto_graph_upward, (125, 500)),
]

DEEP = [
    Family("struct_chain", makers.struct_chain, (1000, 4000), 255),
    Family("struct_chain_of_crates", makers.struct_chain_of_crates, (3000, 12000), 255),
    Family("dyn_tower_within", makers.dyn_tower, (60, 240), 255),
    Family("dyn_tower_64", makers.dyn_tower, (68, 272), 64),
    Family("dyn_tower_255", makers.dyn_tower, (270, 1080), 255),
    Family("unsizing_chain", makers.unsizing_chain, (400, 1600), 255, SLICES),
    Family("two_steps", makers.two_steps, (35, 140), 255),
    Family("where_chain", makers.where_chain, (50, 200), 255),
    Family("open_where_chain", makers.open_where_chain, (50, 200), 255),
    Family("pairs_of_references", makers.pairs_of_references, (60, 240), 255),
    Family("doubled", makers.doubled, (60, 240), None),
    Family("one_larger", makers.one_larger, (63, 252), None),
    Family("two_larger", makers.two_larger, (63, 252), None),
    Family("three_larger", makers.three_larger, (63, 252), None),
    Family("two_arguments", makers.two_arguments, (63, 252), None),
    Family("there_and_back", makers.there_and_back, (63, 252), None),
    Family("three_fields", makers.three_fields, (63, 252), None),
    Family("growing_with_lifetimes", makers.growing_with_lifetimes, (63, 252), None),
    Family("growing_in_width", makers.growing_in_width, (63, 252), None),
    Family("growing_under_binders", makers.growing_under_binders, (63, 252), None),
    Family("growing_beside_clauses", makers.growing_beside_clauses, (16, 64), 255),
    Family("growing_beside_impls", makers.growing_beside_impls, (30, 120), 255),
]

PAIRS = [
    Family("apart_in_fn", makers.apart_in_fn, (500, 2000)),
    Family("apart_in_fn_over_crates", makers.apart_in_fn_over_crates, (6500, 26000)),
    Family("apart_in_dyn", makers.apart_in_dyn, (500, 2000)),
    Family("apart_deep", makers.apart_deep, (500, 2000)),
    Family("apart_of_sixteen", makers.apart_of_sixteen, (250, 1000)),
    Family("cleared_by_clause", makers.cleared_by_clause, (125, 500)),
    Family("cleared_over_parameter", makers.cleared_over_parameter, (60, 240)),
    Family("references_alone", makers.references_alone, (2000, 8000)),
    Family("references_of_many", makers.references_of_many, (6250, 25000)),
]

CRATES = [
    Family("siblings", makers.siblings, (60, 240)),
    Family("siblings_of_large", makers.siblings_of_large, (60, 240)),
    Family("users_in_chain", makers.users_in_chain, (60, 240)),
    Family("crates_of_many", makers.crates_of_many, (4, 16)),
    Family("crate_chain", makers.crate_chain, (60, 240)),
    Family("crate_chain_of_impls", makers.crate_chain_of_impls, (60, 240)),
    Family("uses_written", makers.uses_written, (60, 240)),
    Family("refute_over_crates", makers.refute_over_crates, (60, 240)),
    Family("later_impls", makers.later_impls, (1000, 4000), rust=None),
    Family("sections", makers.sections, (1000, 4000), rust=None),
]

QUESTIONS = [
    Family("arrays_alone", makers.arrays_alone, (1000, 4000)),
    Family("structs_asked", makers.structs_asked, (1000, 4000)),
    Family("asked_again", makers.asked_again, (16250, 65000)),
    Family("questions", makers.questions, (16375, 65500)),
    Family("references", makers.references, (500, 2000)),
    Family("with_parameter", makers.with_parameter, (500, 2000)),
    Family("two_heads", makers.two_heads, (1000, 4000)),
    Family("heads", makers.heads, (1000, 4000)),
    Family("matrix", makers.matrix, (400, 1600)),
    Family("conversions", makers.conversions, (500, 2000)),
    Family("constants", makers.constants, (1000, 4000)),
    Family("unknowns", makers.unknowns, (4, 16)),
    Family("environment", makers.environment, (16, 64)),
    Family("wide_impls", makers.wide_impls, (16, 64)),
    Family("fresh", makers.fresh, (1200, 4800)),
    Family("plain_structs", makers.plain_structs, (5500, 22000)),
    Family("empty_lines", makers.empty_lines, (262000, 1048000), rust=None),
]

FAMILIES = FIRST + SUPERTRAITS + CYCLES + AUTO_TRAITS + DEEP + PAIRS + CRATES + QUESTIONS


def text_of(family: Family, size: int) -> bytes:
    return ("\n".join(family.make(size)) + "\n").encode("ascii")


def named(names: list[str]) -> list[Family]:
    """The families of these names, or all."""
    found = [it for it in FAMILIES if not names or it.name in names]
    missing = sorted(set(names) - {it.name for it in found})
    if missing:
        raise KeyError(", ".join(missing))
    return found
