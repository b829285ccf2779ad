"""The check of one crate by texts of its own: first by one without what clauses on associated types say, which few crates need."""
from __future__ import annotations

from typing import Optional

from ..model.world import World, crate_name
from ..read.terms import BadInput, Lossy
from ..report.items import Report
from ..write.texts import texts_of
from .cone import TooLarge, cone_of_crate, cone_of_impls
from .program import run
from .verdicts import Checked, check_verdicts

ACCEPTED = "accepted"


def check_crate(world: World, name: str, program: Optional[str] = None) -> tuple[list[Checked], list[str]]:
    """What is said of one crate, and its part of the report."""
    told = cone_of_impls(world, name)
    told.build()
    report = Report(told)
    try:
        # A clause that is dropped keeps nothing apart: what is accepted without it is so with it.
        found = by_text(world, name, False, report, program) or by_text(world, name, True, report, program)
    except (BadInput, Lossy) as error:
        found = [Checked(name, "not settled", f"{name}: not settled: {error}")]
    return found, report.of_crate(name)


def by_text(world: World, name: str, with_patterns: bool, report: Report, program: Optional[str]) -> list[Checked]:
    """The verdict by a text with or without clauses on associated types. Nothing if the one without them settles nothing."""
    crate = crate_name(name)
    try:
        translation = cone_of_crate(world, name, with_patterns)
    except TooLarge:
        if with_patterns:
            raise
        return []
    translation.build()
    answers = {"upper": run(texts_of(translation, ("upper",))["upper"], program)}
    if answers["upper"].crates[crate] == ACCEPTED:
        answers["lower"] = answers["upper"]
    elif with_patterns:
        answers["lower"] = run(texts_of(translation, ("lower",))["lower"], program)
    else:
        return []
    places = {mode: Report(translation).places(mode) for mode in ("upper", "lower")}
    return check_verdicts(report.summary(), [crate], answers, places)
