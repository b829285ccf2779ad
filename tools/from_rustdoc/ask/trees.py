"""Reasons as data: why a goal does not hold, or by what it does, as a tree of goals in Rust's names."""
from __future__ import annotations

from dataclasses import dataclass
from typing import Any, Optional

from ..model.show import Show
from ..read.headers import NotUnderstood
from ..read.terms import BadInput, Lossy, Place
from .questions import Verdict
from .reasons import Explainer, Goal

ABOVE = "shown above"


@dataclass(frozen=True)
class Reason:
    """A goal, as `Vec<Rc<u8>>: Send`, and what it rests on, in `needs`.

    `rule` is `impl`, with the header of it in `impl`; `fields`, with the field that fails in `field`; `value`, of a goal that is asked of the value of
    the associated type in `field`; `negative impl`, with its header; `shown above`, where the same goal stands earlier in the tree; `cycle`, of
    a goal that needs itself; `unproved`, where nothing proves it; or what the program says of a step. `place` is that of the impl or the type.
    Of a goal that does not hold `needs` is the one that fails, of one that holds they are all.
    """
    goal: str
    holds: bool
    rule: str
    impl: str = ""
    field: str = ""
    place: Optional[Place] = None
    needs: tuple[Reason, ...] = ()


def reason_of(verdict: Verdict, program: Optional[str] = None) -> Optional[Reason]:
    """The reason of an answer. None if there is no program that explains, and where what it says cannot be read back."""
    if verdict.asked is None or not verdict.is_explained:
        return None
    try:
        explainer = Explainer(verdict.asked, "lower" if verdict.word == "yes" else "upper", program)
        return proof_of(explainer) if verdict.word == "yes" else refusal_of(explainer)
    except (BadInput, Lossy, NotUnderstood):
        return None


# ---- of a goal that holds
def proof_of(explainer: Explainer) -> Optional[Reason]:
    roots = [tree for message in explainer.said([explainer.prove]) for row in message.get("proof", []) for tree in trees(explainer, row)]
    return roots[0] if roots else None


def trees(explainer: Explainer, row: dict[str, Any]) -> list[Reason]:
    """A step and what it rests on. What the text alone has is left out, and what it rests on is in its place."""
    if row["rule"] == ABOVE:
        try:
            return [Reason(explainer.shown(explainer.goal(row["goal"])), True, ABOVE)]
        except NotUnderstood:
            return []
    needs = tuple(tree for premise in row["premises"] for tree in trees(explainer, premise))
    step = explainer.row(row, 0)
    if step is None:
        return list(needs)
    return [Reason(step.goal, True, "impl" if step.impl else step.how, step.impl, "", step.place, needs)]


# ---- of a goal that does not
def refusal_of(explainer: Explainer) -> Optional[Reason]:
    told = explainer.refusal()
    goals, is_negative = explainer.chain(told) if told is not None else ([], False)
    if not goals or told is None:
        return None
    impl = explainer.impl_of(goals[0]) if is_negative else None
    header = Show(explainer.world).header(impl) if impl is not None and impl.is_negative else ""
    found = Reason(explainer.shown(goals[0]), False, "negative impl" if header else "cycle" if told.is_cycle else "unproved", header,
                   place=impl.place if impl is not None else None)
    for inner, goal in zip(goals, goals[1:]):
        if goal.bound.key not in explainer.companions:
            found = around(explainer, goal, inner, found)
    return found


def around(explainer: Explainer, goal: Goal, inner: Goal, found: Reason) -> Reason:
    """The goal for which the inner one is needed."""
    shown, impl = explainer.shown(goal), explainer.impl_of(goal)
    declaration = explainer.declaration(explainer.rust(goal.subject))
    if goal.bound.key in explainer.thens:
        return Reason(shown, False, "value", field=explainer.value(goal), needs=(found,))
    if declaration is not None and explainer.is_by_fields(goal):
        return Reason(shown, False, "fields", field=explainer.field_of(goal, inner)[0], place=declaration.place, needs=(found,))
    if impl is not None and impl.trait is not None:
        return Reason(shown, False, "impl", explainer.show.header(impl), place=impl.place, needs=(found,))
    return Reason(shown, False, "built-in rule", needs=(found,))
