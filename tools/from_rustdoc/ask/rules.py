"""The built-in rules of the text's `core`, as far as a query leads on by them: for what may matter (`cone`) and for what an answer rests on (`reach`).

A rule that Rust gets is a row here. What it asks of impls, fields and supertraits each of both finds for itself.
"""
from __future__ import annotations

from dataclasses import dataclass

from ..read.terms import Function, Type

# A trait of the text by its name, with the self type and the other arguments.
Reference_ = tuple[str, tuple[Type, ...]]


@dataclass(frozen=True)
class Rule:
    """`above` are the traits that are asked of the same type; `of_parts` says that the trait itself is asked of the parts of a type; `of_output`, that
    the output of a fn pointer has to be sized; `of_target`, that the type to which one is unsized counts too, and what is in both."""
    above: tuple[str, ...] = ()
    of_parts: bool = False
    of_output: bool = False
    of_target: bool = False


RULES = {
    "Sized": Rule(of_parts=True), "Clone": Rule(above=("Sized",), of_parts=True), "Copy": Rule(above=("Clone",), of_parts=True), "Unsize": Rule(of_target=True),
    "Fn": Rule(of_output=True), "FnMut": Rule(of_output=True), "FnOnce": Rule(of_output=True)}
BY_PARTS = tuple(name for name, rule in RULES.items() if rule.of_parts)
BY_TARGET = tuple(name for name, rule in RULES.items() if rule.of_target)
# Rules by which a variable may be found out.
FINDING_OUT = tuple(name for name, rule in RULES.items() if rule.of_output or rule.of_target)


def premises(reference: Reference_) -> list[Reference_]:
    """What the built-in rules ask for a reference, but for parts and targets."""
    trait, arguments = reference
    rule = RULES.get(trait, Rule())
    found: list[Reference_] = [(name, arguments[:1]) for name in rule.above]
    if rule.of_output and isinstance(arguments[0], Function):
        found.append(("Sized", (arguments[0].output,)))
    return found
