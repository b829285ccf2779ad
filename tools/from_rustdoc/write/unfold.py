"""Clauses of a written text by patterns, read back as clauses on projections: what `project` wrote, by what the text says alone."""
from __future__ import annotations

from dataclasses import dataclass
from typing import Optional

from ..read.terms import Bound, Form, Lossy, Named, Parameter, Part, Projection, Type, parameters_of, put, put_bound
from .text_form import Text, TextLine

APPLY_LINE, WRAP_LINE = "fundamental trait Apply_<V>", "struct Wrap_<K>"


@dataclass(frozen=True)
class Unfolded:
    """A clause that is said. Where `bound` is None it says that `subject`, a projection, has the form."""
    subject: Type
    bound: Optional[Bound]
    form: Optional[Form] = None


class Unfolder:
    """`thens` are the traits that ask patterns, each with the trait and the associated type that it is of."""

    def __init__(self, text: Text, thens: dict[str, tuple[str, str]]) -> None:
        self.thens = thens
        self.problems: list[str] = []
        self.meanings: dict[str, TextLine] = {}
        for line in text.lines:
            if line.kind != "impl" or line.trait is None or line.trait.key != "Apply_":
                continue
            if not isinstance(line.self_type, Named) or line.self_type.key in self.meanings or len(line.clauses) > 1:
                self.problems.append(f"line {line.number}: a pattern with two meanings")
            else:
                self.meanings[line.self_type.key] = line
        special = {line.name: line.text for line in text.lines if line.name in ("Apply_", "Wrap_")}
        if special != {"Apply_": APPLY_LINE, "Wrap_": WRAP_LINE}:
            self.problems.append("`Apply_` and `Wrap_` are not what they are to be")

    def place(self, subject: Type, bound: Bound) -> tuple[Projection, Type]:
        """The projection that a clause by such a trait speaks of, and the pattern."""
        trait, name = self.thens[bound.key]
        wrapped = [a for a in bound.arguments if isinstance(a, Named) and a.key == "Wrap_"]
        if not wrapped:
            raise Lossy(f"`{bound.key}` without a pattern")
        others = tuple(a for a in bound.arguments if a is not wrapped[-1])
        return Projection(subject, Bound(trait, others), name), wrapped[-1].arguments[0]

    def unfold(self, subject: Type, bound: Bound) -> Unfolded:
        while bound.key in self.thens:
            place, pattern = self.place(subject, bound)
            if isinstance(pattern, Parameter):
                return Unfolded(pattern, Bound("Apply_", (place,)))
            line = self.meanings.get(pattern.key) if isinstance(pattern, Named) else None
            if line is None or line.trait is None or not isinstance(line.self_type, Named) or not isinstance(pattern, Named):
                raise Lossy("a pattern without a meaning")
            values = {p.name if isinstance(p, Parameter) else "": a for p, a in zip(line.self_type.arguments, pattern.arguments)}
            value = line.trait.arguments[0]
            free = parameters_of(value) - set(values)
            form = Form(put(value, values), tuple(sorted(free)))
            if not line.clauses:
                return Unfolded(place, None, form)
            if isinstance(value, Parameter):
                values[value.name] = place
            else:
                values.update((name, Part(place, form, name)) for name in free)
            subject, bound = put(line.clauses[0][0], values), put_bound(line.clauses[0][1], values)
        return Unfolded(subject, bound)
