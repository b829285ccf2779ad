"""Which patterns follow from the where-clauses of a query.

A query's `I: Iterator` comes with a name for the value, `I: Iterator__Item<X1_>`. An impl that needs `I: Iterator__Item__Then<Wrap_<Pat1_>>`
finds no impl for a parameter. So the first query is whether the pattern holds of the value, `Pat1_: Apply_<X1_>`, by the query's clauses. If
it does, the clause is one more of the query. In the upper text it is one too if that is not settled.
"""
from __future__ import annotations

from dataclasses import dataclass, field
from typing import Iterator

from ..read.terms import Bound, Named, Type, Unknown, walk
from ..write.text_form import Text, TextLine, written, written_bound
from .reach import Reach, Reacher

MAXIMAL_CANDIDATES = 64


@dataclass
class Assumed:
    """The clauses that a query gets in each text. `is_open`: a pattern was met that is no goal of a query. `reach` is what
    was looked at for them."""
    clauses: dict[str, list[str]] = field(default_factory=lambda: {"upper": [], "lower": []})
    is_open: bool = False
    reach: Reach = field(default_factory=Reach)


@dataclass(frozen=True)
class Candidate:
    """A clause on a parameter of a query, and what is to be proved for it."""
    clause: str
    subject: Type
    bound: Bound

    def goal(self) -> str:
        return f"{written(self.subject)}: {written_bound(self.bound)}"


def with_clauses(prove: str, more: list[str]) -> str:
    if not more:
        return prove
    return f"{prove}{', ' if ' where ' in prove else ' where '}{', '.join(more)}"


def asked_goal(prove: str, line: TextLine, goal: str) -> str:
    """The query with another reference in its place, by the same clauses."""
    where = prove.partition(" where ")[2]
    params = "".join(f"{'const ' if p.kind == 'const' else ''}{p.name}, " for p in line.params)[:-2]
    return f"prove in {line.crate} " + (f"<{params}> " if params else "") + goal + (f" where {where}" if where else "")


class Assumer:
    """`thens` are the traits that ask patterns, each with its companion."""

    def __init__(self, text: Text, thens: dict[str, str]) -> None:
        self.text = text
        self.thens = thens

    def all_candidates(self, line: TextLine, reacher: Reacher, found: Assumed) -> list[Candidate]:
        """What the query leads to of patterns on its own parameters, and what these lead to."""
        assert line.trait is not None
        candidates: dict[str, Candidate] = {}
        todo: list[tuple[Type, Bound]] = [(line.self_type, line.trait)]
        while todo and len(candidates) < MAXIMAL_CANDIDATES:
            reach = reacher.reach(*todo.pop(), True)
            found.reach.join(reach)
            for candidate in self.candidates(line, reach, found):
                if candidate.clause not in candidates:
                    candidates[candidate.clause] = candidate
                    todo.append((candidate.subject, candidate.bound))
        found.is_open |= bool(todo)
        return list(candidates.values())

    def candidates(self, line: TextLine, reach: Reach, found: Assumed) -> list[Candidate]:
        values = list(self.values(line))
        candidates: list[Candidate] = []
        for trait, terms in sorted(reach.references, key=repr):
            if trait not in self.thens:
                continue
            pattern = next((t for t in reversed(terms) if isinstance(t, (Named, Unknown))), None)
            for companion, subject, arguments, value in values:
                if companion != self.thens[trait] or subject != terms[0]:
                    continue
                if not isinstance(pattern, Named) or pattern.key != "Wrap_" or self.has_unknowns(terms) or not self.is_seen(line.crate, terms):
                    found.is_open = True
                    continue
                others = tuple(t for t in terms[1:] if t is not pattern)
                clause = f"{written(subject)}: {written_bound(Bound(trait, terms[1:]))}"
                if others == arguments:
                    candidates.append(Candidate(clause, pattern.arguments[0], Bound("Apply_", (value,))))
        return candidates

    def values(self, line: TextLine) -> Iterator[tuple[str, Type, tuple[Type, ...], Type]]:
        """The companions among the query's clauses: subject, arguments, value."""
        for subject, bound in line.clauses:
            declared = self.text.names.get(bound.key)
            if bound.key in self.thens.values() and declared is not None and bound.arguments:
                place = sum(p.kind == "type" for p in declared.params) - 1
                yield bound.key, subject, bound.arguments[:place] + bound.arguments[place + 1:], bound.arguments[place]

    @staticmethod
    def has_unknowns(terms: tuple[Type, ...]) -> bool:
        return any(isinstance(part, Unknown) for term in terms for part in walk(term))

    def is_seen(self, crate: str, terms: tuple[Type, ...]) -> bool:
        """Whether the crate sees all that is named."""
        seen: set[str] = set()
        todo = [crate]
        while todo:
            name = todo.pop()
            if name not in seen:
                seen.add(name)
                todo += self.text.uses.get(name, [])
        names = {part.key for term in terms for part in walk(term) if isinstance(part, Named)}
        return all(self.text.names[n].crate in seen for n in names if n in self.text.names)
