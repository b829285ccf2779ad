"""What an answer rests on: the references that a query leads to by the rules of a text, and the lines that conclude them.

More may be found than there is, never less: a variable matches everything. So a query that is bounded here is bounded in the
program's definitions, and an answer that rests on a loss is named as such.
"""
from __future__ import annotations

from dataclasses import dataclass, field
from typing import Optional

from ..read.terms import Array, Bound, Constant, Dyn, Named, Parameter, Slice, Tuple, Type, Unknown, parts, put, put_bound, walk
from ..write.build import Piece
from ..write.text_form import Text, TextLine
from .rules import BY_PARTS, BY_TARGET, Reference_, premises

MAXIMAL_REFERENCES = 3000


@dataclass
class Reach:
    """`pieces` are the lines that may conclude what is reached, `structs` those whose fields are asked, `types` all that is named;
    `longest` is the longest chain, None if there is one without end."""
    pieces: list[Piece] = field(default_factory=list)
    structs: set[str] = field(default_factory=set)
    traits: set[str] = field(default_factory=set)
    types: set[str] = field(default_factory=set)
    references: set[Reference_] = field(default_factory=set)
    is_complete: bool = True
    longest: Optional[int] = None

    def join(self, other: Reach) -> None:
        """With what another query leads to."""
        self.pieces += other.pieces
        self.structs |= other.structs
        self.traits |= other.traits
        self.types |= other.types
        self.references |= other.references


def bind(pattern: Type, term: Type, params: set[str], values: dict[str, Type]) -> bool:
    """Whether the term may be an instance of the pattern; a variable in it may be anything."""
    if isinstance(pattern, Parameter) and pattern.name in params:
        known = values.get(pattern.name)
        if known is None or isinstance(known, Unknown):
            values[pattern.name] = term
            return True
        return bind(known, term, set(), {})
    if isinstance(term, Unknown) or isinstance(pattern, Unknown):
        for part in walk(pattern):
            if isinstance(part, Parameter) and part.name in params:
                values.setdefault(part.name, Unknown("_"))
        return True
    if type(pattern) is not type(term):
        return False
    if isinstance(pattern, Array) and isinstance(term, Array):
        if pattern.length in params:
            values.setdefault(pattern.length, Constant(term.length))
        elif pattern.length != term.length and not term.length.startswith("?"):
            return False
        return bind(pattern.element, term.element, params, values)
    if isinstance(pattern, Dyn) and isinstance(term, Dyn) and [b.key for b in pattern.bounds] != [b.key for b in term.bounds]:
        return False
    if isinstance(pattern, Named) and isinstance(term, Named) and pattern.key != term.key:
        return False
    left, right = parts(pattern), parts(term)
    if not left:
        return pattern == term
    return len(left) == len(right) and all(bind(l, r, params, values) for l, r in zip(left, right))


class Reacher:
    """`free` are variables of a query that stay unknown: a goal about one is undecided, whatever impls there are."""

    def __init__(self, text: Text, pieces: list[Piece], free: frozenset[str] = frozenset()) -> None:
        self.text = text
        self.free = free
        self.impls: dict[str, list[tuple[TextLine, Piece]]] = {}
        items = [line for line in text.lines if line.kind != "question"]
        for line, piece in zip(items, pieces):
            if line.kind == "impl" and line.trait:
                self.impls.setdefault(line.trait.key, []).append((line, piece))

    def reach(self, subject: Type, bound: Bound, assumed: bool = False) -> Reach:
        """All that the query leads to. With where-clauses it is not called complete."""
        found = Reach(is_complete=not assumed)
        length: dict[Reference_, Optional[int]] = {}
        active: set[Reference_] = set()

        def visit(reference: Reference_) -> Optional[int]:
            if reference in length:
                return length[reference]
            if reference in active or len(length) > MAXIMAL_REFERENCES or len(active) > 200:
                return None
            active.add(reference)
            longest: Optional[int] = 0
            for child in self.children(reference, found):
                below = visit(child)
                longest = None if below is None or longest is None else max(longest, below + 1)
            active.discard(reference)
            length[reference] = longest
            return longest

        found.longest = visit((bound.key, (subject, *bound.arguments)))
        found.references = set(length)
        return found

    def is_free(self, term: Type) -> bool:
        return isinstance(term, Unknown) and term.name in self.free

    def children(self, reference: Reference_, found: Reach) -> list[Reference_]:
        trait, arguments = reference
        found.traits.add(trait)
        found.references.add(reference)
        found.types |= {part.key for term in arguments for part in walk(term) if isinstance(part, Named)}
        if self.is_free(arguments[0]):
            return []
        children: list[Reference_] = []
        written_for: set[str] = set()
        for line, piece in self.impls.get(trait, []):
            assert line.trait is not None
            params = {p.name for p in line.params}
            values: dict[str, Type] = {}
            if isinstance(line.self_type, Named):
                written_for.add(line.self_type.key)
            pattern = (line.self_type, *line.trait.arguments)
            if len(pattern) == len(arguments) and all(bind(p, a, params, values) for p, a in zip(pattern, arguments)):
                found.pieces.append(piece)
                for subject, bound in line.clauses:
                    bound = put_bound(bound, values)
                    children.append((bound.key, (put(subject, values), *bound.arguments)))
        declared = self.text.names.get(trait)
        for bound in declared.bounds if declared else []:
            values = {p.name: a for p, a in zip(declared.params, arguments[1:])} if declared else {}
            bound = put_bound(bound, values)
            children.append((bound.key, (arguments[0], *bound.arguments)))
        children += premises(reference)
        if trait in BY_PARTS or (declared is not None and declared.is_auto):
            children += [(trait, (part,)) for part in self.asked_parts(arguments[0], written_for, found)]
        if trait in BY_TARGET:
            found.is_complete = False
        return children

    def asked_parts(self, term: Type, written_for: set[str], found: Reach) -> list[Type]:
        match term:
            case Tuple(items):
                return list(items)
            case Array(element, _) | Slice(element):
                return [element]
            case Named(name, arguments):
                declared = self.text.names.get(name)
                if declared is None or name in written_for:
                    return []
                found.structs.add(name)
                values = {p.name: a for p, a in zip(declared.params, arguments)}
                return [put(f, values) for f in declared.fields]
        return []
