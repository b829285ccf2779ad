"""Structs and traits as lines of a crate, in an order in which each name comes before its uses.

A struct whose fields all can be said where it stands is written with them. One that is not (structs that name each other, or a
field that the text has no form for) is *cut*: it keeps its last field, and the parameters that its earlier ones mention, which is
all that `Sized` and `Unsize` ask; and each auto trait gets an impl whose clauses are the fields, which is what the built-in rule
says. What of that cannot be said is dropped in the upper text, and makes the impl void in the lower one.
"""
from __future__ import annotations

import re
from dataclasses import dataclass, field
from typing import Optional

from ..read.html_docs import is_std_key
from ..read.terms import Array, Declaration, Function, Lossy, Named, Never, Pointer, Primitive, Projection, Reference, Tuple, Type, parameters_of
from .impls import Line
from .project import Goal, Projector
from .render import (CLAUSE, FIELD, MAXIMAL_CLAUSES, NEVER, Renderer, Scope, as_arguments, bracketed, is_packed, is_sizedness, names_of, param_name,
                     params_text, text_params)

MAXIMAL_FIELDS = 64


@dataclass
class Cut:
    """A struct that is written without its fields, and why. `tail_unsure`: whether it is sized is not known; `tail_by_bound`: it is, since
    the last field is an associated type that its trait says to be."""
    declaration: Declaration
    reasons: list[str] = field(default_factory=list)
    tail_unsure: bool = False
    tail_by_bound: bool = False


class Declarer:
    """Writes the declarations of one crate. `lines` has two forms of each line, upper and lower; `cuts` the structs that are cut."""

    def __init__(self, projector: Projector, mine: list[Declaration]) -> None:
        self.projector = projector
        self.renderer: Renderer = projector.renderer
        self.world = self.renderer.world
        self.mine = {self.world.name(d): d for d in mine}
        self.lines: list[tuple[str, str, Declaration]] = []
        self.cuts: list[Cut] = []
        self.lost: list[str] = []
        self.done: set[str] = set()
        self.active: set[str] = set()

    def write(self) -> None:
        for name, declaration in self.mine.items():
            if self.world.is_cores(declaration):
                self.done.add(name)
        for name in self.mine:
            self.visit(name)
        for name, declaration in self.mine.items():
            if name not in self.done:
                self.renderer.cyclic.add(declaration.key)
                self.renderer.lost_supers.clear()
                self.renderer.grew = True
                self.visit(name)

    def words(self, text: str) -> list[str]:
        return [w for w in re.findall(r"\w+", text) if w in self.mine]

    def visit(self, name: str) -> bool:
        """Writes the item after what it names; false where that is not possible yet."""
        if name in self.done:
            return True
        if name in self.active:
            return False
        self.active.add(name)
        written = self.trait(name) if self.mine[name].is_trait else self.struct(name)
        self.active.discard(name)
        if written:
            self.done.add(name)
        return written

    # ---- traits
    def trait(self, name: str) -> bool:
        declaration = self.mine[name]
        supers, lost = self.renderer.supertraits(declaration)
        for text, _ in supers:
            if not all(self.visit(word) for word in self.words(text)):
                return False
        self.lost += lost
        params = params_text(declaration.params)
        above = f": {' + '.join(text for text, _ in supers)}" if supers else ""
        head = "fundamental " if declaration.is_fundamental else ""
        upper = f"{head}auto trait {name}" if declaration.is_auto else f"{head}trait {name}{params}{above}"
        lower = upper if is_std_key(declaration.key) else upper.replace("auto trait", "trait")
        self.add(upper, lower, declaration)
        if declaration.key in self.renderer.anys:
            line = f"{head}trait {self.renderer.any_name(declaration)}"
            self.add(line, line, declaration)
        types = [param_name(p.name) for p in declaration.params if p.kind == "type"]
        consts = ["const " + param_name(p.name) for p in declaration.params if p.kind == "const"]
        for associated in sorted(declaration.associated):
            if (declaration.key, associated) in self.renderer.companions:
                line = f"trait {self.renderer.companion(declaration, associated)}{bracketed(types + ['A_'] + consts)}"
                self.add(line, line, declaration)
            if (declaration.key, associated) in self.renderer.thens:
                line = f"{head}trait {self.renderer.then_name(declaration, associated)}{bracketed([*types, 'K_', *consts])}"
                self.add(line, line, declaration)
        return True

    def add(self, upper: str, lower: str, declaration: Declaration) -> None:
        self.lines.append((upper, lower, declaration))

    # ---- structs
    def struct(self, name: str) -> bool:
        declaration = self.mine[name]
        head = ("fundamental " if declaration.is_fundamental else "") + f"struct {name}{params_text(declaration.params)}"
        if declaration.is_opaque:
            self.cuts.append(Cut(declaration, ["an item that is not documented"], tail_unsure=True))
            self.add(head, head + "(str)", declaration)
            return True
        fields, reasons = self.fields(declaration) if not is_packed(declaration.params) else ([], ["more than 64 parameters"])
        for text in fields:
            for word in self.words(text or ""):
                self.visit(word)
        late = [text for text in fields if text and not all(w in self.done or w == name for w in self.words(text))]
        if late:
            reasons.append("it and a later struct name each other")
        if len(fields) + declaration.is_enum > MAXIMAL_FIELDS:
            reasons.append("more than 64 fields")
        if not reasons:
            written = [text for text in fields if text] + (["()"] if declaration.is_enum and fields else [])
            line = head + (f"({', '.join(written)})" if written else "")
            self.add(line, line, declaration)
            return True
        cut = Cut(declaration, reasons)
        tail = fields[-1] if fields and fields[-1] not in late else None
        upper, lower = self.tails(declaration, tail, cut)
        earlier = self.mentioned(declaration)
        self.add(f"{head}({', '.join(earlier + [upper])})", f"{head}({', '.join(earlier + [lower])})", declaration)
        self.cuts.append(cut)
        return True

    def fields(self, declaration: Declaration) -> tuple[list[Optional[str]], list[str]]:
        """The fields as the text writes them, None for what it cannot say, with the reasons."""
        if is_std_key(declaration.key):
            terms = [declaration.tail] if declaration.tail is not None else []
        else:
            terms = declaration.fields
        fields: list[Optional[str]] = []
        reasons: list[str] = []
        for term in terms:
            try:
                fields.append(self.field(declaration, term))
            except Lossy as error:
                fields.append(None)
                reasons.append(f"a field: {error}")
        return fields, reasons

    def field(self, declaration: Declaration, term: Type) -> str:
        return self.renderer.type(term, Scope(FIELD, names_of(declaration.params), predicates=declaration.predicates))

    def tails(self, declaration: Declaration, tail: Optional[str], cut: Cut) -> tuple[str, str]:
        """The last field in the upper and in the lower text."""
        if declaration.is_enum or (declaration.fields and self.is_firm(declaration.fields[-1], set())):
            return "()", "()"
        if tail is not None:
            return tail, tail
        if declaration.fields and self.is_sized_value(declaration, declaration.fields[-1]):
            cut.tail_by_bound = True
            return "()", "()"
        cut.tail_unsure = True
        return "()", "str"

    def is_sized_value(self, declaration: Declaration, term: Type) -> bool:
        """Whether the type is an associated type without `?Sized`. Then it unsizes to none that could be in its place, which are sized too."""
        if not isinstance(term, Projection):
            return False
        try:
            place = self.renderer.resolved(term, Scope(FIELD, names_of(declaration.params), predicates=declaration.predicates))
            assert isinstance(place, Projection) and place.bound is not None
            trait = self.world.get(place.bound.key)
            return not any(is_sizedness(bound) for bound in trait.item_bounds.get(place.name, []))
        except Lossy:
            return False

    def mentioned(self, declaration: Declaration) -> list[str]:
        """Fields that mention the parameters that all fields but the last one mention (of an enum: all fields)."""
        if is_packed(declaration.params):
            return [f"({param_name(p.name)}, ())" for p in text_params(declaration.params) if p.kind == "type"]
        terms = declaration.fields if declaration.is_enum else declaration.fields[:-1]
        names: set[str] = set().union(*(parameters_of(t) for t in terms)) if terms else set()
        types = [param_name(p.name) for p in declaration.params if p.kind == "type" and p.name in names]
        consts = [param_name(p.name) for p in declaration.params if p.kind == "const" and p.name in names]
        written = [f"({t}, ())" for t in types]
        return written + [f"[(); {c}]" for c in consts]

    def is_firm(self, term: Type, seen: set[str]) -> bool:
        """Whether the type is sized whatever its arguments are, and is no type that `Unsize` starts or ends at."""
        match term:
            case Primitive(name):
                return name != "str"
            case Never() | Reference() | Pointer() | Function():
                return True
            case Tuple(items):
                return not items or self.is_firm(items[-1], seen)
            case Named(key, arguments):
                if key in seen:
                    return True
                try:
                    declaration = self.world.get(key, "struct", arguments)
                except Lossy:
                    return False
                if declaration.is_opaque:
                    return False
                if is_std_key(declaration.key):
                    return declaration.tail is None
                if declaration.is_enum or not declaration.fields:
                    return True
                return self.is_firm(declaration.fields[-1], seen | {key})
            case Array():
                return False
        return False

    # ---- auto traits
    def auto_lines(self, cut: Cut, trait: Declaration) -> tuple[Line, Line, list[str]]:
        """The impl of an auto trait for a struct that is cut: the upper and the lower line, and what is lost."""
        declaration = cut.declaration
        name, params = self.world.name(declaration), params_text(declaration.params)
        header = f"impl{params} {self.world.name(trait)} for {name}{as_arguments(params)}"
        void = Line(f"{header} where {NEVER}", "void")
        if declaration.is_opaque or is_std_key(declaration.key):
            return Line(header, "fields"), void, ["an item that is not documented"]
        if is_packed(declaration.params):
            return Line(header, "fields"), void, ["more than 64 parameters"]
        clauses: list[str] = []
        lost: list[str] = []
        for term in declaration.fields:
            try:
                clauses.append(f"{self.field(declaration, term)}: {self.world.name(trait)}")
            except Lossy as error:
                try:
                    clauses.append(self.projected(declaration, term, trait))
                except Lossy:
                    lost.append(f"a field: {error}")
        clauses = list(dict.fromkeys(clauses))
        if len(clauses) > MAXIMAL_CLAUSES:
            clauses = clauses[:MAXIMAL_CLAUSES]
            lost.append("more than 64 fields")
        upper = Line(header + (f" where {', '.join(clauses)}" if clauses else ""), "fields")
        return upper, void if lost else upper, lost

    def projected(self, declaration: Declaration, term: Type, trait: Declaration) -> str:
        """The trait of a field with an associated type."""
        consts = {p.name for p in declaration.params if p.kind == "const"}
        scope = Scope(CLAUSE, names_of(declaration.params), predicates=declaration.predicates, const_params=consts)
        return self.projector.said(Goal(self.world.name(trait), (self.renderer.resolved(term, scope),)), declaration.crate, scope)
