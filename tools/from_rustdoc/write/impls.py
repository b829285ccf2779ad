"""An impl as lines of both texts. Each impl has its own line: in the upper text whole clauses are dropped and fresh parameters
put for terms, and no more; in the lower one an impl with a loss is left out, or void where its trait is an auto trait."""
from __future__ import annotations

from dataclasses import dataclass, field, replace
from typing import Any, Callable, Optional

from ..read.standard import Standard
from ..read.terms import (Bound, BoundsOf, Declaration, Form, Impl, Lossy, Named, Parameter, Part, Pointer, Predicate, Projection, Reference, Type,
                          parameters_of, put, rebuilt, walk)
from .project import APPLY, WRAP, Determined, Goal, Projector, determined
from .render import CLAUSE, HEADER, MAXIMAL_CLAUSES, MAXIMAL_PARAMS, NEVER, Need, Renderer, Scope, bracketed, is_sizedness, mentions, names_of

RESERVED_TRAITS = ("Sized", "Tuple", "Unsize")
PATTERN = "K_"


@dataclass(frozen=True)
class Line:
    """A line of the text. `role` is "impl", "void" (an impl with a clause that never holds), or "companion"."""
    text: str
    role: str = "impl"


@dataclass
class Written:
    """What became of an impl: its lines in each text, and its losses; `unknown` are values of associated types that are not said.
    Without lines in the upper text it is out, for `losses[0]`; `is_safe` says that nothing is lost by that."""
    impl: Impl
    upper: list[Line] = field(default_factory=list)
    lower: list[Line] = field(default_factory=list)
    losses: list[str] = field(default_factory=list)
    unknown: list[str] = field(default_factory=list)
    is_safe: bool = False

    @property
    def fate(self) -> str:
        if not self.upper:
            return "out"
        return "loss" if self.losses else "whole"


@dataclass
class Kept:
    """What was written of an impl, by the state of a text, with what the text had to have for it."""
    impl: Impl
    state: tuple[Any, ...]
    written: Written
    needs: list[Need]
    patterns: list[str]


@dataclass
class Parts:
    """A header with its clauses, as written."""
    scope: Scope
    self_type: str
    trait: str
    arguments: list[str]
    clauses: list[str]
    losses: list[str]
    params: list[str]
    in_header: set[str]
    terms: dict[str, Type]

    def is_blanket(self) -> bool:
        """Whether a fresh parameter stands for the whole self type, or for all arguments of the trait."""
        return self.self_type in self.scope.fresh or ", ".join(self.arguments) in self.scope.fresh


def forget_hidden(scope: Scope, header: str) -> None:
    """A type that another one replaces in the end has no fresh parameters."""
    hidden = {x for x in scope.fresh if not mentions(header, [x])}
    scope.fresh = [x for x in scope.fresh if x not in hidden]
    scope.owed = [(place, name) for place, name in scope.owed if name not in hidden]
    scope.projections = {place: entry for place, entry in scope.projections.items() if entry[0] not in hidden}


class Clauses:
    """The clauses of one impl: those that are said, and why others are lost."""

    def __init__(self, projector: Projector, impl: Impl, scope: Scope, in_header: set[str]) -> None:
        self.projector = projector
        self.impl = impl
        self.scope = scope
        self.in_header = in_header
        self.said: list[str] = []
        self.lost: list[str] = []
        self.found = Determined()

    def lose(self, why: str | Lossy) -> None:
        self.lost.append(f"clause: {why}: dropped")

    def equations(self, predicates: list[Predicate]) -> list[tuple[Projection, Type]]:
        """The equations of the clauses, resolved; they give names to projections, and determine parameters that are in no header."""
        found: list[tuple[Projection, Type]] = []
        for subject, bound in predicates:
            for name, value in bound.constraints:
                if isinstance(value, BoundsOf):
                    continue
                try:
                    place = self.projector.renderer.resolved(Projection(subject, bound, name), self.scope)
                    assert isinstance(place, Projection)
                    found.append((place, self.projector.renderer.resolved(value, self.scope)))
                except Lossy as error:
                    self.lose(f"an equation of `{name}`: {error}")
        for place, value in found:
            self.name(place, value)
        names = {p.name for p in self.impl.params if p.kind == "type"}
        self.found = determined(found, names, names & self.in_header)
        return found

    def name(self, place: Projection, value: Type) -> None:
        """A projection that equals a type of the header goes by that."""
        if parameters_of(value) & set(self.scope.params) <= self.in_header and not any(isinstance(p, Projection) for p in walk(value)):
            try:
                used = Scope(CLAUSE, self.scope.params)
                text = self.projector.renderer.type(value, used)
                self.scope.projections.setdefault(place, (text, frozenset(used.used)))
            except Lossy:
                pass

    def add(self, make: Callable[[], Goal]) -> None:
        try:
            self.take(make())
        except Lossy as error:
            self.lose(error)

    def take(self, goal: Goal) -> None:
        goal = self.projector.put_goal(goal, self.found.terms)
        self.scope.used = set()
        more = self.projector.any_clause(goal, self.scope)
        if more is not None:
            self.keep(more)
        self.keep(self.projector.said(goal, self.impl.crate, self.scope))

    def keep(self, text: str) -> None:
        if not self.scope.used <= self.in_header:
            raise Lossy("a parameter that is in no header")
        self.said.append(text)

    def add_equations(self, equations: list[tuple[Projection, Type]]) -> None:
        for number, (place, value) in enumerate(equations):
            try:
                if number not in self.found.defining:
                    self.take(self.projector.equation(place, value))
                elif self.found.defining[number] is not None:
                    self.match(put(place, self.found.terms), self.found.defining[number])
            except Lossy as error:
                self.lose(f"an equation of `{place.name}`: {error}")

    def match(self, place: Type, form: Optional[Form]) -> None:
        assert isinstance(place, Projection) and form is not None
        self.scope.used = set()
        self.keep(self.projector.match(place, form, self.impl.crate, self.scope))

    def add_owed(self, scope: Scope) -> None:
        """What a header's projections are: that their trait holds, and the value."""
        while scope.owed:
            place, name = scope.owed.pop(0)
            # The name is a parameter of the line, though none of the impl.
            scope.params[name] = name
            self.in_header = self.in_header | {name}
            try:
                if isinstance(place, Part):
                    pattern = put(place.form.pattern, {place.name: Parameter(name)})
                    self.match(place.whole, Form(pattern, tuple(n for n in place.form.names if n != place.name)))
                else:
                    assert place.bound is not None
                    self.take(self.projector.goal(place.subject, place.bound, scope))
                    self.take(self.projector.equation(place, Parameter(name)))
            except Lossy as error:
                self.lose(error)


class ImplWriter:
    def __init__(self, renderer: Renderer, standard: Standard, with_patterns: bool = True) -> None:
        self.renderer = renderer
        self.projector = Projector(renderer, with_patterns)
        self.world = renderer.world
        self.standard = standard

    def write(self, impl: Impl) -> Written:
        """The impl's lines. What was written in an earlier text is taken as it is, where this one speaks of the same associated types."""
        kept: dict[tuple[int, bool, bool], Kept] = self.world.written
        key = (id(impl), self.projector.with_patterns, self.renderer.names_values)
        if key in kept and kept[key].state == self.state(impl):
            self.renderer.again(kept[key].needs)
            self.projector.again(kept[key].patterns)
            return kept[key].written
        before, patterns = self.renderer.log, len(self.projector.log)
        needs: list[Need] = []
        self.renderer.log = needs
        written = self.written_anew(impl)
        self.renderer.log = before
        if before is not None:
            before += needs
        kept[key] = Kept(impl, self.state(impl), written, list(dict.fromkeys(needs)), self.projector.log[patterns:])
        return written

    def state(self, impl: Impl) -> tuple[Any, ...]:
        """What an impl's lines depend on in a text: the associated types of its trait that are spoken of, and the `dyn`s that are not said."""
        if impl.trait is None:
            return ()
        try:
            trait = self.world.get(impl.trait.key, "trait", impl.trait.arguments)
        except Lossy:
            return ()
        spoken = tuple(((trait.key, n) in self.renderer.companions, (trait.key, n) in self.renderer.thens) for n in sorted(trait.associated))
        return spoken, trait.key in self.renderer.anys, frozenset(self.renderer.cyclic)

    def written_anew(self, impl: Impl) -> Written:
        if impl.trait is None:
            return Written(impl, losses=[f"the header is not understood: {impl.error}"])
        try:
            trait = self.renderer.need(impl.trait.key, "trait", impl.trait.arguments)
            refusal = self.refusal(impl, trait)
            if refusal:
                return Written(impl, losses=[refusal], is_safe=impl.is_negative)
            parts = self.parts(impl, trait)
            if len(parts.params) > MAXIMAL_PARAMS:
                coarse = [self.parts(impl, trait, arguments, itself) for arguments, itself in ((True, False), (False, True), (True, True))]
                few = [p for p in coarse if len(p.params) <= MAXIMAL_PARAMS] or coarse
                parts = next((p for p in few if not p.is_blanket()), few[0])
            if len(parts.params) > MAXIMAL_PARAMS:
                return Written(impl, losses=["more than 64 parameters"])
        except Lossy as error:
            return Written(impl, losses=[f"header: {error}"])
        return self.lines(impl, trait, parts)

    def refusal(self, impl: Impl, trait: Declaration) -> str:
        """Why the impl has no line in either text; empty where it has."""
        if trait.is_auto and not isinstance(impl.self_type, (Named, Reference, Pointer)):
            return "an auto trait's impl for no struct: the built-in rule stands"
        if trait.is_auto and isinstance(impl.self_type, Named) and self.world.get(impl.self_type.key, "struct", impl.self_type.arguments).crate != impl.crate:
            return "an auto trait's impl for another crate's type"
        if impl.is_negative and not trait.is_auto:
            return "a negative impl of a trait that is not auto: it only allows less"
        if self.world.is_cores(trait) and trait.name in RESERVED_TRAITS:
            return "an impl of a trait that the text keeps to itself"
        return ""

    # ---- header and clauses
    def parts(self, impl: Impl, trait: Declaration, coarse_arguments: bool = False, coarse_self: bool = False) -> Parts:
        """Where the header has more than 64 parameters, fresh ones stand for tuples in the trait's arguments, in the self type, or both."""
        assert impl.trait is not None
        names = names_of(impl.params)
        consts = {p.name for p in impl.params if p.kind == "const"}
        scope = Scope(HEADER, names, predicates=self.with_inner_bounds(impl.predicates), coarse=coarse_self, const_params=consts)
        self_type = self.renderer.type(impl.self_type, scope)
        scope.coarse = coarse_arguments
        arguments = self.renderer.argument_list(trait, impl.trait.arguments, scope, impl.self_type)
        self.renderer.refuse_fn_of_no_tuple(trait, impl.trait)
        written = self.world.name(trait) + bracketed(arguments)
        forget_hidden(scope, f"{self_type} {written}")
        losses = list(scope.losses)
        in_header = set(scope.used)
        scope.mode, scope.coarse = CLAUSE, False
        made = self.clauses(impl, scope, in_header)
        clauses, lost = list(dict.fromkeys(made.said)), made.lost
        if len(clauses) > MAXIMAL_CLAUSES:
            clauses = clauses[:MAXIMAL_CLAUSES]
            lost.append("clause: more than 64: dropped")
        types = [names[p.name] for p in impl.params if p.kind == "type" and p.name in in_header]
        own_consts = ["const " + names[p.name] for p in impl.params if p.kind == "const" and p.name in in_header]
        params = types + scope.fresh + own_consts + ["const " + x for x in scope.fresh_consts]
        losses += lost + [x for x in scope.losses if x not in losses]
        return Parts(scope, self_type, written, arguments, clauses, losses, params, in_header, made.found.terms)

    def clauses(self, impl: Impl, scope: Scope, in_header: set[str]) -> Clauses:
        """The where-clauses, those that the text can say and why it cannot say the others."""
        clauses = Clauses(self.projector, impl, scope, in_header)
        predicates = scope.predicates
        equations = clauses.equations(predicates)
        unsized = {t.name for t, b in predicates if is_sizedness(b) and isinstance(t, Parameter)}
        for param in impl.params:
            if param.kind == "type" and param.name not in unsized:
                clauses.add(lambda: Goal("Sized", (Parameter(param.name),)))
        clauses.add_equations(equations)
        for subject, bound in predicates:
            if not is_sizedness(bound) and not bound.key.endswith("trait.Destruct"):
                clauses.add(lambda: self.bound_goal(subject, bound, scope))
        clauses.add_owed(scope)
        return clauses

    def bound_goal(self, subject: Type, bound: Bound, scope: Scope) -> Goal:
        goal = self.projector.goal(subject, bound, scope)
        if goal.trait == "Unsize":
            raise Lossy("`Unsize`, which std's types have by private fields")
        return goal

    @staticmethod
    def with_inner_bounds(predicates: list[Predicate]) -> list[Predicate]:
        """The predicates, with those that are inside as `Iterator<Item: Debug>`."""
        found: list[Predicate] = []
        for subject, bound in predicates:
            found.append((subject, bound))
            for name, value in bound.constraints:
                if isinstance(value, BoundsOf):
                    inner = Projection(subject, Bound(bound.key, bound.arguments), name)
                    found += [(inner, b) for b in value.bounds]
        return found

    def equation(self, subject: Type, bound: Bound, name: str, value: Type, scope: Scope) -> str:
        """`I: Iterator<Item = X>` of a query as `I: Iterator__Item<X>`; the projection goes by X from now on."""
        place = self.renderer.resolved(Projection(subject, bound, name), scope)
        assert isinstance(place, Projection)
        right = self.renderer.type(value, scope)
        scope.projections[place] = (right, frozenset())
        return self.projector.text(self.projector.equation(place, value), scope)

    # ---- lines
    @staticmethod
    def line(params: list[str], trait: str, self_type: str, clauses: list[str]) -> str:
        where = f" where {', '.join(clauses)}" if clauses else ""
        return f"impl{bracketed(params)} {trait} for {self_type}{where}"

    def lines(self, impl: Impl, trait: Declaration, parts: Parts) -> Written:
        written = Written(impl, losses=list(dict.fromkeys(parts.losses)))
        void = Line(self.line(parts.params, parts.trait, parts.self_type, [NEVER]), "void")
        if impl.is_negative:
            written.upper, written.lower = [void], [void]
            return written
        whole = Line(self.line(parts.params, parts.trait, parts.self_type, parts.clauses))
        written.upper = [whole]
        if not written.losses:
            written.lower = [whole]
        elif trait.is_auto:
            written.lower = [void]
        if trait.key in self.renderer.anys:
            self.add_line(written, self.any_line(trait, parts), not written.losses)
        for name in sorted(trait.associated):
            if (trait.key, name) in self.renderer.companions or (trait.key, name) in self.renderer.thens:
                self.value_lines(impl, trait, name, parts, written)
        return written

    def any_line(self, trait: Declaration, parts: Parts) -> Line:
        """That the self type has the trait for some arguments: with the clauses that speak of the self type's parameters alone."""
        gone = [p for p in (q.replace("const ", "") for q in parts.params) if not mentions(parts.self_type, [p])]
        params = [p for p in parts.params if p.replace("const ", "") not in gone]
        return Line(self.line(params, self.renderer.any_name(trait), parts.self_type, [c for c in parts.clauses if not mentions(c, gone)]), "companion")

    def value_lines(self, impl: Impl, trait: Declaration, name: str, parts: Parts, written: Written) -> None:
        """The impl's lines of a companion, and of the trait that asks patterns. Where its value is not known, or cannot be said, the
        upper lines hold of every type and every pattern."""
        try:
            value: Optional[Type] = self.value(impl, trait, name, parts)
        except Lossy as error:
            value = None
            written.unknown.append(f"the associated type `{name}`: {error}: any type in the upper text, none in the lower")
        kinds = [self.companion_line] if (trait.key, name) in self.renderer.companions else []
        kinds += [self.then_line] if (trait.key, name) in self.renderer.thens else []
        for write in kinds:
            line, lost = None, "more than 64 parameters"
            if value is not None:
                try:
                    line, lost = write(impl, trait, name, parts, value)
                    self.add_line(written, line, not written.losses and not lost)
                    continue
                except Lossy as error:
                    lost = str(error)
                written.unknown.append(f"the associated type `{name}`: {lost}: any type in the upper text, none in the lower")
            try:
                line, _ = write(impl, trait, name, parts, None)
                self.add_line(written, line, False)
            except Lossy as error:
                written.unknown.append(f"the associated type `{name}`: {error}: out of both texts")

    @staticmethod
    def add_line(written: Written, line: Line, is_whole: bool) -> None:
        written.upper.append(line)
        if is_whole:
            written.lower.append(line)

    def value(self, impl: Impl, trait: Declaration, name: str, parts: Parts) -> Type:
        """The value of an associated type, by what the header has."""
        if name not in impl.associated:
            known = self.standard.associated_type(impl, name)
            if known is None:
                raise Lossy("its value is not in std's documents")
            impl.associated[name] = known
        value = self.own_values(impl, trait, impl.associated[name], 0)
        value = put(self.renderer.resolved(value, parts.scope), parts.terms)
        if any(getattr(part, "name", "") == "Self" for part in walk(value)):
            raise Lossy("its value names `Self`")
        return value

    def own_values(self, impl: Impl, trait: Declaration, term: Type, depth: int) -> Type:
        """The type with the impl's own associated types put in: `Self::Item`."""
        assert impl.trait is not None
        if term == Parameter("Self"):
            return impl.self_type
        if isinstance(term, Projection) and term.subject in (Parameter("Self"), impl.self_type) and term.name in impl.associated and depth < 8:
            bound = term.bound
            if bound is None and term.subject == Parameter("Self") or bound is not None and bound.arguments in ((), impl.trait.arguments) and \
                    self.world.get(bound.key, "trait", bound.arguments).key == trait.key:
                return self.own_values(impl, trait, impl.associated[term.name], depth + 1)
        return rebuilt(term, lambda part: self.own_values(impl, trait, part, depth))

    def value_scope(self, parts: Parts) -> Scope:
        scope = parts.scope
        return replace(scope, mode=HEADER, losses=[], fresh=list(scope.fresh), fresh_consts=list(scope.fresh_consts), owed=[], used=set(),
                       projections=dict(scope.projections), params=dict(scope.params))

    def companion_line(self, impl: Impl, trait: Declaration, name: str, parts: Parts, value: Optional[Type]) -> tuple[Line, str]:
        scope = self.value_scope(parts)
        if value is None:
            scope.fresh.append("Y_")
            text = "Y_"
        else:
            text = self.renderer.type(value, scope)
            if not scope.used <= parts.in_header:
                raise Lossy("its value holds a parameter that is in no header")
            forget_hidden(scope, f"{parts.self_type} {' '.join(parts.arguments)} {text}")
            if scope.fresh_consts != parts.scope.fresh_consts:
                raise Lossy("its value holds a constant")
        scope.mode = CLAUSE
        clauses = Clauses(self.projector, impl, scope, parts.in_header)
        clauses.add_owed(scope)
        if clauses.lost:
            raise Lossy(clauses.lost[0])
        line = self.value_line(trait, parts, self.renderer.companion_name(trait, name), text, scope.fresh, clauses.said)
        return line, "; ".join(scope.losses)

    def then_line(self, impl: Impl, trait: Declaration, name: str, parts: Parts, value: Optional[Type]) -> tuple[Line, str]:
        scope = self.value_scope(parts)
        scope.mode = CLAUSE
        scope.params[PATTERN] = PATTERN
        clauses: list[str] = []
        if value is not None:
            clauses.append(self.projector.said(Goal(APPLY, (Parameter(PATTERN), value)), impl.crate, scope))
            if not scope.used <= parts.in_header | {PATTERN}:
                raise Lossy("its value holds a parameter that is in no header")
        return self.value_line(trait, parts, self.renderer.then_name(trait, name), f"{WRAP}<{PATTERN}>", [*scope.fresh, PATTERN], clauses), ""

    def value_line(self, trait: Declaration, parts: Parts, name: str, argument: str, fresh: list[str], more: list[str]) -> Line:
        types = [p for p in parts.params if not p.startswith("const ") and p not in fresh]
        params = types + fresh + [p for p in parts.params if p.startswith("const ")]
        clauses = list(dict.fromkeys(parts.clauses + more))
        if len(params) > MAXIMAL_PARAMS or len(clauses) > MAXIMAL_CLAUSES:
            raise Lossy("more than 64 parameters, or 64 clauses")
        arguments = self.renderer.with_value(trait, parts.arguments, argument)
        return Line(self.line(params, f"{name}{bracketed(arguments)}", parts.self_type, clauses), "companion")
