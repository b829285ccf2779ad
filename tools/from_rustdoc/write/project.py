"""Clauses on associated types that have no name, as clauses on the types that they belong to.

`where I::Item: Debug` is a pattern with a hole, `_: Debug`, and `I::Item` in it. The pattern becomes a struct, with what it means as an
impl, `impl<H> Apply_<H> for Pat1_ where H: Debug`; and the clause becomes `I: Iterator__Item__Then<Wrap_<Pat1_>>`. Each impl of Iterator
brings one of this trait that asks the pattern of its value, `impl<T, K> Iterator__Item__Then<Wrap_<K>> for Once<T> where K: Apply_<T>`.

- The hole is the first outermost projection without a name, wherever it is in the clause, and as often. What else the pattern has of the
  impl, its parameters and its other projections, become parameters of the pattern's struct. So each step takes one projection out of
  the clause, and what is left is a clause again; steps end.
- Parameters that are in no header are what an equation says: of `F: Fn() -> R`, R is `<F as FnOnce<()>>::Output`. Of `I: Iterator<Item = (A, B)>`
  A and B are parts of a form, and the pattern is asked of that: `impl<A, B> Apply_<(A, B)> for Pat2_ where B: Debug`. The equation itself is
  the pattern without a clause. A second equation of one parameter is a clause by a companion.
- A value that is a projection, `type Item = <J::Item as IntoIterator>::Item`, is a hole too: its line asks `K_: Apply_<value>`, which is a clause.
  Where the value is the hole itself, the pattern K_ goes on as it is. A struct for each place in the crates is enough for chains of any
  length (`Map<Map<..>>`): a trait for each clause would not be, since each step would need a new one.
- A projection in a header goes by its fresh parameter, one that equals a type of the header by that type.
- The trait that asks patterns is fundamental if its own trait is; its lines are in the crate of the impl, a pattern in that of the clause.
  Where a value is not known the upper line has no `Apply_`, and the lower text no line.
- A clause `F: FnMut(I::Item)` brings `F: std__FnMut__Any` too, that F is `FnMut` for some arguments: rustc puts a variable for `I::Item`, and
  may refuse `S: FnMut(?)` all the same.
- A `dyn` whose supertraits fix a value, `trait Bytes: Iterator<Item = u8>`, has no line that asks patterns: it cannot be said.

A proof of `T: Tr__Item__Then<Wrap_<K>>` is an impl of Tr that applies to T, with its clauses, and a proof of K's clause for its value: what rustc
asks of `<T as Tr>::Item`. The orphan rule looks at Tr's own terms alone, since `Wrap_` is nobody's but `alloc`'s and is not gone into. So these impls
may stand, meet and be added where those of Tr may.
"""
from __future__ import annotations

from dataclasses import dataclass, field
from typing import Iterator, Optional

from ..model.world import crate_name
from ..read.terms import Array, Bound, Constant, Declaration, Form, Lossy, Named, Param, Parameter, Part, Projection, Type, parameters_of, parts, put, rebuilt
from .render import CLAUSE, MAXIMAL_PARAMS, Renderer, Scope, bracketed

APPLY, WRAP = "Apply_", "Wrap_"
HOLE = "H"


@dataclass(frozen=True)
class Goal:
    """A clause by a trait of the text. Of one by a `Then` trait `pattern` is what is in its `Wrap_`."""
    trait: str
    types: tuple[Type, ...]
    consts: tuple[Type, ...] = ()
    pattern: Optional[Type] = None

    def terms(self) -> tuple[Type, ...]:
        return self.types + ((self.pattern,) if self.pattern is not None else ())


@dataclass
class Abstraction:
    """Takes a term into a pattern: what is in the hole becomes H, or the names of its form, and each parameter and each other
    projection a parameter of the pattern."""
    hole: Projection
    form: Optional[Form]
    const_names: set[str]
    types: dict[Type, str] = field(default_factory=dict)
    consts: dict[str, str] = field(default_factory=dict)
    names: dict[str, str] = field(default_factory=dict)

    def __post_init__(self) -> None:
        self.names = {n: f"L{i}" for i, n in enumerate(self.form.names, 1)} if self.form else {}

    def of(self, term: Type) -> Type:
        match term:
            case Part(whole, form, name) if whole == self.hole and form == self.form:
                return Parameter(self.names[name])
            case Projection() if term == self.hole and self.form is None:
                return Parameter(HOLE)
            case Projection() | Part():
                return self.outer(term)
            case Parameter(name):
                return Constant(self.const(name)) if name in self.const_names else self.outer(term)
            case Constant(text):
                return Constant(self.const(text))
            case Array(element, length):
                return Array(self.of(element), self.const(length))
        return rebuilt(term, self.of)

    def of_form(self, term: Type) -> Type:
        """The form itself, where its names may stand too."""
        match term:
            case Parameter(name) if name in self.names:
                return Parameter(self.names[name])
            case Projection() | Part() | Parameter() | Constant():
                return self.of(term)
            case Array(element, length):
                return Array(self.of_form(element), self.const(length))
        return rebuilt(term, self.of_form)

    def of_goal(self, goal: Goal) -> Goal:
        return Goal(goal.trait, tuple(map(self.of, goal.types)), tuple(map(self.of, goal.consts)),
                    self.of(goal.pattern) if goal.pattern is not None else None)

    def outer(self, term: Type) -> Parameter:
        return Parameter(self.types.setdefault(term, f"O{len(self.types) + 1}"))

    def const(self, text: str) -> str:
        name = text.strip("{} ")
        return self.consts.setdefault(name, f"N{len(self.consts) + 1}") if name in self.const_names else text


@dataclass
class Pattern:
    """The struct of a pattern, and the line that says what it means."""
    declaration: Declaration
    line: str


@dataclass
class Determined:
    """What stands for the parameters that are in no header, and the equations that say so, by their number: a plain one is None,
    another has the form that it asks for."""
    terms: dict[str, Type] = field(default_factory=dict)
    defining: dict[int, Optional[Form]] = field(default_factory=dict)


def constrained(term: Type, names: set[str]) -> set[str]:
    """The parameters that a value fixes: not those that are inside projections alone."""
    if isinstance(term, (Projection, Part)):
        return set()
    if isinstance(term, Parameter):
        return {term.name} & names
    return {n for part in parts(term) for n in constrained(part, names)}


def determined(equations: list[tuple[Projection, Type]], names: set[str], known: set[str]) -> Determined:
    """What determines the parameters that are in no header, as rustc finds them constrained; `names` are the impl's type parameters."""
    found = Determined()
    known = set(known)
    grew = True
    while grew:
        grew = False
        for number, (place, value) in enumerate(equations):
            new = constrained(value, names) - known
            if number in found.defining or not new or not parameters_of(place) & names <= known:
                continue
            whole = put(place, found.terms)
            assert isinstance(whole, Projection)
            if isinstance(value, Parameter):
                found.defining[number] = None
                found.terms[value.name] = whole
            else:
                form = Form(put(value, found.terms), tuple(sorted(new)))
                found.defining[number] = form
                found.terms |= {name: Part(whole, form, name) for name in new}
            known |= new
            grew = True
    return found


class Projector:
    """`patterns` are the structs that the text needs, by name. Without them a clause on an associated type that has no name is lost."""

    def __init__(self, renderer: Renderer, with_patterns: bool = True) -> None:
        self.renderer = renderer
        self.with_patterns = with_patterns
        self.world = renderer.world
        self.patterns: dict[str, Pattern] = {}
        self.log: list[str] = []

    # ---- goals
    def goal(self, subject: Type, bound: Bound, scope: Scope) -> Goal:
        declaration = self.renderer.need(bound.key, "trait", bound.arguments)
        self.renderer.refuse_fn_of_no_tuple(declaration, bound)
        types, consts = self.filled(declaration, bound.arguments, subject)
        return Goal(self.world.name(declaration), tuple(self.renderer.resolved(t, scope) for t in (subject, *types)), consts)

    def equation(self, place: Projection, value: Type) -> Goal:
        """`I::Item == X` as `I: Iterator__Item<X>`."""
        declaration, types, consts = self.owner(place)
        return Goal(self.renderer.companion(declaration, place.name), (place.subject, *types, value), consts)

    def filled(self, declaration: Declaration, arguments: tuple[Type, ...], itself: Type) -> tuple[tuple[Type, ...], tuple[Type, ...]]:
        """The arguments with defaults put in, types and constants apart."""
        given = self.renderer.filled(declaration, arguments, itself)
        by_kind = {kind: tuple(a for p, a in zip(declaration.params, given) if p.kind == kind) for kind in ("type", "const")}
        return by_kind["type"], by_kind["const"]

    def owner(self, place: Projection) -> tuple[Declaration, tuple[Type, ...], tuple[Type, ...]]:
        assert place.bound is not None
        declaration = self.renderer.need(place.bound.key, "trait", place.bound.arguments)
        return declaration, *self.filled(declaration, place.bound.arguments, place.subject)

    @staticmethod
    def put_goal(goal: Goal, values: dict[str, Type]) -> Goal:
        return Goal(goal.trait, tuple(put(t, values) for t in goal.types), tuple(put(t, values) for t in goal.consts), goal.pattern)

    # ---- what a goal becomes
    def said(self, goal: Goal, crate: str, scope: Scope) -> str:
        """The goal as a clause, exactly. Each step takes one projection out of it, so there is a last one."""
        while True:
            hole = next((h for term in goal.terms() for h in self.holes(term, scope)), None)
            if hole is None:
                return self.text(goal, scope)
            place, form = (hole.whole, hole.form) if isinstance(hole, Part) else (hole, None)
            goal = self.through(goal, place, form, crate, scope)

    def is_plain(self, goal: Goal, scope: Scope) -> bool:
        return all(next(self.holes(term, scope), None) is None for term in goal.terms())

    def any_clause(self, goal: Goal, scope: Scope) -> Optional[str]:
        """Of a clause `F: FnMut(I::Item)`, besides what becomes of it: that F is `FnMut` at all."""
        declaration = self.renderer.traits.get(self.world.named.get(goal.trait, ""))
        is_plain = next(self.holes(goal.types[0], scope), None) is None
        if declaration is None or not self.renderer.is_fn_trait(declaration) or not is_plain or self.is_plain(goal, scope):
            return None
        return f"{self.renderer.type(goal.types[0], scope)}: {self.renderer.any(declaration)}"

    def match(self, place: Projection, form: Form, crate: str, scope: Scope) -> str:
        """That the value of a projection has a form: `I: Iterator<Item = (A, B)>`, where A and B are any types."""
        return self.said(self.through(None, place, form, crate, scope), crate, scope)

    def holes(self, term: Type, scope: Scope) -> Iterator[Projection | Part]:
        """The outermost projections without a name."""
        if term in scope.projections:
            return
        if isinstance(term, (Projection, Part)):
            yield term
            return
        for part in parts(term):
            yield from self.holes(part, scope)

    def text(self, goal: Goal, scope: Scope) -> str:
        types = self.renderer.types(goal.types, scope)
        wrapped = [f"{WRAP}<{self.renderer.type(goal.pattern, scope)}>"] if goal.pattern is not None else []
        consts = [self.renderer.constant(c.name if isinstance(c, Parameter) else c.text if isinstance(c, Constant) else "", scope)
                  for c in goal.consts]
        return f"{types[0]}: {goal.trait}{bracketed(types[1:] + wrapped + consts)}"

    def through(self, goal: Optional[Goal], place: Projection, form: Optional[Form], crate: str, scope: Scope) -> Goal:
        """The goal, in which the projection stands, as one on the projection's own subject."""
        if not self.with_patterns:
            raise Lossy("an associated type without a name")
        declaration, types, consts = self.owner(place)
        then = self.renderer.then(declaration, place.name)
        pattern: Optional[Type] = None
        if goal is not None and form is None and goal.trait == APPLY and goal.types[1] == place and place not in self.holes(goal.types[0], scope):
            pattern = goal.types[0]
        return Goal(then, (place.subject, *types), consts, pattern or self.pattern(goal, place, form, crate, scope))

    # ---- patterns
    def pattern(self, goal: Optional[Goal], place: Projection, form: Optional[Form], crate: str, scope: Scope) -> Named:
        change = Abstraction(place, form, scope.const_params)
        inner = change.of_goal(goal) if goal is not None else None
        value = change.of_form(form.pattern) if form is not None else Parameter(HOLE)
        types, consts = list(change.types.values()), list(change.consts.values())
        free = list(change.names.values()) if form is not None else [HOLE]
        if len(types + free + consts) > MAXIMAL_PARAMS:
            raise Lossy("a clause of more than 64 parameters")
        inside = Scope(CLAUSE, {n: n for n in types + free + consts}, const_params=set(consts))
        clause = f" where {self.text(inner, inside)}" if inner is not None else ""
        params = bracketed(types + free + ["const " + n for n in consts])
        meaning = f"impl{params} {APPLY}<{self.renderer.type(value, inside)}> for %s{bracketed(types + consts)}{clause}"
        key = self.declared(crate, meaning, [Param("type", n) for n in types] + [Param("const", n) for n in consts])
        return Named(key, (*change.types, *(Constant(n) for n in change.consts)))

    def declared(self, crate: str, meaning: str, params: list[Param]) -> str:
        known = self.world.patterns
        if (crate, meaning) not in known:
            # A pattern has one name in all texts of a world.
            number = len(known) + 1
            known[(crate, meaning)] = Declaration("struct", f"pattern:{number}", crate, f"Pat{number}_", source="a pattern", params=params)
            self.world.add_special(known[(crate, meaning)])
        declaration = known[(crate, meaning)]
        self.world.meanings[declaration.name] = meaning.replace("%s", declaration.name)
        self.again([declaration.name])
        self.renderer.need(declaration.key)
        return declaration.key

    def again(self, names: list[str]) -> None:
        """Has patterns in this text."""
        self.log += names
        for name in names:
            if name not in self.patterns:
                self.patterns[name] = Pattern(self.world.get(self.world.named[name]), self.world.meanings[name])

    def lines(self, crate: str) -> Iterator[str]:
        """What the patterns of a crate mean."""
        for pattern in self.patterns.values():
            if crate_name(pattern.declaration.crate) == crate and pattern.declaration.key in self.renderer.structs:
                yield pattern.line
