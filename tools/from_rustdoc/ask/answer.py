"""Answers to queries, each by a text of its own. The values of associated types that it names are queried before it."""
from __future__ import annotations

from dataclasses import replace
from typing import Iterator, Optional

from ..model.show import Show
from ..model.world import World
from ..read.terms import Bound, BoundsOf, Lossy, Param, Parameter, Projection, Type, Unknown, parts, put, rebuilt, rebuilt_bound, walk
from ..write.build import Translation
from ..write.render import Scope, names_of
from .back import Askable
from .cone import MOST, Chosen, cone_of_questions
from .questions import OWN, Asker, Question, QuestionWriter, TooSmall, Verdict, joined, terms_of
from .rules import Reference_

MAXIMAL_STEPS = 20


class Answerer:
    def __init__(self, world: World, program: Optional[str] = None) -> None:
        self.world = world
        self.program = program
        self.show = Show(world)

    def answer(self, question: Question) -> Verdict:
        try:
            verdict = joined(question, [self.by_values(one) for one in self.divided(question)])
            if verdict.word == "maybe":
                return self.of_each(question) or verdict
            other = self.other_value(question) if verdict.word in ("no", "unproved") else ""
            return replace(verdict, because=other, is_explained=False) if other else verdict
        except Lossy as error:
            return Verdict(question, "not settled", f"the text cannot say the question: {error}")

    def of_each(self, question: Question) -> Optional[Verdict]:
        """A yes where the bound holds whatever the variables of its subject are: they are parameters then."""
        of_bound = {part.name for term in terms_of(replace(question.bound, constraints=())) for part in walk(term) if isinstance(part, Unknown)}
        names = {part.name for part in walk(question.subject) if isinstance(part, Unknown)} - of_bound - {param.name for param in question.params}
        if not names or question.predicates:
            return None

        def changed(term: Type) -> Type:
            return Parameter(term.name) if isinstance(term, Unknown) and term.name in names else rebuilt(term, changed)

        general = replace(question, subject=changed(question.subject), bound=rebuilt_bound(question.bound, changed), lines=[], names={},
                          params=[*question.params, *(Param("type", name) for name in sorted(names))])
        verdict = joined(general, [self.by_values(one) for one in self.divided(general)])
        back: dict[str, Type] = {name: Unknown(name) for name in names}
        found = {name: put(value, back) for name, value in verdict.found.items()}
        show = Askable(self.world)
        values = ", ".join(f"?{name} = {show.type(value)}" for name, value in found.items())
        return replace(verdict, question=question, found=found, values=values) if verdict.word == "yes" else None

    def divided(self, question: Question) -> Iterator[Question]:
        """`X: Iterator<Item: Debug>` as `X: Iterator` and `<X as Iterator>::Item: Debug`."""
        bounds = [(name, value) for name, value in question.bound.constraints if isinstance(value, BoundsOf)]
        equations = tuple(c for c in question.bound.constraints if not isinstance(c[1], BoundsOf))
        yield replace(question, bound=replace(question.bound, constraints=equations))
        plain = replace(question.bound, constraints=())
        for name, value in bounds:
            for bound in value.bounds:
                yield from self.divided(replace(question, subject=Projection(question.subject, plain, name), bound=bound))

    def by_values(self, question: Question) -> Verdict:
        """The answer, with the values put in of the associated types that no where-clause names."""
        steps: list[Verdict] = []
        because = ""
        for _ in range(MAXIMAL_STEPS):
            found = Values(self.world, question).unnamed()
            if found is None:
                verdict = joined(question, [*steps, self.by_part(question)])
                return replace(verdict, because=because) if verdict.word in ("no", "unproved") else verdict
            place, scope = found
            verdict = self.by_part(self.of_value(question, place))
            if verdict.word != "yes":
                goal = f"`{self.show.type(place.subject)}: {self.owner(place)}`"
                return replace(verdict, question=question, basis=f"{goal}: {verdict.basis}", because=f"{goal} does not hold")
            if OWN not in verdict.found:
                raise Lossy(f"the value of `{self.show.type(place)}`")
            steps.append(replace(verdict, values="", found={}))
            because = f"`{self.show.type(place)}` is `{Askable(self.world).type(verdict.found[OWN])}`"
            question = scope.put_in(question, place, verdict.found[OWN])
        raise Lossy("too many associated types")

    def of_value(self, question: Question, place: Projection) -> Question:
        """What the associated type is."""
        assert place.bound is not None
        written = f"{self.show.type(place.subject)}: {self.owner(place)}<{place.name} = ?{OWN}>"
        return replace(question, written=written, subject=place.subject, bound=replace(place.bound, constraints=((place.name, Unknown(OWN)),)))

    def other_value(self, question: Question) -> str:
        """Where the bound fails by the value that it gives an associated type: which it has."""
        for name, value in question.bound.constraints:
            if not isinstance(value, BoundsOf) and not question.has_unknowns():
                verdict = self.by_values(self.of_value(question, Projection(question.subject, replace(question.bound, constraints=()), name)))
                if verdict.word == "yes" and verdict.found.get(OWN, value) != value:
                    return f"its `{name}` is `{Askable(self.world).type(verdict.found[OWN])}`"
        return ""

    def owner(self, place: Projection) -> str:
        assert place.bound is not None
        return self.show.bound(place.bound)

    def by_part(self, question: Question) -> Verdict:
        """The answer by a text of what may matter for this query alone. If such a text leads to references that were not looked for, because of
        a variable, they are added."""
        question = replace(question, lines=[], names={})
        further: list[Reference_] = []
        while True:
            translation = cone_of_questions(self.world, [question], further)
            translation.build()
            try:
                return Asker(translation, self.program).ask([question])[0]
            except TooSmall as error:
                if set(error.references) <= set(further) or len(further) > MOST:
                    raise
                further += error.references


class Values:
    """The associated types of one query: which of them have names by its where-clauses."""

    def __init__(self, world: World, question: Question) -> None:
        translation = Translation(world, cone=Chosen())
        translation.roots = question.roots()
        translation.begin()
        self.renderer = translation.renderer
        self.question = question
        writer = QuestionWriter(translation)
        question.of_crate = question.of_crate or question.crate or writer.asker(question)
        self.scope = Scope("", {})
        self.renderer.grew = True
        while self.renderer.grew:
            # A clause brings the values that are spoken of; each round may speak of more.
            self.renderer.grew = False
            self.scope, _ = writer.where(question, names_of(question.params))
            for term in self.terms():
                for place in self.places(term):
                    assert place.bound is not None
                    self.renderer.companion(self.renderer.need(place.bound.key, "trait", place.bound.arguments), place.name)

    def terms(self) -> Iterator[Type]:
        for root in (self.question.subject, self.question.bound):
            yield from terms_of(root)

    def places(self, term: Type) -> Iterator[Projection]:
        """The associated types in a term, those inside of others first."""
        for part in parts(term):
            yield from self.places(part)
        if isinstance(term, Projection):
            place = self.renderer.resolved(term, self.scope)
            assert isinstance(place, Projection)
            yield place

    def unnamed(self) -> Optional[tuple[Projection, Values]]:
        """One without a name, in which each other one has a name."""
        for term in self.terms():
            for place in self.places(term):
                if place not in self.scope.projections:
                    return place, self
        for root in (x for p in self.question.predicates for x in p):
            for term in terms_of(root):
                for place in self.places(term):
                    if not self.is_of_parameter(place):
                        return place, self
        return None

    def is_of_parameter(self, place: Projection) -> bool:
        """Whether a where-clause may speak of it: it gets a name by that."""
        return isinstance(place.subject, Parameter) or isinstance(place.subject, Projection) and self.is_of_parameter(place.subject)

    def put_in(self, question: Question, place: Projection, value: Type) -> Question:
        """The query with the value for the associated type."""
        def changed(term: Type) -> Type:
            term = rebuilt(term, changed)
            if isinstance(term, Projection) and term.name == place.name:
                try:
                    return value if self.renderer.resolved(term, self.scope) == place else term
                except Lossy:
                    return term
            return term

        def changed_bound(bound: Bound) -> Bound:
            return rebuilt_bound(bound, changed)

        return replace(question, subject=changed(question.subject), bound=changed_bound(question.bound),
                       predicates=[(changed(t), changed_bound(b)) for t, b in question.predicates])
