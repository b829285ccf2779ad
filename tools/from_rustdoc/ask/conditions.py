"""Under which bounds a query holds: `Vec<T>: Send` does where `T: Send`.

The goal of the query that failed first becomes a bound of the next query, until there is a proof. Then each bound that is not needed with
the others is left out. So the bounds suffice, by what the last answer rests on, and without one of them there is no proof.

A goal is taken as a bound if it is about a parameter, an associated type of one, or a reference to these; or if some impl may have it for some of
its types. Any other goal holds for no parameters, and the query needs it: there are no bounds then.
"""
from __future__ import annotations

from dataclasses import dataclass, field, replace
from typing import Iterator, Optional

from ..model.world import World
from ..read.headers import NotUnderstood
from ..read.html_docs import is_std_key
from ..read.terms import (Alias, BadInput, BoundsOf, Impl, Lossy, Named, Parameter, Predicate, Projection, Reference, Type, Unknown, head_of, parameters_of,
                          parts, rebuilt, rebuilt_bound, walk)
from .answer import Answerer
from .back import Askable
from .program import explaining
from .questions import Question, QuestionReader, Undeclared, Verdict, terms_of
from .reasons import Explainer

# What may be any type; an alias of another crate is not looked into.
OPEN = (Parameter, Projection, Unknown, BoundsOf, Alias)
# So many bounds are taken at most.
MAXIMAL_BOUNDS = 12


@dataclass
class Conditions:
    """`word` is yes, with the bounds (none if the query holds as it is), no if no bounds help, or not settled. `verdict` is the
    answer under the bounds, or to the last query that had none, and `because` says why there are none."""
    question: Question
    word: str
    verdict: Verdict
    bounds: list[Predicate] = field(default_factory=list)
    because: str = ""

    @property
    def basis(self) -> str:
        return self.verdict.basis


def read_open(reader: QuestionReader, written: str) -> list[Question]:
    """Queries in which words that look like type parameters need not be declared."""
    try:
        return reader.read_all(written)
    except Undeclared as error:
        return reader.read_all(error.declared)


class Finder:
    """Finds conditions, by the programs that are named, else by those that are here."""

    def __init__(self, world: World, program: Optional[str] = None, program_that_explains: Optional[str] = None) -> None:
        self.world = world
        self.answerer = Answerer(world, program)
        self.explaining = explaining(program_that_explains)
        self.show = Askable(world)

    def find(self, question: Question) -> Conditions:
        if self.explaining is None:
            raise BadInput("conditions are found by the program that explains, and no proved one of these sources is here: `--program-that-explains` names one")
        if question.has_unknowns():
            raise BadInput(f"`{question.written}` has variables: conditions are bounds on parameters, as `<T> Vec<T>: Send` has")
        bounds: list[Predicate] = []
        while True:
            verdict = self.answerer.answer(under(question, bounds))
            if verdict.word == "yes":
                bounds, verdict = self.needed(question, bounds, verdict)
                return Conditions(question, "yes", verdict, bounds)
            if verdict.word == "not settled":
                return Conditions(question, "not settled", verdict, bounds, verdict.basis)
            goal = self.failed(verdict)
            goal = owner_of(goal, [*question.predicates, *bounds]) or goal if goal is not None else None
            why = self.unfit(goal, question, bounds)
            if why is not None or goal is None:
                word = "not settled" if goal is None or goal in bounds or len(bounds) >= MAXIMAL_BOUNDS else "no"
                return Conditions(question, word, verdict, bounds, why or "")
            bounds.append(goal)

    def failed(self, verdict: Verdict) -> Optional[Predicate]:
        """The goal that failed first. None if the explanation cannot be read."""
        if verdict.asked is None:
            return None
        try:
            explainer = Explainer(verdict.asked, "upper", self.explaining)
            told = explainer.refusal()
            goals = explainer.chain(told)[0] if told is not None else []
            return explainer.predicate(goals[0]) if goals else None
        except (BadInput, Lossy, NotUnderstood):
            return None

    def unfit(self, goal: Optional[Predicate], question: Question, bounds: list[Predicate]) -> Optional[str]:
        """Why the goal cannot be a bound. None if it can."""
        if goal is None:
            return "what the program says of it cannot be read back"
        shown = f"`{self.shown(goal)}`"
        if goal in bounds:
            return f"{shown} was taken as a bound, and fails all the same"
        if len(bounds) >= MAXIMAL_BOUNDS:
            return f"after {MAXIMAL_BOUNDS} bounds {shown} fails"
        names = {param.name for param in question.params}
        if not names & parameters_in(goal):
            return f"{shown} does not hold"
        if is_of_parameter(goal[0]):
            return None
        impls = list(self.impls_for(goal))
        if not impls:
            return f"{shown} holds for no {' and '.join(f'`{name}`' for name in sorted(names & parameters_in(goal)))}"
        if self.shown(goal) == self.shown((question.subject, question.bound)):
            return f"{shown} has impls for some of its types alone, as `{self.show.header(impls[0])}`"
        return None

    def impls_for(self, goal: Predicate) -> Iterator[Impl]:
        """The impls that may have the goal for some of its types. A parameter of the goal stands for any type, each time that it is there."""
        subject, bound = goal
        head = head_of(subject)
        found = self.world.standard.impls_with_head(bound.key, head) if is_std_key(bound.key) else []
        for impl in (by_own_keys(self.world, one) for one in (*found, *self.world.impls_of(bound.key, head))):
            params, values = {param.name for param in impl.params}, dict[str, Type]()
            if impl.trait is not None and not impl.is_negative and meets(impl.self_type, subject, params, values) and all(
                    meets(pattern, term, params, values) for pattern, term in zip(impl.trait.arguments, bound.arguments)):
                yield impl

    def needed(self, question: Question, bounds: list[Predicate], verdict: Verdict) -> tuple[list[Predicate], Verdict]:
        """The bounds without those that are not needed. (The last one was needed with all others.) One that another one cannot be written
        without stays."""
        for bound in bounds[:-1]:
            fewer = [one for one in bounds if one != bound]
            if any(owner_of(one, [*question.predicates, *fewer]) for one in fewer):
                continue
            other = self.answerer.answer(under(question, fewer))
            if other.word == "yes":
                bounds, verdict = fewer, other
        return bounds, verdict

    def shown(self, goal: Predicate) -> str:
        subject, bound = goal
        return f"{self.show.type(subject)}: {self.show.bound(bound)}"


def by_own_keys(world: World, impl: Impl) -> Impl:
    """The impl with the own keys of items in its header, which another crate names by others."""
    def own(term: Type) -> Type:
        term = rebuilt(term, own)
        return Named(world.key_of(term.key), term.arguments) if isinstance(term, Named) else term

    trait = replace(rebuilt_bound(impl.trait, own), key=world.key_of(impl.trait.key)) if impl.trait is not None else None
    return replace(impl, self_type=own(impl.self_type), trait=trait)


def under(question: Question, bounds: list[Predicate]) -> Question:
    """The query with further bounds, as it was read."""
    return replace(question, predicates=[*question.predicates, *bounds], lines=[], names={}, whole=True)


def parameters_in(goal: Predicate) -> set[str]:
    subject, bound = goal
    return set().union(*(parameters_of(term) for term in (subject, *terms_of(bound))))


def owner_of(goal: Predicate, known: list[Predicate]) -> Optional[Predicate]:
    """Of a goal about an associated type of a parameter the bound that says that there is one, if it is not known: it is needed before."""
    subject, bound = goal
    for part in (part for term in (subject, *terms_of(bound)) for part in walk(term)):
        if isinstance(part, Projection) and part.bound is not None and is_of_parameter(part.subject):
            owner = (part.subject, replace(part.bound, constraints=()))
            if owner not in [(term, replace(one, constraints=())) for term, one in known]:
                return owner
    return None


def is_of_parameter(term: Type) -> bool:
    """Whether it is a parameter, an associated type of one, or a reference to these."""
    while isinstance(term, (Reference, Projection)):
        term = term.target if isinstance(term, Reference) else term.subject
    return isinstance(term, Parameter)


def meets(pattern: Type, term: Type, params: set[str], values: dict[str, Type]) -> bool:
    """Whether the term may be an instance of the pattern, for some types in place of the term's parameters."""
    if isinstance(pattern, Parameter) and pattern.name in params:
        return may_be(values.setdefault(pattern.name, term), term)
    if any(isinstance(part, OPEN) for part in (pattern, term)):
        return True
    # (Arguments that are left to defaults are in one of both alone.)
    return head_of(pattern) == head_of(term) and all(meets(one, other, params, values) for one, other in zip(parts(pattern), parts(term)))


def may_be(left: Type, right: Type) -> bool:
    """Whether both may be one type, whatever is put for parameters and associated types."""
    if any(isinstance(term, OPEN) for term in (left, right)):
        return True
    return head_of(left) == head_of(right) and all(map(may_be, parts(left), parts(right)))
