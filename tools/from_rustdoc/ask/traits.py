"""The traits of a type, each with the bounds under which the type has it, as rustdoc shows them.

What is asked of: for a type of a crate the traits that rustdoc found for it, and those of which some crate has an impl that may be for it; for a
type of std, or a built-in one, the traits on its page of std's documents, and again those of the crates; and of each type the auto traits that
have names. Each impl is asked by itself, since one trait may have more with other arguments. A trait that no path names is counted, and not asked.
"""
from __future__ import annotations

from dataclasses import dataclass, field, replace
from typing import Iterator, Optional

from ..model.world import World
from ..read.html_docs import is_std_key
from ..read.terms import (ANY_HEAD, Array, BadInput, Bound, Constant, Declaration, Impl, Lossy, Named, Param, Parameter, Projection, Type, Unsayable,
                          argument_values, head_of, parameters_of, parts, put, put_bound)
from ..write.build import AUTO_TRAITS
from .back import Askable
from .conditions import Conditions, Finder, by_own_keys, read_open
from .questions import Question, QuestionReader

# The pages of built-in types, by the heads of types that have no name of their own.
PAGES = {"&": "reference", "&mut": "reference", "*const": "pointer", "*mut": "pointer", "[]": "slice", "[;]": "array", "!": "never", "tuple:0": "unit"}


@dataclass
class Traits:
    """`found` are the impls that the type has, by their bounds; `without` those of auto traits that it has not; `unsettled` those that are not
    settled; `unnamed` are the names of traits that no path names, of which nothing was asked."""
    question: Question
    found: list[Conditions] = field(default_factory=list)
    without: list[Conditions] = field(default_factory=list)
    unsettled: list[Conditions] = field(default_factory=list)
    unnamed: list[str] = field(default_factory=list)

    def summary(self) -> str:
        """What was found, and what was not asked."""
        counts = [f"{len(self.found)} {'trait holds' if len(self.found) == 1 else 'traits hold'}", f"{len(self.without)} auto traits do not",
                  f"{len(self.unsettled)} not settled"]
        more = f"; not asked: {', '.join(f'`{name}`' for name in self.unnamed)}, which no path names" if self.unnamed else ""
        return ", ".join(text for text, count in zip(counts, (1, len(self.without), 1)) if count) + more


class Lister:
    def __init__(self, world: World, finder: Finder) -> None:
        self.world = world
        self.finder = finder
        self.reader = QuestionReader(world)
        self.show = Askable(world)

    def of(self, written: str) -> Traits:
        """The traits of `[<params>] type [where clauses]`."""
        head, where, clauses = written.partition(" where ")
        question = self.one(read_open(self.reader, f"{head}: Sized{where}{clauses}"))
        if question.has_unknowns() or isinstance(question.subject, (Parameter, Projection)):
            raise BadInput(f"`{written}` is no type by its name: write one, as `Vec<T>`")
        question.subject = self.whole(question.subject)
        found = Traits(replace(question, written=written))
        for key in self.keys(question.subject):
            declaration = self.declared(key)
            if declaration is None or not (is_std_key(declaration.key) or declaration.public_path):
                found.unnamed.append(key.split("::")[-1].split(".")[-1])
                continue
            for asked in self.questions(question, declaration):
                conditions = self.finder.find(asked)
                if conditions.word == "yes":
                    found.found.append(conditions)
                elif conditions.word == "not settled":
                    found.unsettled.append(conditions)
                elif declaration.is_auto:
                    found.without.append(conditions)
        return found

    @staticmethod
    def one(questions: list[Question]) -> Question:
        (found,) = questions
        return found

    def whole(self, term: Type) -> Type:
        """The type with the arguments that were left to defaults."""
        if not isinstance(term, Named):
            return term
        params = self.world.get(term.key, "struct", term.arguments).params
        return Named(term.key, tuple(argument_values(params, term.arguments)[param.name] for param in params))

    def declared(self, key: str) -> Optional[Declaration]:
        try:
            found = self.world.get(key)
        except Lossy:
            return None
        return None if found.is_opaque else found

    # ---- which traits
    def keys(self, subject: Type) -> list[str]:
        """The traits that may be the type's, by their keys."""
        of_crates = [key for key in self.traits_of_crates() if next(self.impls(key, subject, of_std=False), None) is not None]
        autos = [key for page in AUTO_TRAITS.values() for key in [self.world.pages.key(page)] if key]
        return sorted(dict.fromkeys(map(self.world.key_of, [*self.shown(subject), *of_crates, *autos])), key=self.order)

    def shown(self, subject: Type) -> list[str]:
        """The traits that the type's own documents have."""
        if isinstance(subject, Named) and not is_std_key(subject.key):
            home = self.world.homes.get(subject.key)
            return home.traits_of.get(subject.key, []) if home is not None else []
        pages, head = self.world.pages, head_of(subject)
        if isinstance(subject, Named):
            return self.world.standard.traits_on(pages.own_page(subject.key))
        name = head[len("prim:"):] if head.startswith("prim:") else PAGES.get(head) or head.partition(":")[0]
        return self.world.standard.traits_on(f"core/primitive.{name}.html")

    def traits_of_crates(self) -> list[str]:
        if not self.world.by_trait:
            self.world.find_impls()
        return list(self.world.by_trait)

    def order(self, key: str) -> tuple[bool, str]:
        """The crates' own traits first, and then by their names."""
        return is_std_key(key), key.split(".")[-1].split("::")[-1]

    # ---- what is asked
    def questions(self, question: Question, trait: Declaration) -> Iterator[Question]:
        """What asks for each impl of the trait that may be for the type."""
        if trait.is_auto or not trait.params:
            yield self.asked(question, Bound(trait.key), [])
            return
        done: set[Bound] = set()
        for impl in self.impls(trait.key, question.subject):
            assert impl.trait is not None
            values: dict[str, Type] = {}
            matched(impl.self_type, question.subject, {param.name for param in impl.params}, values)
            bound, further = self.instance(impl, values, {param.name for param in question.params})
            given = argument_values(trait.params, bound.arguments)
            bound = replace(bound, arguments=tuple(put(given[param.name], {"Self": question.subject}) for param in trait.params))
            if bound not in done and not any(isinstance(term, Unsayable) for term in bound.arguments):
                done.add(bound)
                yield self.asked(question, bound, further, unsized_in(impl, values, further))

    def impls(self, key: str, subject: Type, of_std: bool = True) -> Iterator[Impl]:
        head = head_of(subject)
        of_docs = self.world.standard.impls_with_head(key, head) if of_std and is_std_key(key) else []
        for impl in (by_own_keys(self.world, one) for one in (*of_docs, *self.world.impls_of(key, head))):
            is_of_trait = impl.trait is not None and impl.trait.key == key and not impl.is_negative
            if is_of_trait and matched(impl.self_type, subject, {param.name for param in impl.params}, {}):
                yield impl

    @staticmethod
    def instance(impl: Impl, values: dict[str, Type], taken: set[str]) -> tuple[Bound, list[Param]]:
        """The impl's trait for the type, with parameters of new names for those that the type leaves open."""
        assert impl.trait is not None
        further: list[Param] = []
        open_ones = set().union(*map(parameters_of, impl.trait.arguments))
        for param in impl.params:
            if param.name not in values and param.name in open_ones:
                name = next(name for name in (param.name, *(f"{param.name}{number}" for number in range(1, 100))) if name not in taken)
                values[param.name] = Constant(name) if param.kind == "const" else Parameter(name)
                further.append(Param(param.kind, name))
        return put_bound(impl.trait, values), further

    def asked(self, question: Question, bound: Bound, further: list[Param], predicates: Optional[list[tuple[Type, Bound]]] = None) -> Question:
        params = [*question.params, *further]
        names = ", ".join(f"const {param.name}" if param.kind == "const" else param.name for param in params)
        written = f"{f'<{names}> ' if names else ''}{self.show.type(question.subject)}: {self.show.bound(bound)}"
        return replace(question, written=written, bound=bound, params=params, predicates=[*question.predicates, *(predicates or [])], lines=[], names={})


def unsized_in(impl: Impl, values: dict[str, Type], further: list[Param]) -> list[tuple[Type, Bound]]:
    """Which of the further parameters may be unsized, as the impl says."""
    names = {param.name for param in further}
    return [(term, bound) for subject, bound in impl.predicates if bound.maybe for term in [put(subject, values)]
            if isinstance(term, Parameter) and term.name in names]


def matched(pattern: Type, term: Type, params: set[str], values: dict[str, Type]) -> bool:
    """Whether the term may be an instance of the pattern, whose parameters get their values. The term's own parameters are themselves alone."""
    if isinstance(pattern, Parameter) and pattern.name in params:
        return values.setdefault(pattern.name, term) == term
    if isinstance(pattern, Projection):
        return True
    if isinstance(pattern, Constant) and pattern.text.strip("{} ") in params:
        return values.setdefault(pattern.text.strip("{} "), term) == term
    if isinstance(pattern, Array) and isinstance(term, Array) and pattern.length.strip("{} ") in params:
        length = Constant(term.length)
        return values.setdefault(pattern.length.strip("{} "), length) == length and matched(pattern.element, term.element, params, values)
    if head_of(pattern) == ANY_HEAD or not parts(pattern):
        return pattern == term or head_of(pattern) == ANY_HEAD and not isinstance(pattern, Parameter)
    left, right = parts(pattern), parts(term)
    return head_of(pattern) == head_of(term) and len(left) <= len(right) and all(matched(one, other, params, values) for one, other in zip(left, right))
