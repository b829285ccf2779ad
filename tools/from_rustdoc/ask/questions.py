"""Queries as Rust writes them, as lines of both texts, and one answer made of the program's two answers."""
from __future__ import annotations

import re
from dataclasses import dataclass, field, replace
from typing import Callable, Optional

from ..model.show import Show
from ..model.world import World, crate_name
from ..read.headers import FLOATS, PRIMITIVES, Named_, NotUnderstood, Reader
from ..read.html_docs import is_std_key
from ..read.standard import FN_TRAITS
from ..read.terms import (Alias, BadInput, Bound, BoundsOf, Declaration, Dyn, Lossy, Param, Parameter, Predicate, Projection, Type, Unknown, Unsayable,
                          argument_values, keys_of, put, put_bound, rebuilt, rebuilt_bound, walk)
from ..write.build import Translation
from ..write.checker import check_texts
from ..write.impls import ImplWriter
from ..write.render import CLAUSE, MAXIMAL_PARAMS, QUESTION, THEN, Scope, bracketed, is_sizedness, names_of
from ..write.text_form import Text, TextLine, read_text
from .assume import Assumed, Assumer, Candidate, asked_goal, with_clauses
from .back import Back
from .names import Names, NotKnown
from .negative import Negatives
from .program import DEPTH, Answer, ask
from .reach import Reach, Reacher
from .rules import BY_PARTS, Reference_
from .well_formed import Fitting

MAXIMAL_ROUNDS = 6


# The unknown that the tool itself puts for a value that it asks for.
OWN = "value_"


@dataclass(frozen=True)
class Asked:
    """A bound of a query, as lines of the texts. `refute` is empty if there is none."""
    prove: str
    refute: str = ""


@dataclass
class Question:
    """A query with its lines: one for the trait, and one for the value of each associated type that the bound speaks of. `names` is what
    the names of its lines stand for. `whole` is false where a where-clause, or the value of a projection, could not be said."""
    written: str
    subject: Type
    bound: Bound
    params: list[Param] = field(default_factory=list)
    predicates: list[Predicate] = field(default_factory=list)
    crate: str = ""
    of_crate: str = ""
    lines: list[Asked] = field(default_factory=list)
    names: dict[str, Type] = field(default_factory=dict)
    whole: bool = True

    @property
    def prove(self) -> str:
        return self.lines[0].prove

    @property
    def refute(self) -> str:
        return self.lines[0].refute

    def roots(self) -> list[Type | Bound]:
        return [self.subject, self.bound, *(x for p in self.predicates for x in p)]

    def has_unknowns(self) -> bool:
        """Whether `?x` was written."""
        return any(isinstance(part, Unknown) and part.name != OWN for root in self.roots() for term in terms_of(root) for part in walk(term))


def terms_of(root: Type | Bound) -> tuple[Type, ...]:
    return root.arguments + tuple(value for _, value in root.constraints) if isinstance(root, Bound) else (root,)


@dataclass(frozen=True)
class InText:
    """A query as it was asked: `names` is what names of its lines stand for, `lines` are the lines of the upper and of the lower text."""
    translation: Translation
    crate: str
    names: dict[str, Type]
    lines: dict[str, str]


@dataclass
class Verdict:
    """`word` is yes, no, unproved, maybe or not settled; `basis` says on what it rests. `values` are those of variables as Rust writes them, `found`
    as types. `asked` is the query as it was asked, of several that one that decides. `because` is a reason that no explanation has; `is_explained` says that
    the program's own counts next to it."""
    question: Question
    word: str
    basis: str = ""
    rests_on: list[str] = field(default_factory=list)
    values: str = ""
    found: dict[str, Type] = field(default_factory=dict)
    asked: Optional[InText] = None
    because: str = ""
    is_explained: bool = True

    def show(self) -> str:
        tail = (f" {self.values}" if self.values else "") + (f"   ({self.basis})" if self.basis else "")
        return f"{self.question.written}    {self.word}{tail}" + "".join(f"\n    rests on {line}" for line in self.rests_on)


BY_LAW = "by law"
MAYBE = "both texts leave open what the unknowns stand for"


class Undeclared(BadInput):
    """A word that looks like a type parameter is none; `declared` is the query with parameters for all such words."""

    def __init__(self, word: str, declared: str) -> None:
        super().__init__(f"`{word}` is not known: declare it: `{declared}`")
        self.declared = declared


class TooSmall(BadInput):
    """The text is a part of the crates in which references that it leads to were not looked for."""

    def __init__(self, told: str, references: list[Reference_]) -> None:
        super().__init__(told)
        self.references = references


def joined(question: Question, verdicts: list[Verdict]) -> Verdict:
    """One verdict on a query that holds if all of these do: yes if all are, else the first that makes it fail."""
    for word in ("no", "unproved", "not settled", "maybe"):
        for verdict in verdicts:
            if verdict.word == word:
                return replace(verdict, question=question)
    basis = next((v.basis for v in verdicts if v.basis != BY_LAW), BY_LAW)
    values = ", ".join(dict.fromkeys(v.values for v in verdicts if v.values))
    found = {name: value for v in verdicts for name, value in v.found.items()}
    return Verdict(question, "yes", basis, [line for v in verdicts for line in v.rests_on], values, found, verdicts[-1].asked if verdicts else None)


class QuestionReader:
    def __init__(self, world: World) -> None:
        self.world = world
        self.names = Names(world)
        self.fitting = Fitting(world)

    def lookup(self, words: list[str], params: set[str], reader: Reader) -> Named_:
        if len(words) == 1 and (words[0] in params or words[0] in PRIMITIVES or words[0] in FLOATS or words[0] == "_"):
            return "word", None, words[0]
        try:
            key = self.names.key(words, reader.wants_trait)
        except NotKnown:
            undeclared = self.undeclared(reader, params) if len(words) == 1 and not reader.wants_trait else []
            if words[0] not in undeclared:
                raise
            raise Undeclared(words[0], self.declared(reader.text, undeclared))
        declaration = self.world.get(key)
        return ("trait" if declaration.is_trait else "type" if declaration.kind == "type" else "struct"), key, declaration.name

    def undeclared(self, reader: Reader, params: set[str]) -> list[str]:
        """Words that look like type parameters, and name nothing."""
        words = dict.fromkeys(value for kind, value in reader.tokens if kind == "word" and re.fullmatch("[A-Z][A-Z0-9]?", value))
        return [word for word in words if word not in params and not self.names.of_word(word)]

    @staticmethod
    def declared(written: str, names: list[str]) -> str:
        """The query with further parameters."""
        reader = Reader(written, lambda words: ("word", None, words[-1]), unknowns=True)
        new = ", ".join(names)
        return f"<{new}, {written.lstrip()[1:].lstrip()}" if reader.has_generics() else f"<{new}> {written.lstrip()}"

    def read(self, written: str) -> Question:
        """A query by one bound."""
        questions = self.read_all(written)
        if len(questions) > 1:
            raise BadInput(f"`{written}` is {len(questions)} questions")
        return questions[0]

    def read_all(self, written: str) -> list[Question]:
        """`[<params>] type: bound [+ bound ..] [where clauses]`, with `?x` for variables: a query for each bound."""
        params: set[str] = set()
        reader = Reader(written, lambda words: self.lookup(words, params, reader), unknowns=True, params=params)
        try:
            params |= self.parameter_names(written)
            generics, predicates = reader.generics() if reader.has_generics() else ([], [])
            subject = reader.type()
            reader.need(":")
            start, bounds = reader.place(), self.bounds(reader)
            end = reader.place()
            if reader.eat("where"):
                predicates += reader.where()
            if not reader.at_end():
                raise NotUnderstood(f"`{reader.peek()[1]}` is too much")
        except NotUnderstood as error:
            raise BadInput(f"the question `{written}` is not understood: {error}")
        self.fitting.all(subject, [bound for bound, _ in bounds], predicates)
        subject, predicates = self.plain(subject), [(self.plain(t), self.plain_bound(b)) for t, b in predicates]
        return [Question(written if len(bounds) == 1 else f"{written[:start]}{text} {written[end:]}".strip(), subject, self.plain_bound(bound), generics,
                         list(predicates)) for bound, text in bounds]

    def bounds(self, reader: Reader) -> list[tuple[Bound, str]]:
        """The bounds that are asked, each as it is written."""
        found: list[tuple[Bound, str]] = []
        while True:
            place = reader.place()
            bound = reader.bound()
            if bound is not None and is_sizedness(bound):
                raise NotUnderstood("`?Sized` asks nothing")
            if bound is not None and not self.world.get(bound.key).is_trait:
                raise NotUnderstood(f"`{reader.text[place:reader.place()].strip()}` is no trait")
            if bound is not None:
                found.append((bound, reader.text[place:reader.place()].strip()))
            if not reader.eat("+"):
                break
        if not found:
            raise NotUnderstood("it asks for no trait")
        return found

    @staticmethod
    def parameter_names(written: str) -> set[str]:
        reader = Reader(written, lambda words: ("struct", words[-1], words[-1]), unknowns=True)
        return {p.name for p in reader.generics()[0]} if reader.has_generics() else set()

    def plain(self, term: Type) -> Type:
        """The type without aliases."""
        if isinstance(term, Alias):
            declaration = self.world.get(term.key)
            return self.plain(put(declaration.fields[0], argument_values(declaration.params, term.arguments)))
        return rebuilt(term, self.plain)

    def plain_bound(self, bound: Bound) -> Bound:
        return rebuilt_bound(bound, self.plain)


class QuestionWriter:
    def __init__(self, translation: Translation) -> None:
        self.translation = translation
        self.renderer = translation.renderer
        self.world = translation.world

    def asker(self, question: Question) -> str:
        """The crate that asks: that of the subject, else of the trait, if it sees all names; else the last one that does."""
        terms = [term for root in question.roots() for term in terms_of(root)]
        keys = [key for term in terms for key in keys_of(term)]
        keys += [bound.key for bound in (question.bound, *(b for _, b in question.predicates))]
        keys += [part.bound.key for term in terms for part in walk(term) if isinstance(part, Projection) and part.bound is not None]
        named = [self.world.get(key).crate for key in keys if not key.startswith(("?", "prim:", "tuple:", "fn:"))]
        ours = [c for c in named if c in self.world.crates]
        for crate in ours + list(reversed(self.world.crates)):
            seen, todo = {crate}, [crate]
            while todo:
                for used in self.world.uses.get(todo.pop(), []):
                    if used not in seen:
                        seen.add(used)
                        todo.append(used)
            if all(c in seen for c in ours):
                return crate
        raise Lossy("no crate of the text sees all that the question names")

    def write(self, question: Question) -> None:
        question.whole = True
        names = names_of(question.params)
        scope, clauses = self.where(question, names)
        goals = self.goals(question, scope)
        types = [names[p.name] for p in question.params if p.kind == "type"] + scope.fresh
        params = types + ["const " + names[p.name] for p in question.params if p.kind == "const"]
        if len(params) > MAXIMAL_PARAMS:
            raise Lossy("more than 64 parameters")
        where = f" where {', '.join(dict.fromkeys(clauses))}" if clauses else ""
        question.of_crate = question.of_crate or question.crate or self.asker(question)
        question.crate = crate_name(question.of_crate)
        question.names = {text: place for place, (text, _) in scope.projections.items()} | {text: Parameter(name) for name, text in names.items()}
        head = f"in {question.crate} {bracketed(params)}".strip()
        question.lines = [Asked(f"prove {head} {goal}{where}", "" if params else f"refute {head} {goal}") for goal in goals]

    def where(self, question: Question, names: dict[str, str]) -> tuple[Scope, list[str]]:
        """The where-clauses as the text has them, and the scope in which the values of associated types have names."""
        predicates = ImplWriter.with_inner_bounds(question.predicates)
        scope = Scope(QUESTION, names, predicates=predicates)
        unsized = {t.name for t, b in question.predicates if is_sizedness(b) and isinstance(t, Parameter)}
        clauses = [f"{names[p.name]}: Sized" for p in question.params if p.kind == "type" and p.name not in unsized]
        for subject, bound in predicates:
            for name, value in bound.constraints:
                if not isinstance(value, BoundsOf):
                    clauses += self.tried(question, lambda: self.translation.impl_writer.equation(subject, bound, name, value, scope))
        for subject, bound in predicates:
            if not is_sizedness(bound):
                clauses += self.tried(question, lambda: self.clause(subject, bound, scope))
                clauses += self.any_clauses(subject, bound, scope)
                self.values(question, subject, bound, scope, clauses)
        scope.is_closed = True
        return scope, clauses + scope.extra

    def goals(self, question: Question, scope: Scope) -> list[str]:
        """What is asked: the trait, and the value of each associated type that the bound names."""
        plain = replace(question.bound, constraints=())
        declaration = self.renderer.need(plain.key, "trait", plain.arguments)
        goals = [f"{self.renderer.type(question.subject, scope)}: {self.renderer.bound(declaration, plain, scope, question.subject)}"]
        projector = self.translation.impl_writer.projector
        for name, value in question.bound.constraints:
            place = self.renderer.resolved(Projection(question.subject, plain, name), scope)
            assert isinstance(place, Projection)
            goals.append(projector.text(projector.equation(place, self.renderer.resolved(value, scope)), scope))
        return goals

    @staticmethod
    def tried(question: Question, write: Callable[[], str]) -> list[str]:
        try:
            return [write()]
        except Lossy:
            question.whole = False
            return []

    def any_clauses(self, subject: Type, bound: Bound, scope: Scope) -> list[str]:
        """Of a clause by `FnMut`: that the subject is `FnMut` and `FnOnce` at all."""
        try:
            declaration = self.renderer.need(bound.key, "trait", bound.arguments)
            if not self.renderer.is_fn_trait(declaration):
                return []
            below = FN_TRAITS[:FN_TRAITS.index(declaration.name) + 1]
            known = [d for d in self.renderer.traits.values() if self.renderer.is_fn_trait(d) and d.key in self.renderer.anys and d.name in below]
            return [f"{self.renderer.type(subject, scope)}: {self.renderer.any_name(d)}" for d in known]
        except Lossy:
            return []

    def clause(self, subject: Type, bound: Bound, scope: Scope) -> str:
        declaration = self.renderer.need(bound.key, "trait", bound.arguments)
        return f"{self.renderer.type(subject, scope)}: {self.renderer.bound(declaration, bound, scope, subject)}"

    def values(self, question: Question, subject: Type, bound: Bound, scope: Scope, clauses: list[str], depth: int = 0) -> None:
        """A clause by a trait with associated types brings their values: a fresh parameter for each that the text speaks of, with the
        bounds that the trait declares of it."""
        try:
            declaration = self.renderer.need(bound.key, "trait", bound.arguments)
            values = {name: put(value, {"Self": subject}) for name, value in argument_values(declaration.params, bound.arguments).items()}
            values["Self"] = subject
            for name in sorted(declaration.associated):
                if (declaration.key, name) in self.renderer.companions:
                    place = self.renderer.resolved(Projection(subject, Bound(bound.key, bound.arguments), name), scope)
                    is_new = place not in scope.projections
                    self.renderer.type(place, scope)
                    if is_new:
                        bounds = [put_bound(b, values) for b in declaration.item_bounds.get(name, [])]
                        self.item_clauses(question, place, bounds, scope, clauses, depth)
            for above in declaration.supers:
                if depth < 6 and not is_sizedness(above):
                    if not self.is_said(declaration, above):
                        clauses += self.tried(question, lambda: self.clause(subject, put_bound(above, values), scope))
                    self.fixed_values(question, subject, put_bound(above, values), scope, clauses)
                    self.values(question, subject, put_bound(above, values), scope, clauses, depth + 1)
        except Lossy:
            question.whole = False

    def is_said(self, declaration: Declaration, above: Bound) -> bool:
        """Whether the text has the supertrait: `PartialOrd<Self>` of `Ord` it has not, so a clause by `Ord` comes with one by that."""
        try:
            scope = Scope(CLAUSE, names_of(declaration.params))
            self.renderer.bound(self.renderer.need(above.key, "trait", above.arguments), above, scope, Unsayable("`Self` as an argument of a supertrait"))
            return True
        except Lossy:
            return False

    def fixed_values(self, question: Question, subject: Type, above: Bound, scope: Scope, clauses: list[str]) -> None:
        """The values that a supertrait fixes: `trait Bytes: Iterator<Item = u8>`."""
        for name, value in above.constraints:
            if isinstance(value, BoundsOf):
                question.whole = False
            elif self.renderer.resolved(Projection(subject, above, name), scope) not in scope.projections:
                clauses += self.tried(question, lambda: self.translation.impl_writer.equation(subject, above, name, value, scope))

    def item_clauses(self, question: Question, place: Type, bounds: list[Bound], scope: Scope, clauses: list[str], depth: int) -> None:
        """What the trait declares of an associated type, as clauses on its value."""
        if depth > 3:
            question.whole = False
            return
        if not any(is_sizedness(b) for b in bounds):
            clauses.append(f"{self.renderer.type(place, scope)}: Sized")
        for bound in bounds:
            if is_sizedness(bound):
                continue
            for name, value in bound.constraints:
                if not isinstance(value, BoundsOf):
                    clauses += self.tried(question, lambda: self.translation.impl_writer.equation(place, bound, name, value, scope))
                else:
                    question.whole = False
            clauses += self.tried(question, lambda: self.clause(place, bound, scope))
            self.values(question, place, bound, scope, clauses, depth + 1)


class Asker:
    """Has the program answer both texts with the queries after them, and makes one answer of each pair."""

    def __init__(self, translation: Translation, program: Optional[str] = None, check: bool = True) -> None:
        self.translation = translation
        self.program = program
        self.check = check
        self.show = Show(translation.world)
        self.answers: dict[str, Answer] = {}
        self.text: Optional[Text] = None

    def ask(self, questions: list[Question]) -> list[Verdict]:
        good, verdicts = self.written(questions)
        entries = [(question, asked) for question in good for asked in question.lines]
        provable, refutable = [a for _, a in entries], [a for _, a in entries if a.refute]
        texts = {mode: self.text_with(mode, [a.prove for a in provable] + [a.refute for a in refutable]) for mode in ("upper", "lower")}
        if self.check:
            self.checked(texts)
        pieces = [p for p in self.translation.text("upper")[1] if p is not None]
        reacher = Reacher(read_text(texts["upper"]), pieces, self.translation.cone.free if self.translation.cone else frozenset())
        self.text = reacher.text
        lines = {line.text: line for line in reacher.text.lines if line.kind == "question"}
        assumed = self.assumed(good, lines, reacher)
        self.answers = {mode: self.answers_to(mode, [with_clauses(a.prove, assumed[id(q)].clauses[mode]) for q, a in entries]
                                              + [a.refute for a in refutable]) for mode in ("upper", "lower")}
        refuted = dict(zip(refutable, self.answers["upper"].questions[len(entries):]))
        found: dict[int, list[Verdict]] = {}
        for number, (question, asked) in enumerate(entries):
            line = lines[asked.prove]
            assert line.trait is not None
            reach = reacher.reach(line.self_type, line.trait, bool(line.clauses))
            reach.join(assumed[id(question)].reach)
            self.inside(question, reach)
            ruled_out = Negatives(self.translation.world, reacher, question.crate).ruled_out(line.trait.key, line.self_type) if asked.refute else ""
            lower, upper = (self.answers[mode].questions[number] for mode in ("lower", "upper"))
            if assumed[id(question)].is_open and upper == "unproved":
                question.whole = False
            verdict = self.verdict(question, lower, upper, refuted.get(asked) == "no", reach)
            if ruled_out and verdict.word not in ("yes", "no"):
                verdict = Verdict(question, "no", f"argued: {ruled_out}")
            if verdict.word == "yes":
                self.with_values(verdict, self.answers["lower"].values[number])
            verdict.asked = InText(self.translation, question.crate, question.names,
                                   {mode: with_clauses(asked.prove, assumed[id(question)].clauses[mode]) for mode in ("upper", "lower")})
            found.setdefault(id(question), []).append(verdict)
        return [verdicts[id(q)] if id(q) in verdicts else joined(q, found[id(q)]) for q in questions]

    def answers_to(self, mode: str, lines: list[str]) -> Answer:
        return ask(self.text_with(mode, []), lines, self.program)

    def text_with(self, mode: str, lines: list[str]) -> str:
        return "\n".join(self.translation.text(mode)[0] + lines) + "\n"

    def with_values(self, verdict: Verdict, printed: str) -> None:
        back = Back(self.translation.world)
        verdict.values = back.values(printed)
        verdict.found = {name: put(value, verdict.question.names) for name, value in back.found(printed).items()}

    def written(self, questions: list[Question]) -> tuple[list[Question], dict[int, Verdict]]:
        """The queries that the text can say, and verdicts on the others. The text gets what a query needs beyond its names."""
        writer = QuestionWriter(self.translation)
        for _ in range(MAXIMAL_ROUNDS):
            self.translation.renderer.grew = False
            good: list[Question] = []
            verdicts: dict[int, Verdict] = {}
            for question in questions:
                try:
                    writer.write(question)
                    good.append(question)
                except Lossy as error:
                    verdicts[id(question)] = Verdict(question, "not settled", f"the text cannot say the question: {error}")
            if not self.translation.renderer.grew:
                return good, verdicts
            self.translation.build()
        raise Lossy("what questions need kept growing; this is a fault of the translator")

    def checked(self, texts: dict[str, str]) -> None:
        problems = check_texts(self.translation, texts)
        if problems:
            raise BadInput("the texts break the rules of docs/RUSTDOC.md, which is a mistake of the translator: " + problems[0])

    def assumed(self, questions: list[Question], lines: dict[str, TextLine], reacher: Reacher) -> dict[int, Assumed]:
        """The patterns that follow from the where-clauses of each query, in rounds: one may be needed for another."""
        renderer, world = self.translation.renderer, self.translation.world
        thens = {renderer.then_name(world.get(key), name): renderer.companion_name(world.get(key), name) for key, name in renderer.thens}
        assumer = Assumer(reacher.text, thens)
        found = {id(q): Assumed() for q in questions}
        wanted = [(q, c) for q in questions for a in q.lines if lines[a.prove].clauses
                  for c in assumer.all_candidates(lines[a.prove], reacher, found[id(q)])]
        for _ in range(MAXIMAL_ROUNDS):
            wanted = [(q, c) for q, c in wanted if any(c.clause not in found[id(q)].clauses[mode] for mode in ("upper", "lower"))]
            if not self.ask_candidates(wanted, found, lines):
                return found
        for question, _ in wanted:
            found[id(question)].is_open = True
        return found

    def ask_candidates(self, wanted: list[tuple[Question, Candidate]], found: dict[int, Assumed], lines: dict[str, TextLine]) -> bool:
        """Whether a query got a clause more. What is not proved now may be with it."""
        grew = False
        for mode in ("upper", "lower") if wanted else ():
            asked = [asked_goal(with_clauses(q.prove, found[id(q)].clauses[mode]), lines[q.prove], c.goal()) for q, c in wanted]
            answers = self.answers_to(mode, asked).questions
            for (question, candidate), answer in zip(wanted, answers):
                known = found[id(question)].clauses[mode]
                if (answer == "yes" or mode == "upper" and answer != "unproved") and candidate.clause not in known:
                    known.append(candidate.clause)
                    grew = True
        return grew

    def inside(self, question: Question, reach: Reach) -> None:
        """What the text leads to was looked for in all crates, where the text is a part of them."""
        cone = self.translation.cone
        if cone is None:
            return
        autos = {line.name for line in self.text.lines if line.is_auto} if self.text is not None else set()
        missing = [r for r in reach.references if r[0] not in BY_PARTS and not cone.covers(r, r[0] in autos)]
        if missing:
            trait, arguments = missing[0]
            raise TooSmall(f"the part of the crates for `{question.written}` is too small, which is a mistake of the translator: {trait} of {arguments}", missing)

    def verdict(self, question: Question, lower: str, upper: str, no: bool, reach: Reach) -> Verdict:
        lost = self.losses(reach)
        if lower == "yes" and no:
            raise BadInput(f"the two texts contradict each other at `{question.written}`, which is a mistake of the translator")
        if lower == "yes":
            return Verdict(question, "yes", self.basis_of_yes(reach))
        unsure = self.unsure(reach)
        if no and not unsure:
            return Verdict(question, "no", self.basis_of_no(question, reach))
        if upper == "unproved" and question.whole and not unsure:
            more = "" if not question.refute else "; another crate, or a later version, may add an impl"
            return Verdict(question, "unproved", "neither text has a proof" + more)
        if lower == upper == "maybe" and question.has_unknowns() and question.whole:
            return Verdict(question, "maybe", MAYBE)
        reasons = lost + unsure
        if not question.whole:
            reasons.append("a where-clause of the question that the text cannot say")
        if not reasons and upper == "yes":
            reasons.append("a loss that was not found; please report it")
        why = "the upper text has a proof, the lower one none" if upper == "yes" else f"the upper text says {upper}, the lower one {lower}"
        return Verdict(question, "not settled", why, reasons if upper == "yes" or unsure or not question.whole else [])

    def basis_of_yes(self, reach: Reach) -> str:
        # The lower text's proof is one by the crates' own rules; that those of a cut struct are its rules is argued.
        cut = self.cut_structs(reach)
        if cut:
            return f"argued: the auto traits of {cut[0]} are written by its fields"
        bound = [cut.declaration for cut in self.translation.cuts if cut.tail_by_bound and self.translation.world.name(cut.declaration) in reach.structs]
        if bound:
            return f"argued: {self.show.item(bound[0])} is sized by the bound of the associated type that is its last field"
        return self.argued_of_all(reach) or BY_LAW

    def argued_of_all(self, reach: Reach) -> str:
        """Why no law covers an answer, be it yes or no; empty where one does."""
        crates = {self.text.names[n].crate for n in reach.traits | reach.types if n in self.text.names} if self.text is not None else set()
        for name, places in self.translation.world.doc_cfgs.items():
            if crate_name(name) in crates:
                return f"argued: items of {name} depend on `cfg(doc)`, which rustdoc sets ({', '.join(places)})"
        # The definitions have no projections, so that a pattern says what a clause on one says is no law.
        if any(trait.endswith(THEN) for trait in reach.traits):
            return "argued: a clause on an associated type is asked as a pattern"
        return ""

    def basis_of_no(self, question: Question, reach: Reach) -> str:
        if question.has_unknowns():
            return "argued: the question has unknowns"
        if reach.longest is None or reach.longest >= DEPTH or not reach.is_complete:
            return "argued: the question leads to chains without end"
        cut = self.cut_structs(reach)
        if cut:
            return f"argued: the auto traits of {cut[0]} are written by its fields"
        narrowed = [w for w in self.translation.of_std if w.impl.narrowed and w.impl.trait and w.impl.trait.key in self.reached_keys(reach)]
        if narrowed:
            return f"argued: {narrowed[0].impl.source} is written {narrowed[0].impl.narrowed}"
        return self.argued_of_all(reach) or BY_LAW

    def above(self, trait: str) -> set[str]:
        return self.text.above(trait) if self.text is not None else set()

    def reached_keys(self, reach: Reach) -> set[str]:
        return {d.key for d in self.translation.renderer.traits.values() if self.translation.world.name(d) in reach.traits}

    def cut_structs(self, reach: Reach) -> list[str]:
        names = {piece.cut.declaration.key: piece.cut.declaration for piece in reach.pieces
                 if piece.cut is not None and not is_std_key(piece.cut.declaration.key)}
        return [self.show.item(d) for d in names.values()]

    def losses(self, reach: Reach) -> list[str]:
        """The losses of the impls that the query leads to."""
        found: dict[str, None] = {}
        for piece in reach.pieces:
            if piece.written is not None and piece.written.losses:
                written = piece.written
                found[f"{written.impl.source}: {self.show.header(written.impl)}: {'; '.join(written.losses[:2])}"] = None
            elif piece.written is not None and piece.lower is None:
                found[f"{piece.written.impl.source}: {self.show.header(piece.written.impl)}: {'; '.join(piece.written.unknown[:2])}"] = None
        for cut in self.translation.cuts:
            if cut.tail_unsure and self.translation.world.name(cut.declaration) in reach.structs:
                found[f"{cut.declaration.source}: {self.show.item(cut.declaration)}: whether its last field is sized"] = None
        return list(found)

    def unsure(self, reach: Reach) -> list[str]:
        """What is missing in both texts, or not known, of what the query leads to: no `no` rests on that."""
        found: dict[str, None] = {}
        for written in self.translation.of_crates + self.translation.of_std:
            if not written.upper and not written.is_safe and written.impl.trait is not None:
                try:
                    trait = self.translation.world.get(written.impl.trait.key)
                except Lossy:
                    continue
                if self.translation.world.name(trait) in reach.traits and not trait.is_auto and not self.translation.world.is_cores(trait):
                    found[f"{written.impl.source}: {self.show.header(written.impl)}: out of both texts: {written.losses[0]}"] = None
        for declaration in self.translation.renderer.traits.values():
            if declaration.is_opaque and self.translation.world.name(declaration) in reach.traits:
                found[f"{declaration.source}: its impls are not known"] = None
        for declaration in self.translation.renderer.structs.values():
            if declaration.key.startswith("other:") and self.translation.world.name(declaration) in reach.types:
                found[f"{declaration.source}: its impls are not known"] = None
        renderer, world = self.translation.renderer, self.translation.world
        valued = {n: world.name(world.get(key)) for key, name in {**renderer.companions, **renderer.thens}
                  for n in (renderer.companion_name(world.get(key), name), renderer.then_name(world.get(key), name))}
        if any(trait in valued and isinstance(terms[0], Dyn) and any(valued[trait] in self.above(b.key) for b in terms[0].bounds)
               for trait, terms in reach.references):
            found["an associated type of a dyn, which the text has not"] = None
        if "Unsize" in reach.traits:
            found["`Unsize`, which std's types have by fields that are private"] = None
        return list(found)
