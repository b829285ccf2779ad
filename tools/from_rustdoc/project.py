"""A project for programs: its crates are read once and stored in memory, and what is asked of them is answered as data.

    from from_rustdoc.project import Project    # with tools/ in sys.path

    project = Project(".")
    answer = project.ask("mine::Pool<u8>: Send")
    if answer.word == "yes" and answer.is_certain: ...

What answers mean, and what they rest on, is in docs/QUESTIONS.md and docs/RUSTDOC.md. Answers are of what was read: `reload` asks cargo whether that
is still so, which each call of the command does, and reads again what changed. Nothing else does.
"""
from __future__ import annotations

import argparse
import contextlib
import io
import json
import sys
from dataclasses import dataclass, field
from typing import Any, Callable, Optional, Sequence, TypeVar

from . import command
from .ask.answer import Answerer
from .ask.back import Askable
from .ask.conditions import Conditions, Finder, read_open
from .ask.names import Names
from .ask.questions import BY_LAW, Question, QuestionReader, Verdict
from .ask.traits import Lister
from .ask.trees import Reason, reason_of
from .model.world import World
from .read.html_docs import is_std_key
from .read.terms import BadInput, Bound, Impl, Lossy, Place, Type, Unknown, head_of
from .report.messages import plain

Found = TypeVar("Found")
# So many steps a chain of `Deref` has at most, as rustc's `recursion_limit` says.
MAXIMAL_DEREFS = 128
# Types are deep, and so are the calls that read them.
RECURSION = 20000


@dataclass(frozen=True)
class Answer:
    """`word` is yes, no, unproved, maybe or not settled, as docs/QUESTIONS.md says. `values` are those of variables by their names, as a query takes
    them. `is_certain` says that what is proved covers a yes or a no, `basis` why that is not so; `rests_on` names impls of which a part was
    left out. `reason` is there if it was asked for, and can be read."""
    question: str
    word: str
    values: dict[str, str] = field(default_factory=dict)
    is_certain: bool = False
    basis: str = ""
    rests_on: tuple[str, ...] = ()
    because: str = ""
    reason: Optional[Reason] = None


@dataclass(frozen=True)
class NoAnswer:
    """A query that cannot be asked, and what to write."""
    question: str
    error: str


@dataclass(frozen=True)
class Condition:
    """Under which `bounds` the query holds, each as a where-clause of a query. `word` is yes; no, where no bounds help; or not settled, and
    `because` says why."""
    question: str
    word: str
    bounds: tuple[str, ...] = ()
    is_certain: bool = False
    basis: str = ""
    rests_on: tuple[str, ...] = ()
    because: str = ""


@dataclass(frozen=True)
class TraitsOf:
    """The traits of a type: `found` are those that it has, by their bounds, `without` auto traits that it has not, `unsettled` the rest. Of `unnamed`
    traits, which no path names, nothing was asked."""
    type: str
    found: tuple[Condition, ...] = ()
    without: tuple[Condition, ...] = ()
    unsettled: tuple[Condition, ...] = ()
    unnamed: tuple[str, ...] = ()


@dataclass(frozen=True)
class ImplOf:
    """An impl as its crate has it: the header, its parts, its where-clauses, and where it stands; of std there is no place."""
    header: str
    trait: str
    type: str
    bounds: tuple[str, ...]
    crate: str
    is_negative: bool = False
    place: Optional[Place] = None


class Project:
    """The project in a folder, with flags for cargo, such as `["--features", "x"]`. `docs` is a folder of std's documents, the programs are those
    that answer and explain; where none is named those are taken that the command takes.

    Each call raises `BadInput` or `Lossy` for what cannot be asked, with a message that says what to write. A call at a time.
    """

    def __init__(self, folder: str = ".", flags: Sequence[str] = (), docs: Optional[str] = None, program: Optional[str] = None,
                 program_that_explains: Optional[str] = None, quiet: bool = True) -> None:
        sys.setrecursionlimit(max(RECURSION, sys.getrecursionlimit()))
        self.folder = folder
        self.flags = list(flags)
        self.program = program
        self.explaining = program_that_explains
        self.words = argparse.Namespace(quiet=quiet, docs=docs)
        self.state: Optional[dict[str, Any]] = None
        self.world: World
        self.reload()

    def reload(self) -> bool:
        """Has cargo look at the project, and reads it anew if something changed, which is returned. Takes what cargo takes, a quarter of a second."""
        found = command.documented(self.folder, self.flags, self.words)
        if self.state == found.known:
            return False
        _, _, self.world = command.read_documents(found, self.words)
        self.state = found.known
        self.reader = QuestionReader(self.world)
        self.answerer = Answerer(self.world, self.program)
        self.finder = Finder(self.world, self.program, self.explaining)
        self.show = Askable(self.world)
        self.known: dict[tuple[str, ...], Any] = {}
        return True

    # ---- queries
    def ask(self, question: str, why: bool = False) -> Answer:
        """Whether a bound holds. With `why` the answer has its reason, which takes a run of the program that explains."""
        return self.once(("ask", question, str(why)), lambda: self.answer(self.reader.read(question), why))

    def ask_many(self, questions: Sequence[str], why: bool = False) -> list[Answer | NoAnswer]:
        """The answers in their order. A query that cannot be asked spoils none."""
        found: list[Answer | NoAnswer] = []
        for question in questions:
            try:
                found.append(self.ask(question, why))
            except (BadInput, Lossy) as error:
                found.append(NoAnswer(question, str(error)))
        return found

    def conditions(self, question: str) -> Condition:
        """Under which bounds on its parameters a query holds; parameters need not be declared."""
        return self.once(("conditions", question), lambda: self.condition(self.finder.find(self.only(read_open(self.reader, question), question))))

    def traits(self, type: str) -> TraitsOf:
        """The traits of a type, by their bounds; parameters need not be declared."""
        def listed() -> TraitsOf:
            found = Lister(self.world, self.finder).of(type)
            return TraitsOf(type, *(tuple(map(self.condition, some)) for some in (found.found, found.without, found.unsettled)), tuple(found.unnamed))

        return self.once(("traits", type), listed)

    def impls(self, trait: str = "", type: str = "") -> list[ImplOf]:
        """The impls of a trait, of the crates and of std, or those of all traits in the crates; with a type those that may be for it, by how it begins."""
        names = Names(self.world)
        head = head_of(self.only(read_open(self.reader, f"{type}: Sized"), type).subject) if type else None
        if trait:
            key = names.key(trait.split("::"), True)
            found = [*(self.world.standard.impls_with_head(key, head) if is_std_key(key) else []), *self.world.impls_of(key, head)]
        else:
            traits = self.world.by_trait or (self.world.find_impls() or self.world.by_trait)
            found = [impl for key in traits for impl in self.world.impls_of(key, head)]
        return [self.impl(impl) for impl in found if impl.trait is not None]

    def deref_chain(self, type: str) -> list[str]:
        """The type, and then the `Target` of each one's `Deref`, as long as that holds for a value that is known. Parameters need not be declared."""
        head, where, clauses = type.partition(" where ")
        question = self.only(read_open(self.reader, f"{head}: Sized{where}{clauses}"), type)
        key = Names(self.world).key(["std", "ops", "Deref"], True)
        found: list[Type] = [question.subject]
        while len(found) <= MAXIMAL_DEREFS:
            asked = Question(f"{self.show.type(found[-1])}: Deref<Target = ?t>", found[-1], Bound(key, (), (("Target", Unknown("t")),)), question.params,
                             list(question.predicates))
            verdict = self.answerer.answer(asked)
            target = verdict.found.get("t")
            if verdict.word != "yes" or target is None or target in found:
                break
            found.append(target)
        return list(map(self.show.type, found))

    # ---- a release
    def later(self, baseline: str, packages: Sequence[str] = ()) -> list[dict[str, Any]]:
        """What changed since an older version, a revision or a folder: the objects that `later --message-format json` prints. Both versions are
        documented as they are now. It runs in the main thread alone."""
        words = ["later", "--baseline", baseline, "--message-format", "json", "--quiet", self.folder]
        named = [("--docs", self.words.docs), ("--program", self.program), ("--program-that-explains", self.explaining), *(("-p", name) for name in packages)]
        words += [word for flag, value in named if value for word in (flag, value)]
        out = io.StringIO()
        with contextlib.redirect_stdout(out):
            status = command.main([*words, *(["--", *self.flags] if self.flags else [])])
        found = [json.loads(line) for line in out.getvalue().splitlines()]
        if status in (2, 3):
            raise BadInput(next((it["message"] for it in reversed(found) if it.get("answer") == "no answer"), "`later` has no answer"))
        return found

    # ---- as data
    def once(self, key: tuple[str, ...], find: Callable[[], Found]) -> Found:
        """What is found is stored while the project stays as it was read."""
        if key not in self.known:
            self.known[key] = find()
        found: Found = self.known[key]
        return found

    @staticmethod
    def only(questions: list[Question], written: str) -> Question:
        if len(questions) != 1:
            raise BadInput(f"`{written}` is {len(questions)} questions")
        return questions[0]

    def answer(self, question: Question, why: bool) -> Answer:
        verdict = self.answerer.answer(question)
        values = {name: self.show.type(value) for name, value in verdict.found.items()}
        return Answer(question.written, verdict.word, values, *self.basis_of(verdict), verdict.because,
                      reason_of(verdict, self.explaining) if why else None)

    @staticmethod
    def basis_of(verdict: Verdict) -> tuple[bool, str, tuple[str, ...]]:
        is_certain = verdict.basis == BY_LAW
        return is_certain, "" if is_certain else plain(verdict.basis), tuple(map(plain, verdict.rests_on))

    def condition(self, found: Conditions) -> Condition:
        bounds = tuple(map(self.finder.shown, found.bounds)) if found.word == "yes" else ()
        return Condition(found.question.written, found.word, bounds, *self.basis_of(found.verdict), found.because)

    def impl(self, impl: Impl) -> ImplOf:
        assert impl.trait is not None
        bounds = tuple(f"{self.show.type(subject)}: {self.show.bound(bound)}" for subject, bound in impl.predicates)
        return ImplOf(self.show.header(impl), self.show.bound(impl.trait), self.show.type(impl.self_type), bounds, impl.crate, impl.is_negative, impl.place)
