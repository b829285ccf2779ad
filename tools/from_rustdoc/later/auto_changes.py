"""Auto traits of public types: a type that had one in the old version has to have it in the new one.

The old version's documents say under which clauses a type has an auto trait: its impl is written, or rustdoc found the least clauses under
which the fields have it (`is_synthetic`). Each such impl is a query to the new version under its clauses. Without a proof there it is lost
if the old version has one. If one of the two gives no answer, rustdoc's impls of the new version decide, and the rest is reported.
"""
from __future__ import annotations

from dataclasses import dataclass, replace
from typing import Iterator

from ..ask.questions import Question, Verdict
from ..model.world import World
from ..read.terms import Impl, Named, Predicate, Unsayable, argument_values, put, put_bound
from ..report.messages import Message, at
from ..write.build import AUTO_TRAITS
from .claims import Judge, Programs
from .impl_changes import asked_of_names, is_auto, written_question
from .item_changes import change
from .unchanged import Unchanged
from .versions import Gone, Header, Versions, plain_params

KEPT, LOST, NOT_SAID = "kept", "lost", ""


@dataclass
class Asked:
    """An impl of the old version as a query to either one; `key` is the old key of its type, `gone` what the new version has not."""
    impl: Impl
    key: str
    old: Question
    new: Question
    gone: str = ""


class AutoChanges:
    def __init__(self, versions: Versions, troubled: dict[str, Message], programs: Programs) -> None:
        self.versions = versions
        self.troubled = troubled
        self.programs = programs
        self.keys = {versions.old.pages.key(page) or "" for page in AUTO_TRAITS.values()}
        self.unchanged = Unchanged(versions, self.keys)
        self.messages: list[Message] = []
        self.found: dict[Header, tuple[Impl, frozenset[Predicate]]] = {}
        for impl in versions.after.computed:
            header, clauses = versions.header(versions.new, impl)
            self.found[header] = (impl, clauses)

    def run(self) -> None:
        every = list(self.questions())
        asked = [a for a in every if not a.gone]
        after = Judge(self.versions.new, self.programs).ask([a.new for a in asked])
        unproved = [(a, verdict) for a, verdict in zip(asked, after) if verdict.word != "yes"]
        unproved += [(a, Verdict(a.old, "not settled", f"it names `{a.gone}`, which is gone")) for a in every if a.gone]
        before = Judge(self.versions.old, self.programs).ask([a.old for a, _ in unproved])
        told = [(a, verdict, self.word(a, was, verdict)) for (a, verdict), was in zip(unproved, before)]
        self.compare([entry for entry in told if entry[2]])
        self.added()

    # ---- what is asked
    def questions(self) -> Iterator[Asked]:
        """Of each type of both versions whose arguments are the same, and whose auto traits may be others."""
        of_rustdoc = [i for i in self.versions.before.computed if i.trait is not None and self.versions.old.key_of(i.trait.key) in self.keys]
        for impl in of_rustdoc + self.impls(self.versions.old):
            assert isinstance(impl.self_type, Named)
            key = self.versions.old.key_of(impl.self_type.key)
            if not impl.is_negative and key in self.versions.newer and key not in self.troubled and not self.unchanged.is_so(key):
                yield self.question(impl, key)

    def question(self, impl: Impl, key: str) -> Asked:
        assert isinstance(impl.self_type, Named) and impl.trait is not None
        versions = self.versions
        declaration = versions.old.get(key)
        values = argument_values(declaration.params, impl.self_type.arguments)
        whole = impl.copy()
        whole.predicates = list(dict.fromkeys([(put(t, values), put_bound(b, values)) for t, b in declaration.predicates] + impl.predicates))
        old = Question(written_question(versions.show_old, whole), whole.self_type, impl.trait, plain_params(impl.params), whole.predicates,
                       crate=versions.crate)
        try:
            subject = versions.to_new(old.subject)
            predicates = versions.predicates_to_new(old.predicates) + asked_of_names(versions, [subject])
            return Asked(impl, key, old, replace(old, subject=subject, bound=versions.bound_to_new(old.bound), predicates=predicates))
        except Gone as gone:
            return Asked(impl, key, old, old, str(gone))

    def impls(self, world: World) -> list[Impl]:
        """Those that are written."""
        return [i for i in self.versions.impls(world) if i.trait is not None and isinstance(i.self_type, Named) and is_auto(world, i)]

    # ---- what is reported
    def word(self, asked: Asked, before: Verdict, after: Verdict) -> str:
        """Empty where nothing is lost."""
        by_rustdoc = self.by_rustdoc(asked.impl)
        if before.word == "yes" and after.word != "not settled":
            return "not settled" if by_rustdoc == KEPT else "breaking"
        return {KEPT: "", LOST: "breaking"}.get(by_rustdoc, "not settled")

    def by_rustdoc(self, impl: Impl) -> str:
        """What rustdoc found in the new version of what it found, or what was written, in the old one."""
        (_, *rest), clauses = self.versions.header(self.versions.old, impl)
        positive, negative = (self.found.get((is_negative, *rest)) for is_negative in (False, True))
        if positive is not None:
            found, asked = positive
            # (What no text can say is compared as it is written: by the names of parameters.)
            is_same = [p.name for p in found.params] == [p.name for p in impl.params] or not any(isinstance(t, Unsayable) for t, _ in asked)
            return KEPT if is_same and {c for c in asked if not c[1].maybe} <= clauses else NOT_SAID
        return LOST if negative is not None else NOT_SAID

    def compare(self, answers: list[tuple[Asked, Verdict, str]]) -> None:
        """One message for each type and trait."""
        told: set[tuple[str, str]] = set()
        for wanted in ("breaking", "not settled"):
            for asked, verdict, word in answers:
                if word == wanted and (asked.key, asked.old.bound.key) not in told:
                    told.add((asked.key, asked.old.bound.key))
                    self.messages.append(self.lost(asked, verdict, word))

    def lost(self, asked: Asked, verdict: Verdict, word: str) -> Message:
        after = self.versions.after.items.get(self.versions.newer[asked.key])
        shown = after.shown() if after is not None else f"`{self.versions.show_new.type(asked.new.subject)}`"
        how = "may not be" if word == "not settled" else "is not"
        message = change("auto-trait-lost", f"{shown} {how} `{self.versions.show_old.bound(asked.old.bound)}` any more", at(after.place if after else None),
                         at(asked.impl.place, "", "old"), word)
        if word == "breaking" and verdict.word == "not settled":
            message.basis = f"argued: rustdoc found `{asked.new.written}` in the old version, and in the new one that it never is"
            return message
        message.note(f"`{asked.new.written}` was yes, and is {verdict.word}")
        message.basis, message.rests_on = verdict.basis, verdict.rests_on
        message.children += Judge(self.versions.new, self.programs).reasons(verdict)
        return message

    def added(self) -> None:
        """Impls of auto traits that are new: what types lose by them is reported above."""
        before = {self.versions.header(self.versions.old, i) for i in self.impls(self.versions.old)}
        lost = {(m.spans[0].place if m.spans else None) for m in self.messages}
        for impl in self.impls(self.versions.new):
            if self.versions.header(self.versions.new, impl) in before:
                continue
            item = self.versions.after.items.get(self.versions.new.key_of(impl.self_type.key)) if isinstance(impl.self_type, Named) else None
            if item is None or item.place not in lost:
                why = "no public type loses an auto trait by it" if item is not None else "nobody else can name it"
                self.messages.append(Message(f"`{self.versions.show_new.header(impl)}`", "impl-added", "compatible", spans=at(impl.place)).note(why))
