"""What a release changes of impls. Each old one is a query to the new version, with its clauses: a proof says that nothing is lost. Each new
one that the old version does not prove is in a section of its own, a line `later`, and the program says whether it is compatible. This
script says why it is not."""
from __future__ import annotations

from dataclasses import dataclass, field
from typing import Optional

from ..ask.cone import cone_of_questions
from ..ask.program import run
from ..ask.questions import Question, Verdict
from ..model.show import Show
from ..model.world import World, crate_name
from ..read.terms import BadInput, Bound, Declaration, Impl, Lossy, Named, Predicate, Type, argument_values, put, put_bound, walk
from ..report.messages import Message, at
from ..write.impls import Written
from ..write.render import is_sizedness
from .claims import Claim, Judge, Programs
from .constant_changes import MARKERS, trait_name
from .inference import Inference
from .item_changes import change
from .open_walk import met_in_header, supertraits
from .other_impls import Nobody, OtherImpls
from .versions import Gone, Header, Versions, all_keys, bound_keys, is_private, names_private, plain_params, values_of


Headers = dict[Header, list[tuple[Impl, frozenset[Predicate]]]]
# What rustc says where a type has not a trait that the language itself asks for.
BINARY = "Add Sub Mul Div Rem BitAnd BitOr BitXor Shl Shr"
WITHOUT = {**dict.fromkeys(f"{BINARY} PartialEq PartialOrd".split(), "E0277 or E0369"),
           **dict.fromkeys((f"{name}Assign" for name in BINARY.split()), "E0277 or E0368"), **dict.fromkeys(("Neg", "Not"), "E0277 or E0600"),
           **dict.fromkeys(("DerefMut", "IndexMut"), "E0594 or E0596"), "Copy": "E0277, E0382 or E0507", "Index": "E0277 or E0608",
           "Deref": "E0277, E0599 or E0614", "CoerceUnsized": "E0277 or E0308"}
# What is never reported.
KNOWN = "the old version proves it already"


@dataclass
class Judged:
    """An added impl. `word` is compatible, breaking, not settled where the text cannot say it, or why it is in no section (private, sealed);
    it is empty until the program was asked."""
    impl: Impl
    word: str
    reason: str = ""


@dataclass
class Kept:
    """An impl of the old version that the new one has not as it was; `again` are those of the new one with its header."""
    impl: Impl
    clauses: frozenset[Predicate]
    again: list[Impl] = field(default_factory=list)


@dataclass
class AskedImpl:
    """An old impl that is asked for, and if it is proved its associated types."""
    impl: Impl
    claim: Claim
    values: list[Claim]


class ImplChanges:
    """`troubled` are old items whose impls are not compared, by their keys, with what was reported of them; `unproved` are old impls of which the new
    version has no proof."""

    def __init__(self, versions: Versions, troubled: dict[str, Message], with_private: bool, programs: Programs) -> None:
        self.versions = versions
        self.troubled = troubled
        self.with_private = with_private
        self.programs = programs
        self.others = OtherImpls(versions, with_private)
        self.messages: list[Message] = []
        self.added: list[Judged] = []
        self.uncompared: dict[str, int] = {}
        self.unproved: set[int] = set()
        self.above: set[str] = set()

    def run(self) -> None:
        versions = self.versions
        old, new = ({**self.of(world, self.exported(world)), **self.of(world, versions.impls(world))} for world in (versions.old, versions.new))
        self.lost(old, new)
        self.new_ones(old, new)
        for key, count in self.uncompared.items():
            self.troubled[key].note(f"its impls are not compared: {count}")

    def of(self, world: World, impls: list[Impl]) -> Headers:
        """Impls by their headers, without those of auto traits, which are asked for, and of traits that nobody can name."""
        found: Headers = {}
        for impl in impls:
            if impl.trait is not None and trait_name(impl.trait) not in MARKERS and not is_auto(world, impl):
                header, clauses = self.versions.header(world, impl)
                found.setdefault(header, []).append((impl, clauses))
        return found

    def exported(self, world: World) -> list[Impl]:
        """Those of other crates for what this one exports of them, where it has another version of the crate now."""
        surface = self.versions.before if world is self.versions.old else self.versions.after
        names = {world.homes[key].name for key in surface.kinds if key in world.homes} - {self.versions.crate}
        both = [name for name in names if name in self.versions.old.crates and name in self.versions.new.crates]
        return [crate.impls[number] for crate in (world.crates[name] for name in both if not self.versions.is_same_crate(name))
                for number, keys in enumerate(crate.heads) if any(world.key_of(key) in surface.kinds for key in keys)]

    # ---- what is lost
    def lost(self, old: Headers, new: Headers) -> None:
        claims: list[AskedImpl] = []
        for header, impls in old.items():
            again = new.get(header, [])
            for impl, clauses in impls:
                is_hidden, same = self.is_hidden(impl), next((i for i, c in again if c == clauses), None)
                if impl.is_negative or is_hidden and not (same is not None and self.is_above(impl)):
                    continue
                if same is not None:
                    self.values(impl, same)
                else:
                    claims += self.claim(Kept(impl, clauses, [i for i, _ in again]))
        judge = Judge(self.versions.new, self.programs)
        verdicts = judge.ask([asked.claim.question for asked in claims])
        self.messages += [judge.told(asked.claim, verdict) for asked, verdict in zip(claims, verdicts) if verdict.word != "yes"]
        self.messages += judge.settle([value for asked, verdict in zip(claims, verdicts) if verdict.word == "yes" for value in asked.values])
        self.unproved = {id(asked.impl) for asked, verdict in zip(claims, verdicts) if verdict.word != "yes"}

    def is_hidden(self, impl: Impl) -> bool:
        """Whether nobody else can name what the header names, or have it."""
        keys = list(map(self.versions.old.key_of, header_keys(impl)))
        is_lost = any(key in self.versions.before.reached and key not in self.versions.newer for key in keys)
        return is_lost or names_private(self.versions.old, self.versions.before, keys)

    def is_above(self, impl: Impl) -> bool:
        """Whether the impl is of a private trait above a public one, so that others can name its associated types by that."""
        assert impl.trait is not None
        todo = [self.versions.old.get(item.key) for item in self.versions.before.items.values() if item.kind == "trait"] if not self.above else []
        while todo:
            for trait in supertraits(self.versions.old, todo.pop()):
                if trait.key not in self.above:
                    self.above.add(trait.key)
                    todo.append(trait)
        return self.versions.old.key_of(impl.trait.key) in self.above and not names_private(
            self.versions.old, self.versions.before, list(map(self.versions.old.key_of, header_keys(impl)[1:])))

    def is_uncompared(self, keys: list[str]) -> bool:
        """Whether an impl names an old item that is reported as another one. Such impls are counted with it."""
        trouble = next((key for key in keys if key in self.troubled), None)
        if trouble is not None:
            self.uncompared[trouble] = self.uncompared.get(trouble, 0) + 1
        return trouble is not None

    def claim(self, kept: Kept) -> list[AskedImpl]:
        """That the new version proves the old impl, and if it does, with the same associated types."""
        impl, versions = kept.impl, self.versions
        assert impl.trait is not None
        if self.is_uncompared([versions.old.key_of(key) for key in header_keys(impl)]):
            return []
        header = versions.show_old.header(impl)
        code = "impl-bounds-changed" if kept.again else "impl-removed"
        if kept.again:
            message = change(code, f"`{header}` asks for more", at(kept.again[0].place), at(impl.place, "", "old"))
        else:
            message = change(code, f"`{header}` is removed", [], at(impl.place, "it was here", "old"), rustc=WITHOUT.get(trait_name(impl.trait), ""))
        try:
            predicates = versions.predicates_to_new(impl.predicates)
            subject, bound = versions.to_new(impl.self_type), versions.bound_to_new(impl.trait)
        except Gone as gone:
            message.word = "not settled"
            self.messages.append(message.note(f"it names `{gone}`, which is gone"))
            return []
        params = plain_params(impl.params)
        predicates += asked_of_names(versions, [subject, *bound.arguments])
        question = Question(written_question(versions.show_old, impl), subject, bound, params, predicates, crate=versions.crate)
        if trait_name(impl.trait) != "Drop":
            return [AskedImpl(impl, Claim(question, message), self.value_claims(kept, subject, bound, predicates))]
        return [AskedImpl(impl, Claim(question, message.note("only a bound by `Drop` itself, of which rustc warns, asks for it"), "changed"), [])]

    def value_claims(self, kept: Kept, subject: Type, bound: Bound, predicates: list[Predicate]) -> list[Claim]:
        """Where another impl stands for the old one, its associated types are to be those of the old one."""
        claims = []
        for name, value in kept.impl.associated.items():
            message = self.other_value(kept.impl, name, kept.again[0] if kept.again else None)
            try:
                asked = Bound(bound.key, bound.arguments, ((name, self.versions.to_new(value)),))
            except Gone:
                continue
            claims.append(Claim(Question(f"{written_question(self.versions.show_old, kept.impl)} with its `{name}`", subject, asked,
                                         plain_params(kept.impl.params), predicates, crate=self.versions.crate), message))
        return claims

    def values(self, old: Impl, new: Impl) -> None:
        """Associated types of an impl that is there again."""
        before, after = self.versions.values(self.versions.old, old), self.versions.values(self.versions.new, new)
        for name, value in before.items():
            if name in after and after[name] != value:
                self.messages.append(self.other_value(old, name, new))
            elif name in after and old.lifetimes.get(name) != new.lifetimes.get(name):
                message = change("associated-value-changed", f"`{self.versions.show_old.header(old)}`: `{name}` has other lifetimes", at(new.place),
                                 word="changed", rustc="E0521, E0597, E0716 or `lifetime may not live long enough`")
                self.messages.append(message.note("answers are up to lifetimes: whether a crate loses something is not asked"))

    def other_value(self, old: Impl, name: str, new: Optional[Impl]) -> Message:
        before, after = values_of(old), values_of(new) if new is not None else {}
        became = f"`{self.versions.show_new.type(after[name])}`" if name in after else "another type"
        return change("associated-value-changed", f"`{self.versions.show_old.header(old)}`: `{name}` is {became}, and was "
                      f"`{self.versions.show_old.type(before[name])}`", at(new.place if new is not None else None), at(old.place, "", "old"))

    # ---- what is added
    def new_ones(self, old: Headers, new: Headers) -> None:
        others = [impl for header, impls in new.items() for impl, clauses in impls if all(c != clauses for _, c in old.get(header, []))]
        before = {id(i): [self.versions.older.get(self.versions.new.key_of(key), "") for key in header_keys(i)] for i in others}
        fresh = [self.others.narrowed(impl) for impl in others if not self.is_uncompared(before[id(impl)])]
        proved = self.proved_before(fresh)
        self.added = [self.judged(impl, proved.get(id(impl))) for impl in fresh]
        self.ask_program()
        self.messages += [self.told(judged) for judged in self.added if judged.reason != KNOWN]
        inference = Inference(self.versions, self.others, self.unproved)
        found = [inference.by(judged.impl) for judged in self.added if judged.word == "compatible" and judged.reason != KNOWN]
        self.messages += [message for message in found if message is not None]

    def proved_before(self, fresh: list[Impl]) -> dict[int, Verdict]:
        """What the old version says to each: where it has a proof nothing is added."""
        asked: list[tuple[Impl, Question]] = []
        for impl in fresh:
            assert impl.trait is not None
            try:
                before = self.others.in_old(impl)
                assert before.trait is not None
                predicates = [(self.others.to_old(t), self.others.to_old_bound(b)) for t, b in impl.predicates]
                asked.append((impl, Question("", before.self_type, before.trait, plain_params(impl.params), predicates, crate=self.versions.crate)))
            except (Gone, Lossy, Nobody):
                pass
        asked = [(impl, question) for impl, question in asked if not impl.is_negative]
        verdicts = Judge(self.versions.old, self.programs).ask([question for _, question in asked])
        return {id(impl): verdict for (impl, _), verdict in zip(asked, verdicts)}

    def judged(self, impl: Impl, before: Optional[Verdict]) -> Judged:
        """One added impl, as far as the program is not asked for it: what nobody else can name is in no section, and what a section cannot
        say is reported here."""
        assert impl.trait is not None
        world = self.versions.new
        if before is not None and before.word == "yes":
            return Judged(impl, "compatible", KNOWN)
        trait = trait_of(world, impl)
        if trait is None:
            return Judged(impl, "not settled", "its trait is not known")
        if not self.with_private:
            subject = world.get(impl.self_type.key, "struct", impl.self_type.arguments) if isinstance(impl.self_type, Named) else None
            if is_private(world, trait) or (subject is not None and is_private(world, subject) and subject.key not in self.versions.after.kinds):
                return Judged(impl, "private", "nobody else can name it, so it is in no section")
            if self.was_sealed(trait):
                return Judged(impl, "sealed", "nobody else can implement the trait, so it is in no section")
        if trait.crate in world.crates and trait.key in self.versions.after.kinds and trait.key not in self.versions.older:
            return Judged(impl, "compatible", "its trait is new")
        return Judged(impl, "")

    def was_sealed(self, trait: Declaration) -> bool:
        """Whether nobody else could implement the trait in the old version."""
        old = self.versions.old.known(self.versions.older.get(trait.key, trait.key))
        versions = self.versions
        return versions.is_sealed(versions.old, old) if old is not None else versions.is_sealed(versions.new, trait)

    def ask_program(self) -> None:
        """Has the program judge the impls that wait for it, by a section for each after a text that has what their headers name."""
        waiting = [j for j in self.added if not j.word]
        for judged, verdict in zip(waiting, self.verdicts([j.impl for j in waiting])):
            judged.word = verdict.split()[0] if verdict else "not settled"
            if judged.word != "compatible":
                self.meets(judged)

    def verdicts(self, impls: list[Impl]) -> list[str]:
        try:
            return self.verdicts_together(impls) if impls else []
        except (BadInput, Lossy):
            return [""] if len(impls) == 1 else [v for impl in impls for v in self.verdicts([impl])]

    def verdicts_together(self, impls: list[Impl]) -> list[str]:
        """The program's word on each header, empty where the text cannot say it. Clauses are not looked at, so none are written."""
        questions = [Question("", i.self_type, i.trait, plain_params(i.params), [], crate=i.crate) for i in impls if i.trait is not None]
        translation = cone_of_questions(self.versions.new, questions)
        translation.keep |= {crate_name(impl.crate) for impl in impls}
        translation.build()
        lines = [header_of(translation.impl_writer.write(without_clauses(impl))) for impl in impls]
        if translation.renderer.grew:
            translation.build()
        sections = [text for impl, line in zip(impls, lines) if line for text in (f"later {crate_name(impl.crate)}", line)]
        verdicts = iter(run("\n".join(translation.text("upper")[0] + sections) + "\n", self.programs.answers).releases if sections else [])
        return [next(verdicts) if line else "" for line in lines]

    def meets(self, judged: Judged) -> None:
        """Why an impl is not compatible, if the program does not say that it is. Its where-clauses are looked at here."""
        trait = trait_of(self.versions.new, judged.impl)
        assert trait is not None
        unsaid = "the text cannot say its header" if judged.word == "not settled" else ""
        if trait.is_fundamental:
            judged.reason = unsaid or "the trait is fundamental: others may rely on there being no such impl"
        elif met_in_header(self.versions.new, trait, judged.impl) is None:
            judged.reason = unsaid or "its header is none that the crate may have"
        else:
            try:
                judged.reason = f"{unsaid}{'; ' if unsaid else ''}another crate may have {self.others.met(trait, judged.impl)}"
            except Nobody as nobody:
                judged.word, judged.reason = "compatible", f"no crate has an impl that it meets: {nobody}"

    def told(self, judged: Judged) -> Message:
        header = self.versions.show_new.header(judged.impl)
        text = f"`{header}` breaks crates that have an impl of their own" if judged.word == "breaking" else f"`{header}`"
        message = change("impl-added", text if judged.word != "not settled" else f"`{header}` is added", at(judged.impl.place), word=judged.word)
        if judged.word not in ("breaking", "not settled"):
            message.children = []
        return message.note(judged.reason) if judged.reason else message


def trait_of(world: World, impl: Impl) -> Optional[Declaration]:
    """The impl's trait. None if it is not known."""
    assert impl.trait is not None
    try:
        return world.get(impl.trait.key, "trait", impl.trait.arguments)
    except Lossy:
        return None


def is_auto(world: World, impl: Impl) -> bool:
    trait = trait_of(world, impl)
    return trait is not None and trait.is_auto


def written_question(show: Show, impl: Impl) -> str:
    """An impl as a query."""
    assert impl.trait is not None
    names = ", ".join(("const " if p.kind == "const" else "") + p.name for p in impl.params)
    where = ", ".join(f"{show.type(t)}: {show.bound(b)}" for t, b in impl.predicates)
    return (f"<{names}> " if names else "") + f"{show.type(impl.self_type)}: {show.bound(impl.trait)}" + (f" where {where}" if where else "")


def asked_of_names(versions: Versions, terms: list[Type]) -> list[Predicate]:
    """What users of these types of the new version have to prove: a new bound of a type is reported for it, and not for its impls too."""
    found: list[Predicate] = []
    for part in (part for term in terms for part in walk(term)):
        item = versions.after.items.get(versions.new.key_of(part.key)) if isinstance(part, Named) else None
        if item is not None and isinstance(part, Named):
            values = argument_values(item.params, part.arguments)
            found += [(put(t, values), put_bound(b, values)) for t, b in item.predicates if not is_sizedness(b)]
    return found


def header_keys(impl: Impl) -> list[str]:
    assert impl.trait is not None
    return bound_keys(impl.trait) + all_keys(impl.self_type)


def without_clauses(impl: Impl) -> Impl:
    """The header alone, as of a positive impl: what it meets is the same."""
    found = impl.copy()
    found.predicates, found.is_negative, found.associated = [], False, {}
    return found


def header_of(written: Written) -> str:
    return next((line.text.partition(" where ")[0] for line in written.upper if line.role == "impl"), "")
