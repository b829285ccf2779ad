"""What a type's last field decides: whether the type is `Sized`, and whether a reference to it can become one to an unsized type, as
`&S<[u8; 3]>` becomes `&S<[u8]>`."""
from __future__ import annotations

from typing import Optional

from ..ask.questions import Question
from ..model.surface import Item
from ..model.world import World
from ..read.html_docs import is_std_key
from ..read.terms import Bound, Declaration, Lossy, Named, Parameter, Tuple, Type, argument_values, parameters_of, put
from ..report.messages import Message, at
from ..write.render import is_sizedness
from .claims import Judge, Programs
from .item_changes import SIZED, change
from .versions import Gone, Versions, plain_params

MAXIMAL_DEPTH = 16


class SizeChanges:
    """`troubled` are old items that are gone or take other arguments."""

    def __init__(self, versions: Versions, troubled: dict[str, Message], programs: Programs) -> None:
        self.versions = versions
        self.troubled = troubled
        self.programs = programs
        self.messages: list[Message] = []

    def run(self) -> None:
        versions = self.versions
        changed: list[tuple[Item, Question, Question]] = []
        for old_key, new_key in versions.newer.items():
            old, new = versions.before.items.get(old_key), versions.after.items.get(new_key)
            if old is None or new is None or old.kind != "struct" or new.kind != "struct" or old_key in self.troubled:
                continue
            self.unsizing(old, new)
            if self.tail(versions.old, old, old) != self.tail(versions.new, new, old):
                asked = self.questions(old)
                changed += [(new, *asked)] if asked is not None else []
        after = Judge(versions.new, self.programs).ask([question for _, _, question in changed])
        lost = [(entry, verdict) for entry, verdict in zip(changed, after) if verdict.word != "yes"]
        before = Judge(versions.old, self.programs).ask([question for (_, question, _), _ in lost])
        for ((new, _, _), verdict), was in zip(lost, before):
            if was.word == "yes":
                word = "not settled" if verdict.word == "not settled" else "breaking"
                how = "may not be" if word == "not settled" else "is not"
                self.messages.append(change("sized-lost", f"{new.shown()} {how} `Sized` any more", at(new.place), word=word))

    # ---- whether it is sized
    def tail(self, world: World, item: Item, old: Item) -> Type:
        """The last of the last fields, in the form of both versions."""
        names: dict[str, Type] = {p.name: q for p, q in zip(item.params, old.itself().arguments)}
        return self.versions.common(world, put(last(world, item.itself()), names))

    def questions(self, old: Item) -> Optional[tuple[Question, Question]]:
        versions, written = self.versions, f"{self.versions.show_old.type(old.itself())}: Sized"
        params = plain_params(old.params)

        def asked(world: World, subject: Type, predicates: list[tuple[Type, Bound]]) -> Question:
            return Question(written, subject, Bound(world.pages.key(SIZED) or ""), params, predicates, crate=versions.crate)

        try:
            return (asked(versions.old, old.itself(), old.predicates),
                    asked(versions.new, versions.to_new(old.itself()), versions.predicates_to_new(old.predicates)))
        except Gone:
            return None

    # ---- what it can become
    def unsizing(self, old: Item, new: Item) -> None:
        before, after = self.free(self.versions.old, old), self.free(self.versions.new, new)
        for b, a in zip(old.params, new.params):
            if b.name in before and a.name not in after and may_be_unsized(new, a.name):
                self.messages.append(change("unsizing-lost", f"{new.shown()} with an array for `{a.name}` is no longer one with a slice for it: `{a.name}` "
                                            "is not in the last field alone, or not held by it", at(new.place)))

    @staticmethod
    def free(world: World, item: Item) -> set[str]:
        return {name for name in passing(world, world.get(item.key)) if may_be_unsized(item, name)}


def may_be_unsized(item: Item, name: str) -> bool:
    return any(term == Parameter(name) and is_sizedness(bound) for term, bound in item.predicates)


def declaration_of(world: World, term: Named) -> Optional[Declaration]:
    try:
        return world.get(term.key, "struct", term.arguments)
    except Lossy:
        return None


def last_field(declaration: Declaration) -> Optional[Type]:
    """None where the type is sized whatever its arguments are."""
    if is_std_key(declaration.key):
        return declaration.tail
    return declaration.fields[-1] if declaration.fields and not declaration.is_enum else None


def last(world: World, term: Type, depth: int = 0) -> Type:
    """What decides whether a type is sized: the unit where it always is."""
    if isinstance(term, Tuple) and term.items:
        return last(world, term.items[-1], depth + 1)
    if not isinstance(term, Named) or depth > MAXIMAL_DEPTH:
        return term
    declaration = declaration_of(world, term)
    if declaration is None or declaration.is_opaque:
        return term
    field = last_field(declaration)
    return last(world, put(field, argument_values(declaration.params, term.arguments)), depth + 1) if field is not None else Tuple(())


def passing(world: World, declaration: Declaration, depth: int = 0) -> set[str]:
    """The parameters for which an unsized type may come in: the last field holds them, and no other names them."""
    field = last_field(declaration)
    if field is None or depth > MAXIMAL_DEPTH:
        return set()
    others = [] if is_std_key(declaration.key) else declaration.fields[:-1]
    return held(world, field, depth).difference(*map(parameters_of, others))


def held(world: World, term: Type, depth: int) -> set[str]:
    """The parameters that a field holds last."""
    if isinstance(term, Parameter):
        return {term.name}
    declaration = declaration_of(world, term) if isinstance(term, Named) else None
    if declaration is None or not isinstance(term, Named):
        return set()
    inner = passing(world, declaration, depth + 1)
    arguments = list(zip(declaration.params, term.arguments))
    found = set().union(*(held(world, a, depth + 1) for p, a in arguments if p.name in inner))
    return found.difference(*(parameters_of(a) for p, a in arguments if p.name not in inner))
