"""A release judged: what a later version of a crate changes, and whether that breaks crates that use it."""
from __future__ import annotations

from collections import Counter
from dataclasses import dataclass, field
from typing import Callable

from ..model.world import World
from ..report.messages import BAD, FINE, UNSETTLED, Message, worst
from .auto_changes import AutoChanges
from .bump import MAJOR
from .claims import Judge, Programs, worst_first
from .constant_changes import ConstantChanges
from .impl_changes import ImplChanges
from .item_changes import ItemChanges
from .member_changes import MemberChanges
from .size_changes import SizeChanges
from .versions import Versions

ANSWERS = {FINE: "compatible", UNSETTLED: "not settled", BAD: "breaking"}
# What is said in place of `compatible` if something that changed is not judged.
IN_WHAT_WAS_JUDGED = "no break found in what was judged"
# And if something is waived.
BUT_WAIVED = "no break but what is waived"
NOT_JUDGED = "not judged"
ORDER = ("breaking", "not settled", "changed", "compatible", "new", "sealed", "private")


@dataclass
class Release:
    """What is reported of a release, worst first. `not_judged` counts what changed and has no class, by kind. `kind` is a major, minor or patch
    release, or none, `is_given` says that this is not by the versions' numbers."""
    crate: str
    versions: tuple[str, str]
    messages: list[Message] = field(default_factory=list)
    not_judged: Counter[str] = field(default_factory=Counter)
    kind: str = ""
    is_given: bool = False

    @property
    def status(self) -> int:
        return worst(m.status for m in self.messages)

    @property
    def answer(self) -> str:
        if self.status == FINE and self.not_judged:
            return IN_WHAT_WAS_JUDGED
        return BUT_WAIVED if self.status == FINE and self.waived() else ANSWERS[self.status]

    @property
    def may_break(self) -> bool:
        return self.kind == MAJOR

    def strict_status(self) -> int:
        """The status where what is not judged is not settled."""
        return worst([self.status, UNSETTLED]) if self.not_judged else self.status

    def exit_status(self, is_strict: bool) -> int:
        """What breaks in a major release is what its number says."""
        if self.may_break:
            return FINE
        return self.strict_status() if is_strict else self.status

    def count(self, word: str) -> int:
        """Of what is not waived."""
        return sum(m.word == word and not m.waived for m in self.messages)

    def waived(self) -> Counter[str]:
        return Counter(m.word for m in self.messages if m.waived)

    def raise_levels(self, is_strict: bool) -> None:
        """The levels say what the status says: a break that may be is a warning, and so is what is not judged if that counts."""
        for message in self.messages:
            if self.may_break and message.level == "error" or is_strict and not self.may_break and message.word == NOT_JUDGED:
                message.kind = "warning"

    def summary(self) -> str:
        waived = self.waived()
        counts = [f"{self.count(word)} {word}" for word in ORDER if self.count(word)] + [f"{count} {word} waived" for word, count in waived.items()]
        old, new = (v or "?" for v in self.versions)
        kind = f" ({self.kind}{', as given' if self.is_given else ''})" if self.kind else ""
        nothing = "" if self.not_judged else " (nothing public has changed)"
        allowed = f", as a {MAJOR} release may be" if self.may_break and self.status != FINE else ""
        return f"{self.crate} {old} to {new}{kind}: {self.answer}{allowed}" + (f" ({', '.join(counts)})" if counts else nothing)

    def uncovered(self) -> str:
        """How much is not judged; empty where all is."""
        counts = [f"{count} {kind}{'s' if count > 1 else ''}" for kind, count in sorted(self.not_judged.items())]
        return f"not judged: {', '.join(counts)}" if counts else ""


def compared(old: World, new: World, crate: str, with_private: bool = False, programs: Programs = Programs(),
             is_same: Callable[[], bool] = lambda: False) -> Release:
    """`is_same` says whether all sources are the same, on which it depends what no document tells."""
    versions = Versions(old, new, crate)
    items = ItemChanges(versions, is_same)
    items.run()
    impls = ImplChanges(versions, items.troubled, with_private, programs)
    impls.run()
    autos = AutoChanges(versions, items.troubled, programs)
    autos.run()
    constants = ConstantChanges(versions, items.troubled)
    constants.run()
    sizes = SizeChanges(versions, items.troubled, programs)
    sizes.run()
    members = MemberChanges(items)
    members.run()
    told = items.messages + Judge(new, programs).settle(items.claims)
    drops = [message.spans for message in told if message.code == "drop-added"]
    messages = told + [m for m in impls.messages if m.spans not in drops] + autos.messages + constants.messages + sizes.messages
    messages += items.new_items + items.unjudged
    for message in messages:
        message.crate = crate
    return Release(crate, (old.crates[crate].version, new.crates[crate].version), worst_first(messages), items.not_judged)
