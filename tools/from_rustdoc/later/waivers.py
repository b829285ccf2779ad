"""Changes that are waived, each with a reason: what a waiver hides is counted and said, and a waiver that waives nothing is reported."""
from __future__ import annotations

import re
from typing import Iterable, Sequence

from ..read.settings import Waiver
from ..report.messages import Message
from .release import NOT_JUDGED, Release

# Of what a message can say by its answer, what can be waived.
WAIVED = ("breaking", "not settled", "changed", NOT_JUDGED)
MAXIMAL_NAMED = 3
# `struct a::B has ..`, `function `a::f` is removed`.
KINDS = ("associated constant", "glob re-export", "extern type", "type without a path", "struct", "enum", "union", "trait", "type", "function", "constant",
         "static", "macro", "module", "method", "field", "variant")
NAMED = re.compile(rf"(?:the library |(?:{'|'.join(KINDS)}) )?(?:`([^`]*)`|([^\s`]*[^\s`:,]))")


def item_of(message: Message) -> str:
    """The item that a change is about: the path or the header that its text begins with."""
    found = NAMED.match(message.text)
    return (found[1] or found[2] or "") if found else ""


def waive(release: Release, waivers: Sequence[Waiver]) -> None:
    """Marks the changes that are waived. What is not judged is counted no more."""
    for message in release.messages:
        item, of_class = item_of(message), [waiver for waiver in waivers if waiver.code == message.code]
        waiver = next((waiver for waiver in of_class if waiver.item == item), None)
        if message.word not in WAIVED:
            continue
        if waiver is None:
            for one in of_class:
                one.others.append(item)
            continue
        waiver.count += 1
        message.waived = waiver.reason
        if message.word == NOT_JUDGED:
            release.not_judged[message.counted_as] -= 1
            release.not_judged += type(release.not_judged)()


def unused(waivers: Iterable[Waiver]) -> list[Message]:
    """What is reported of waivers that waive nothing."""
    return [Message(f"a waiver in {waiver.place} waives nothing: {waiver.shown()}; {meant(waiver) or 'remove it'}", "waiver-unused", "waives nothing")
            for waiver in waivers if not waiver.count]


def meant(waiver: Waiver) -> str:
    """The items of its class that nothing waives: one of them may be meant."""
    others = list(dict.fromkeys(waiver.others))
    named = ", ".join(f"`{item}`" for item in others[:MAXIMAL_NAMED])
    return f"what nothing waives of this class is of {named}" + (f" and {len(others) - MAXIMAL_NAMED} more" if len(others) > MAXIMAL_NAMED else "") if others else ""
