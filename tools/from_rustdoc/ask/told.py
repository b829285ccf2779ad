"""Conditions, and the traits of a type, as messages."""
from __future__ import annotations

from ..report.messages import FINE, UNSETTLED, Message, Output, plain
from .conditions import Conditions, Finder
from .reasons import why
from .traits import Traits
from .verdicts import place_of

CODES = {"yes": "holds", "no": "no-bounds", "not settled": "not-settled"}


# ---- conditions
def conditions_message(found: Conditions, finder: Finder) -> Message:
    """`bounds` are those under which the query holds, as where-clauses of a query."""
    text, bounds = answer_of(found, finder), bounds_of(found, finder)
    message = Message(f"`{found.question.written}`: {text}", CODES[found.word], found.word, found.verdict.question.of_crate, place_of(found.verdict),
                      basis=found.basis, rests_on=found.verdict.rests_on, more={"bounds": bounds if found.word == "yes" else None})
    if found.because:
        message.note(found.because)
    if found.word == "no" and found.verdict.is_explained:
        message.children += [note for note in why(found.verdict, finder.explaining) if note.level == "note"]
    return message


def bounds_of(found: Conditions, finder: Finder) -> list[str]:
    return [finder.shown(bound) for bound in found.bounds]


def answer_of(found: Conditions, finder: Finder) -> str:
    """`yes where T: Send`, or that no bounds help."""
    if found.word != "yes":
        return found.word
    if found.bounds:
        return f"yes where {', '.join(bounds_of(found, finder))}"
    names = [f"`{param.name}`" for param in found.question.params]
    return f"yes, whatever {' and '.join(names)} {'is' if len(names) == 1 else 'are'}" if names else "yes"


def say_conditions(found: Conditions, finder: Finder, output: Output) -> int:
    message = conditions_message(found, finder)
    if output.takes(message):
        output.message(message)
        return message.status
    how = found.basis if output.is_verbose else plain(found.basis)
    if found.word != "yes":
        how = f"no bounds help: {found.because}" if found.word == "no" else found.because or how
    output.line(f"{found.question.written}    {answer_of(found, finder)}" + (f"   ({how})" if how else ""))
    for note in message.children if output.has_details else ():
        if note.text != found.because:
            output.line(f"    {note.text}" + (f" ({output.sources.shown(note.spans[0])}:{note.spans[0].place.line})" if note.spans else ""))
    for line in found.verdict.rests_on:
        output.line(f"    left out: {line if output.is_verbose else plain(line)}")
    return message.status


# ---- traits
def impl_of(found: Conditions, finder: Finder) -> str:
    """The impl as rustdoc shows it: `impl<T> Clone for Pool<T> where T: Clone`."""
    names = ", ".join(f"const {param.name}" if param.kind == "const" else param.name for param in found.question.params)
    where = f" where {', '.join(bounds_of(found, finder))}" if found.bounds and found.word == "yes" else ""
    return f"impl{f'<{names}>' if names else ''} {finder.show.bound(found.question.bound)} for {finder.show.type(found.question.subject)}{where}"


def say_traits(found: Traits, finder: Finder, output: Output) -> int:
    """A line for each impl that holds, then what does not and what is not settled, and how many there are."""
    for one in found.found:
        output.line(impl_of(one, finder) + (f"   ({one.basis})" if output.is_verbose else ""))
    for one in (*found.found, *found.without, *found.unsettled) if output.is_json else ():
        message = conditions_message(one, finder)
        message.more["impl"] = impl_of(one, finder) if one.word == "yes" else None
        output.message(message)
    for one in found.without:
        output.line(f"not {finder.show.bound(one.question.bound)}: {one.because}")
    for one in found.unsettled:
        output.line(f"not settled: {finder.show.bound(one.question.bound)}: {plain(one.because)}")
    status = UNSETTLED if found.unsettled else FINE
    counts = {"holds": len(found.found), "not": len(found.without), "not settled": len(found.unsettled), "not asked": len(found.unnamed)}
    output.summary(f"{found.question.written}: {found.summary()}", crate_of(found), "not settled" if found.unsettled else "yes", status, counts=counts)
    return status


def crate_of(found: Traits) -> str:
    return next((one.verdict.question.of_crate for one in (*found.found, *found.without, *found.unsettled)), "")
