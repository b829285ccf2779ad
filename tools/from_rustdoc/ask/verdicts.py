"""Answers to queries, and checks of crates, as messages."""
from __future__ import annotations

from dataclasses import dataclass
from typing import Any, Optional

from ..read.terms import Lossy, Named, Place
from ..report.items import PATTERNED, is_of
from ..report.messages import BAD, FINE, UNSETTLED, Message, Output, Span, at, plain, worst
from .back import Askable
from .program import Answer
from .questions import Verdict
from .reasons import why

# Which answers are as expected: rustc refuses a bound that is `unproved` as it does one that is `no`.
EXPECTED = {"yes": ("yes",), "no": ("no", "unproved"), "maybe": ("maybe",)}
# A list of a map: the source, the header, the losses, and the place of an impl.
Entry = list[Any]


# ---- queries
def answer_message(verdict: Verdict, expected: Optional[str], program: Optional[str], with_proof: bool) -> Message:
    """An answer with the reason of it. `basis` and `rests_on` say what it rests on."""
    unexpected = expected is not None and verdict.word != "not settled" and verdict.word not in EXPECTED[expected]
    text = f"`{verdict.question.written}`: {verdict.word}" + (f" {verdict.values}" if verdict.values else "")
    reasons = why(verdict, program, with_proof) if verdict.is_explained else []
    if verdict.because:
        reasons.append(Message(verdict.because, kind="note", summary=verdict.because))
    return Message(f"{text}, where {expected} was expected" if unexpected else text, verdict.word.replace(" ", "-"),
                   "not as expected" if unexpected else verdict.word, verdict.question.of_crate, place_of(verdict), reasons, verdict.basis, verdict.rests_on,
                   values=values_of(verdict))


def values_of(verdict: Verdict) -> list[tuple[str, str]]:
    if verdict.asked is None or not verdict.found:
        return []
    show = Askable(verdict.asked.translation.world)
    return [(name, show.type(value)) for name, value in verdict.found.items()]


def place_of(verdict: Verdict) -> list[Span]:
    """Where the type of a query is declared."""
    subject = verdict.question.subject
    if verdict.asked is None or not isinstance(subject, Named):
        return []
    try:
        return at(verdict.asked.translation.world.get(subject.key, "struct", subject.arguments).place)
    except Lossy:
        return []


def say_answer(message: Message, verdict: Verdict, output: Output) -> None:
    """For people: the query, the answer, and a line for each step of the reason."""
    if output.takes(message):
        output.message(message)
        return
    output.line((verdict.show() if output.is_verbose else shown(verdict, message)) + ("   not as expected" if message.word == "not as expected" else ""))
    if not output.has_details:
        return
    for child in message.children:
        if child.text == verdict.because and not output.is_verbose:
            continue
        place = f" ({output.sources.shown(child.spans[0])}:{child.spans[0].place.line})" if child.spans else ""
        output.line(f"    {'help: ' if child.level == 'help' else ''}{child.text}{place}")


def shown(verdict: Verdict, message: Message) -> str:
    """The query and the answer, with what it rests on, in plain words."""
    last = next((note.summary for note in reversed(message.children) if note.level == "note"), "")
    how = "; ".join(filter(None, [last if verdict.word == "no" else "", plain(verdict.basis) if verdict.word != "unproved" else no_proof(verdict, last)]))
    tail = (f" {verdict.values}" if verdict.values else "") + (f"   ({how})" if how else "")
    return "\n    ".join([f"{verdict.question.written}    {verdict.word}{tail}", *(f"left out: {plain(line)}" for line in verdict.rests_on)])


def no_proof(verdict: Verdict, because: str) -> str:
    """What `unproved` says. Only the owner of a type or trait that is named can add an impl where the query leaves none open."""
    question = verdict.question
    params = [f"`{param.name}`" for param in question.params]
    if params:
        return f"there is no proof for every {', '.join(params)}"
    who = "another crate, or a later version," if question.has_unknowns() else "a later version"
    return f"does not hold{': ' if because else ''}{because}; {who} may add an impl"


# ---- checks
@dataclass
class Checked:
    """What is said of one crate: a line, and of a refusal the message."""
    crate: str
    word: str
    line: str
    message: Optional[Message] = None

    @property
    def status(self) -> int:
        return {"coherent": FINE, "not settled": UNSETTLED}.get(self.word, BAD)

    def say(self, output: Output) -> None:
        output.line(self.line)
        if self.message is not None:
            output.message(self.message)
        if output.is_json:
            output.summary(self.line, self.crate, self.word, self.status)


def check_verdicts(summary: list[str], crates: list[str], answers: dict[str, Answer], places: dict[str, dict[str, list[Entry]]]) -> list[Checked]:
    """Of each crate that it is coherent, not coherent, or not settled. Of std, and of crates that were not given, only a refusal is reported."""
    found = []
    for crate in crates:
        name, _, rest = next((s for s in summary if is_of(s, crate)), crate).partition(": ")
        upper, lower = (answers[mode].crates.get(crate, "accepted") for mode in ("upper", "lower"))
        if upper == "accepted":
            found += [Checked(crate, "coherent", f"{name}: coherent. {rest}")] if rest else []
            continue
        mode = "upper" if lower == "accepted" else "lower"
        message = refusal(answers[mode].crates[crate], crate, places[mode])
        message.word = "not settled" if lower == "accepted" or PATTERNED in message.rests_on else "not coherent"
        how = " (the upper text alone has it)" if lower == "accepted" else ""
        found.append(Checked(crate, message.word, f"{name}: {message.word}{how}. {rest}", message))
    return found


def refusal(verdict: str, crate: str, places: dict[str, list[Entry]]) -> Message:
    """`overlap impl 3 with std 200` and `orphan impl 3 nonlocal` with the sources and headers that the numbers stand for."""
    words = verdict.split()
    if words[:1] == ["overlap"]:
        first, second = places[crate][int(words[2]) - 1], places[words[4]][int(words[5]) - 1]
        message = Message(f"conflicting implementations: `{first[1]}` ({first[0]}) and `{second[1]}` ({second[0]})", "overlap", crate=crate,
                          spans=at(place_in(first)) + at(place_in(second), "conflicts with this one", is_primary=False))
        message.rests_on = [losses for losses in (first[2], second[2]) if losses][:1]
        return message.help("rustc has E0119 for it")
    if words[:1] == ["orphan"]:
        only = places[crate][int(words[2]) - 1]
        message = Message(f"orphan impl: `{only[1]}` ({only[0]}): {' '.join(words[3:])}", "orphan", crate=crate, spans=at(place_in(only)))
        message.rests_on = [only[2]] if only[2] else []
        return message.help("rustc has E0117 or E0210 for it")
    return Message(verdict, "refused", crate=crate)


def place_in(entry: Entry) -> Optional[Place]:
    return Place(*entry[3]) if len(entry) > 3 and entry[3] else None


def say_checks(checks: list[Checked], output: Output) -> int:
    for check in checks:
        check.say(output)
    return worst(check.status for check in checks)
