"""Queries whose answers a release is judged by, asked in one of its two versions: each by the part of the crates that may matter."""
from __future__ import annotations

from dataclasses import dataclass
from typing import Iterable, Optional

from ..ask.answer import Answerer
from ..ask.cone import cone_of_questions
from ..ask.questions import Asker, Question, Verdict
from ..ask.reasons import why
from ..model.world import World
from ..read.terms import BadInput, Lossy
from ..report.messages import Message

AT_ONCE = 60


@dataclass
class Claim:
    """A query, and the message unless the answer is yes. `word` is the message's word if there is no proof."""
    question: Question
    message: Message
    word: str = "breaking"


@dataclass(frozen=True)
class Programs:
    """The program that answers, and the one that explains: the proved ones that are here unless others are named."""
    answers: Optional[str] = None
    explains: Optional[str] = None


class Judge:
    """Has queries answered in one version."""

    def __init__(self, world: World, programs: Programs) -> None:
        self.world = world
        self.programs = programs

    def ask(self, questions: list[Question]) -> list[Verdict]:
        found: list[Verdict] = []
        for start in range(0, len(questions), AT_ONCE):
            found += self.ask_together(questions[start:start + AT_ONCE])
        return found

    def ask_together(self, questions: list[Question]) -> list[Verdict]:
        """All by one text. A claim that it does not settle gets a text of its own, so that one that is not understood spoils none."""
        try:
            translation = cone_of_questions(self.world, questions)
            translation.build()
            found = Asker(translation, self.programs.answers).ask(questions)
        except (BadInput, Lossy):
            found = [Verdict(question, "not settled") for question in questions]
        return [self.alone(v.question) if v.word == "not settled" else v for v in found]

    def alone(self, question: Question) -> Verdict:
        try:
            return Answerer(self.world, self.programs.answers).answer(question)
        except (BadInput, Lossy) as error:
            return Verdict(question, "not settled", f"the question cannot be asked: {error}")

    def settle(self, claims: list[Claim]) -> list[Message]:
        """The messages for the claims: none if there is a proof."""
        found = []
        for claim, verdict in zip(claims, self.ask([claim.question for claim in claims])):
            if verdict.word != "yes":
                found.append(self.told(claim, verdict))
        return found

    def told(self, claim: Claim, verdict: Verdict) -> Message:
        message = told(claim, verdict)
        message.children += self.reasons(verdict)
        return message

    def reasons(self, verdict: Verdict) -> list[Message]:
        """Why there is no proof. For a release it does not say what may be done about it."""
        return [note for note in why(verdict, self.programs.explains) if note.level == "note"] if verdict.word != "not settled" else []


def told(claim: Claim, verdict: Verdict) -> Message:
    message = claim.message
    if verdict.word == "not settled":
        message.word = "not settled"
        message.note(f"whether `{verdict.question.written}` still holds is not settled: {verdict.basis}")
        message.rests_on += verdict.rests_on
    else:
        message.word = claim.word
        message.basis = f"`{verdict.question.written}` has no proof: {verdict.word}, {verdict.basis}"
    return message


def worst_first(messages: Iterable[Message]) -> list[Message]:
    order = {"error": 0, "warning": 1}
    return sorted(messages, key=lambda m: order.get(m.level, 2))
