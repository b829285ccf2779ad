"""Reads texts line by line, and answers to them: what docs/FORMAT.md says of their form."""
from __future__ import annotations

import re
from typing import NamedTuple, Sequence

from .common import Wrong

FAULT = re.compile(rb"line ([0-9]+): fault ([0-9]+)\n")
FAULTS = range(1, 17)
STATEMENT = re.compile(r" *(crate|later|supers|prove|refute|struct|trait|impl|fundamental|auto)(?![A-Za-z0-9_])")
NAME = re.compile(r" *(?:crate|later|supers +in) +([A-Za-z_][A-Za-z0-9_]*)")
FORMS = {
    "crate": r"(accepted|orphan impl [1-9][0-9]* (?:nonlocal|uncovered .+)|overlap impl [1-9][0-9]* with [A-Za-z_][A-Za-z0-9_]* [1-9][0-9]*)",
    "later": r"(compatible|breaking impl [1-9][0-9]*)",
    "supers": r"(held|(?:missing|undecided) impl [1-9][0-9]* clause [1-9][0-9]*)",
    "prove": r"((?:yes|maybe)(?: \?[^ ]+ = .+)?|unproved)",
    "refute": r"(no|open)",
}


def statements(lines: Sequence[str]) -> list[str]:
    """The kind of each line, '' for one that is skipped."""
    return [found[1] if found else "" for found in map(STATEMENT.match, lines)]


class Answer(NamedTuple):
    """The verdicts of the crates, the answers of sections and of supertraits, and the answers of queries."""

    verdicts: list[str]
    checks: list[str]
    answers: list[str]


def read_answer(lines: Sequence[str], kinds: Sequence[str], output: bytes) -> Answer:
    """The answer, where each of its lines is as it should be."""
    forms: tuple[list[str], list[str], list[str]] = ([], [], [])
    for line, kind in zip(lines, kinds):
        if kind in ("crate", "later", "supers"):
            found = NAME.match(line)
            if not found:
                raise Wrong(f"an answer to a text with the line '{line}'")
            forms[kind != "crate"].append(f"{kind} {found[1]}: {FORMS[kind]}")
        elif kind in ("prove", "refute"):
            forms[2].append(f"{kind} {len(forms[2]) + 1}: {FORMS[kind]}")
    found = iter(matched(sum(forms, []), output.decode("ascii").split("\n")))
    return Answer(*([next(found) for _ in part] for part in forms))


def matched(forms: Sequence[str], written: list[str]) -> list[str]:
    """The part of each line of an output after the first ': '."""
    if written.pop() != "" or len(written) != len(forms):
        raise Wrong(f"{len(written)} lines of an answer, {len(forms)} are expected")
    answers = []
    for form, line in zip(forms, written):
        found = re.fullmatch(form, line)
        if not found:
            raise Wrong(f"a line '{line}' where '{form}' is expected")
        answers.append(found[1])
    return answers


def first_word(verdict: str) -> str:
    return verdict.partition(" ")[0]
