"""Answers of the translator, compared with those of rustc."""
from __future__ import annotations

from collections import Counter
from typing import Any, Iterable

from .compiler import FAILS, HOLDS, LIFETIMES, OPEN, REJECTED, Verdict
from .generate import Query
from .translator import REFUSED, Answer

WRONG, NOT_READ, NOT_SETTLED = "wrong", "not read", "not settled"
# What counts as an answer that was compared with rustc.
COUNTED = ("yes/yes", "no/no", "unproved/no", NOT_SETTLED, NOT_READ, WRONG, "yes, but for lifetimes")


def compared(answer: Answer, verdict: Verdict) -> str:
    """One word for both. rustc says yes, no, that the bound holds except for lifetimes, or nothing."""
    if verdict.word in (REJECTED, OPEN):
        return verdict.word
    if answer.word == REFUSED:
        return NOT_READ
    if answer.word == NOT_SETTLED:
        return NOT_SETTLED
    if verdict.word == LIFETIMES:
        return "yes, but for lifetimes" if answer.word == "yes" else WRONG
    if answer.word == "yes":
        return "yes/yes" if verdict.word == HOLDS else WRONG
    if answer.word in ("no", "unproved"):
        return f"{answer.word}/no" if verdict.word == FAILS else WRONG
    return WRONG


def foundation(answer: Answer) -> str:
    """On what an answer rests, without its details."""
    if answer.word == REFUSED or answer.word == NOT_SETTLED:
        return ""
    if answer.basis.startswith("by law"):
        return "by law"
    return "argued" if answer.basis.startswith("argued") else "no proof in either text" if answer.word == "unproved" else answer.basis


def row(query: Query, answer: Answer, verdict: Verdict) -> dict[str, Any]:
    return {"how": query.kind, "question": query.written(), "said": answer.word, "basis": answer.basis, "foundation": foundation(answer),
            "rests_on": answer.rests_on, "rustc": verdict.word, "rustc_why": verdict.why, "verdict": compared(answer, verdict)}


def counts(rows: Iterable[dict[str, Any]]) -> Counter[str]:
    return Counter(r["verdict"] for r in rows)
