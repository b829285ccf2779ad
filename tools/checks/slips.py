"""Mistakes in texts: which token `--explain` marks, and its message.

Each row of tools/checks/slips.txt is a text with the expected mark and message. Each line of the examples that the grammar has is tried
with a sign after it that no line has: this sign is marked, and nothing before it. Such lines are also tried with one token left out,
doubled or replaced: if that is fault 2, a token is marked, with what is expected there. The heading at the end of a message is one of
docs/FORMAT.md. In the texts of SEVERAL exactly these lines are explained, each with its fault.

    tools/check slips                       the rows, the lines of the examples, and 400 changed ones
    tools/check slips --changed 5000 --seed 2
"""
from __future__ import annotations

import argparse
import random
import re
from functools import partial
from typing import Any, Iterator, NamedTuple

from .common import TOP, Tally, Wrong, examples, program, run
from .explained_json import read_lines

TOKEN = re.compile(rb"['?]?\w+|->|\S")
BASE = b"crate base\ntrait Show\ntrait Num\nauto trait Send\nstruct V<T>(T)\nstruct A\n"
# Texts, and each line that is explained with its fault: none that is faulty only because a faulty line above it declared nothing.
SEVERAL: list[tuple[bytes, list[tuple[int, int]]]] = [
    (BASE + b"pub struct W\nimpl Show for W\nimpl Show for X\nimpl Num for X;", [(7, 2), (9, 5), (10, 2)]),
    (BASE + b"struct B(C)\nstruct D(B)\nstruct E(D)\nstruct A\nimpl<T> Num for u8", [(7, 5), (10, 4), (11, 8)]),
    (BASE + b"struct V\nimpl Show for V\nimpl Show for Show", [(7, 4), (9, 7)]),
    (b"crate a uses z\nstruct A\nimpl Nope for A\nimpl A\ncrate b\nimpl Nope for u8\nimpl Clone for Nay\nrefute in a u8: Clone",
     [(1, 5), (4, 2), (7, 5)]),
    (b"crat a\nstruct A\ncrate b\nstruct B\nimpl Clone for A\nimpl Sized for B", [(1, 2), (6, 12)]),
    (b"trait A\ntrait B\ncrate c\nimpl A for u8\nimpl C for u8", [(1, 3), (5, 5)]),
    (b"crate c\n" + b"struct;\n" * 200, [(number, 2) for number in range(2, 103)]),
]
RULE = re.compile(r"the rule: docs/FORMAT\.md, `([^`]*(?:`[^`]*`)?[^`]*)`$")


class Row(NamedTuple):
    """A text, the part of its faulty line that is marked, and parts of the message."""

    text: bytes
    marked: str
    message: list[str]


def bytes_of(written: str) -> bytes:
    return written.encode("latin-1").decode("unicode_escape").encode("latin-1")


def rows() -> Iterator[Row]:
    for line in (TOP / "tools/checks/slips.txt").read_text(encoding="ascii").splitlines():
        if line and not line.startswith("#"):
            written, marked, message = line.split(" | ")
            text = bytes_of(written)
            yield Row(text[1:] if text.startswith(b"^") else BASE + text, bytes_of(marked).decode("latin-1"), message.split(" .. "))


class Fault(NamedTuple):
    """A fault, the part of its line that is marked, and the whole message."""

    number: int
    marked: str
    labels: list[str]
    helps: list[str]


class Checks:
    def __init__(self) -> None:
        self.path = program("celtisdarts")
        page = (TOP / "docs/FORMAT.md").read_text(encoding="utf-8")
        self.headings = {it.lstrip("#").strip() for it in page.splitlines() if it.startswith("#")}
        self.seen: set[int] = set()

    def explain(self, text: bytes) -> Any:
        ended = run([self.path, "8", "--explain", "--json"], text)
        if ended.status not in (0, 1):
            raise Wrong(f"status {ended.status}")
        return read_lines(ended.output)

    def fault_of(self, text: bytes) -> Fault:
        """The fault of a text. Its last words are the heading that has the rule, which is there."""
        first, *_ = self.explain(text)
        if not first.answer.startswith("line "):
            raise Wrong(f"no fault: {first.answer}")
        _, line, _, number = re.split(r": | ", first.answer)
        spans = first.message["spans"]
        main = [it for it in spans if it["is_primary"]][0]
        marked = text.split(b"\n")[int(line) - 1][main["column_start"] - 1:main["column_end"] - 1].decode("latin-1")
        helps = [it["message"] for it in first.message["children"]]
        found = RULE.match(helps[-1]) if helps else None
        if not found or found[1] not in self.headings:
            raise Wrong(f"docs/FORMAT.md has no such heading: {helps[-1:]}")
        self.seen.add(int(number))
        return Fault(int(number), marked, [it["label"] or "" for it in spans], helps[:-1])

    def hold(self, row: Row) -> None:
        fault = self.fault_of(row.text)
        if fault.marked != row.marked:
            raise Wrong(f"{fault.marked!r} is marked, and not {row.marked!r}")
        for part in row.message:
            if not any(part in it for it in [*fault.labels, *fault.helps]):
                raise Wrong(f"the message lacks {part!r}: {fault}")

    def hold_several(self, text: bytes, expected: list[tuple[int, int]]) -> None:
        """These lines of a text are explained, and no other."""
        found = [(it.message["parts"]["line"], it.message["parts"]["fault"]) for it in self.explain(text)]
        if found != expected:
            raise Wrong(f"{found} are explained, and not {expected}")

    def hold_sign(self, line: bytes) -> None:
        """A line that the grammar has goes on to a sign that no line has."""
        fault = self.fault_of(line + b" @")
        if (fault.number, fault.marked) != (2, "@") or not fault.labels[0].startswith("expected "):
            raise Wrong(f"of {line!r} with `@` after it: {fault}")

    def hold_changed(self, line: bytes) -> None:
        first = self.explain(line)[0] if line.strip() else None
        if first and first.answer.endswith(": fault 2"):
            fault = self.fault_of(line)
            if not fault.labels[0].startswith("expected ") or len(TOKEN.findall(fault.marked.encode("latin-1"))) > 1:
                raise Wrong(f"of {line!r} no token is marked: {fault}")


def lines_of_examples() -> list[bytes]:
    """Each line of the examples that says something, once."""
    lines = [line for it in examples() for line in it.text.split(b"\n")]
    return sorted({it for it in lines if it.strip() and not it.lstrip().startswith(b"//") and it.isascii() and len(it) < 1000})


def changed(rng: random.Random, line: bytes) -> bytes:
    """A line with one token left out, doubled, or another in its place."""
    tokens = TOKEN.findall(line)
    at = rng.randrange(len(tokens))
    other = rng.choice([b"for", b"where", b"<", b">", b",", b":", b"(", b")", b"T", b"'a", b"u8", b"3", b"dyn", b"&", b"?x", b";", b"[", b"+"])
    tokens[at:at + 1] = rng.choice([[], [tokens[at]] * 2, [other], [tokens[at], other]])
    return b" ".join(tokens)


def add_words(reader: argparse.ArgumentParser) -> None:
    reader.add_argument("--changed", type=int, default=400)
    reader.add_argument("--seed", default="1")


def check(tally: Tally, given: argparse.Namespace) -> None:
    checks = Checks()
    for row in rows():
        tally.hold(f"slip {row.text.splitlines()[-1]!r}", partial(checks.hold, row))
    for text, expected in SEVERAL:
        tally.hold(f"faulty lines of {text[:200]!r}", partial(checks.hold_several, text, expected))
    unwritten = [it.text for it in examples() if it.expected().endswith(b": fault 2\n")]
    good = [it for it in lines_of_examples() if not any(it in text for text in unwritten)]
    for line in good:
        tally.hold(f"line {line!r}", partial(checks.hold_sign, line))
    rng = random.Random(f"{given.seed}:slips")
    for _ in range(given.changed):
        line = changed(rng, rng.choice(good))
        tally.hold(f"changed line {line!r}", partial(checks.hold_changed, line))
    for it in examples():
        if it.expected().startswith(b"line "):
            tally.hold(f"the heading of example {it.name}", partial(checks.fault_of, it.text))
    tally.expect("all faults are tried", checks.seen == set(range(1, 17)), f"{sorted(checks.seen)}")
