"""rustc's verdicts on generated queries: a file of functions, three lines for each query, compiled against the crates' metadata."""
from __future__ import annotations

import json
import os
import subprocess
from dataclasses import dataclass, field
from typing import Any, Callable

from from_rustdoc.read.terms import BadInput

from .generate import Query

HOLDS, FAILS, REJECTED, LIFETIMES, OPEN = "yes", "no", "not well formed", "lifetimes", "not decided"
# A bound that does not hold, an associated type with another value.
FAILING = ("E0277", "E0271")
UNDECIDED = ("E0275", "E0282", "E0283", "E0284")
# Errors of lifetimes alone: the types are right.
OF_LIFETIMES = ("E0309", "E0310", "E0311", "E0477", "E0478", "E0491", "E0521", "E0597", "E0621", "E0700", "E0716", "E0759")
WORDS_OF_LIFETIMES = ("is not general enough", "lifetime may not live long enough", "does not live long enough", "mismatched lifetimes")
MAXIMAL_ROUNDS = 12
LINES = 3
HEAD = ["#![allow(warnings)]", "extern crate alloc;"]


@dataclass
class Verdict:
    """What rustc says of a query, and why: the code of its error and its first line."""
    word: str
    why: str = ""


@dataclass
class Compiler:
    """`externs` are the metadata of the crates by name, `dependencies` the folders of what they use."""
    externs: dict[str, str]
    dependencies: list[str]
    folder: str
    edition: str = "2021"
    rounds: int = field(default=0, init=False)

    def words(self, file: str) -> list[str]:
        found = ["rustc", "--edition", self.edition, "--crate-type", "lib", "--crate-name", "questions", "--emit", "metadata", "--error-format", "json",
                 "--out-dir", self.folder, file]
        for name, path in sorted(self.externs.items()):
            found += ["--extern", f"{name}={path}"]
        return found + [word for folder in self.dependencies for word in ("-L", f"dependency={folder}")]

    def errors(self, lines: list[str]) -> list[dict[str, Any]]:
        file = os.path.join(self.folder, "questions.rs")
        with open(file, "w", encoding="utf-8") as handle:
            handle.write("\n".join(lines) + "\n")
        self.rounds += 1
        done = subprocess.run(self.words(file), stdout=subprocess.PIPE, stderr=subprocess.PIPE, text=True)
        messages = [json.loads(line) for line in done.stderr.splitlines() if line.startswith("{")]
        found = [message for message in messages if message.get("level") in ("error", "error: internal compiler error")]
        if done.returncode != 0 and not found:
            raise BadInput(f"rustc ended with status {done.returncode}: {done.stderr[-300:].strip()}")
        return found

    def verdicts(self, queries: list[Query]) -> list[Verdict]:
        return verdicts_of(queries, self.errors)


def verdicts_of(queries: list[Query], errors: Callable[[list[str]], list[dict[str, Any]]]) -> list[Verdict]:
    """Compiles in rounds. A query with an error is judged by it and left out of the next round, since an error of one phase hides those of
    later phases. What remains when all compiles holds."""
    left = dict(enumerate(queries))
    verdicts = [Verdict(HOLDS) for _ in queries]
    for _ in range(MAXIMAL_ROUNDS):
        lines = list(HEAD)
        for number, query in enumerate(queries):
            lines += query.rust(number) if number in left else [""] * LINES
        found = errors(lines)
        judged = by_query(found, left)
        if not judged:
            if found:
                first = found[0]["message"]
                raise BadInput(f"an error of rustc belongs to no query: {first}")
            return verdicts
        for number, verdict in judged.items():
            verdicts[number] = verdict
            left.pop(number)
    raise BadInput("rustc found errors in each round")


def by_query(messages: list[dict[str, Any]], left: dict[int, Query]) -> dict[int, Verdict]:
    """The verdicts that errors give. A line that is not well formed outweighs a bound that does not hold."""
    found: dict[int, Verdict] = {}
    for message in messages:
        code = (message.get("code") or {}).get("code", "") or ""
        for span in message["spans"]:
            row = span["line_start"] - 1 - len(HEAD)
            if not span["is_primary"] or not span["file_name"].endswith("questions.rs") or row < 0 or row // LINES not in left:
                continue
            number, part = divmod(row, LINES)
            why = f"{code} {message['message'].splitlines()[0]}".strip()
            verdict = Verdict(word_of(code, message["message"], part), why)
            if number not in found or found[number].word != REJECTED:
                found[number] = verdict
    return found


def word_of(code: str, message: str, part: int) -> str:
    is_bound = part == LINES - 1
    if code in OF_LIFETIMES or any(words in message for words in WORDS_OF_LIFETIMES):
        return LIFETIMES if is_bound else REJECTED
    if code in UNDECIDED:
        return OPEN
    return FAILS if is_bound and code in FAILING else REJECTED
