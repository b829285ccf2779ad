"""`tools/from-rustdoc`, as the survey uses it: its commands `ask` and `later`, and its modules for what no command gives alone, which are
the documents of a project, reading, and the check of one crate among others."""
from __future__ import annotations

import json
import os
import re
import subprocess
import sys
from dataclasses import dataclass, field
from typing import Any, Optional, Sequence

from from_rustdoc import command
from from_rustdoc.ask.crate_check import check_crate
from from_rustdoc.model.world import World
from from_rustdoc.read import cargo
from from_rustdoc.read.cargo import Links, Project
from from_rustdoc.read.proved import TOP
from from_rustdoc.read.terms import BadInput

from .generate import Query

SCRIPT = os.path.join(TOP, "tools", "from-rustdoc")
REFUSED, NOT_UNDERSTOOD = "no answer", "not understood"
PREFIX = "from-rustdoc: "
CHUNK = 100
MAXIMAL_FAILURES = 5


# ---- questions
@dataclass
class Answer:
    """The answer to a query: its word, on what it rests, and the losses that it names. If it got no answer the word is
    `REFUSED` and the basis says why."""
    word: str
    basis: str = ""
    rests_on: list[str] = field(default_factory=list)


@dataclass
class Called:
    status: int
    output: str
    error: str


def call(words: Sequence[str]) -> Called:
    done = subprocess.run([sys.executable, SCRIPT, *words], stdout=subprocess.PIPE, stderr=subprocess.PIPE, text=True)
    return Called(done.returncode, done.stdout, done.stderr)


def program_words(program: Optional[str]) -> list[str]:
    return ["--program", program] if program else []


def ask(base: str, queries: Sequence[Query], program: Optional[str] = None) -> list[Answer]:
    """The answers to all, some at a time. A query that ends a call has no answer, and those after it are in the next call."""
    answers: list[Answer] = []
    without = 0
    while len(answers) < len(queries):
        chunk = queries[len(answers):len(answers) + CHUNK]
        done = call(["ask", "--quiet", "--message-format", "json", *program_words(program), base, *(query.written() for query in chunk)])
        found = read_answers(done, chunk)
        answers += found
        without = 0 if found else without + 1
        if without > MAXIMAL_FAILURES:
            raise BadInput(f"no query is answered: {last_error(done.error)}")
        if len(found) < len(chunk):
            answers.append(Answer(REFUSED, last_error(done.error) or f"status {done.status}"))
    return answers


def last_error(error: str) -> str:
    lines = [line for line in error.splitlines() if line.strip()]
    own = [line for line in lines if line.startswith(PREFIX)]
    return (own or lines or [""])[-1].removeprefix(PREFIX).strip()


def read_answers(done: Called, queries: Sequence[Query]) -> list[Answer]:
    """The answers to the first queries, up to the one that ended the call. Several bounds have an answer each, which are joined."""
    messages = [m for m in map(read_message, done.output.splitlines()) if m is not None]
    answers: list[Answer] = []
    for query in queries:
        if messages and messages[0].get("answer") == NOT_UNDERSTOOD and messages[0]["message"].startswith(f"no answer to `{query.written()}`: "):
            answers.append(Answer(REFUSED, messages.pop(0)["message"].removeprefix(f"no answer to `{query.written()}`: ")))
            continue
        parts: list[Answer] = []
        for part in query.parts():
            if not messages or not plain(messages[0]["message"]).startswith(f"`{plain(part)}`: "):
                return answers
            parts.append(answer_in(messages.pop(0)))
        answers.append(joined(parts))
    return answers


def read_message(line: str) -> Optional[dict[str, Any]]:
    """A diagnostic of the translator; None for other lines."""
    try:
        found = json.loads(line)
    except ValueError:
        return None
    return found if isinstance(found, dict) and found.get("$message_type") == "diagnostic" else None


def plain(text: str) -> str:
    return " ".join(text.split())


def answer_in(message: dict[str, Any]) -> Answer:
    return Answer(message["answer"] or "", message["basis"] or "", list(message["rests_on"]))


def joined(parts: Sequence[Answer]) -> Answer:
    """The answer for several bounds: no if one is, yes if all are."""
    order = ("no", "unproved", "not settled", "yes")
    worst = min(parts, key=lambda part: order.index(part.word) if part.word in order else -1)
    return Answer(worst.word, worst.basis, [line for part in parts for line in part.rests_on])


# ---- documents, reading, checks
def document(folder: str, extra: list[str], shared: str) -> Project:
    project = cargo.document(folder, extra, quiet=True, shared=shared)
    cargo.add_cfgs(project, folder)
    return project


def read(files: list[str], links: Links) -> World:
    return command.world_of(files, None, links)


def map_of(base: str) -> dict[str, Any]:
    """What was stored of a project, or of crates, for queries."""
    return command.kept(base)


def write_base(base: str, files: list[str], links: Links) -> None:
    """What `ask` needs."""
    command.write_map(base, {"inputs": command.inputs_of(read(files, links), files, links)})


@dataclass
class CheckedCrate:
    word: str
    why: str = ""
    impls: list[dict[str, Any]] = field(default_factory=list)


def check(world: World, name: str, program: Optional[str]) -> CheckedCrate:
    """Whether a crate is coherent with what it uses, and what became of each of its impls."""
    checks, report = check_crate(world, name, program)
    impls = [impl for impl in map(read_impl, report) if impl is not None]
    if not checks:
        return CheckedCrate("coherent", "", impls)
    message = checks[0].message
    return CheckedCrate(checks[0].word, message.text if message is not None else checks[0].line if checks[0].word != "coherent" else "", impls)


def read_impl(line: str) -> Optional[dict[str, Any]]:
    """A line of the report on an impl: its fate, its position, its header, and its losses."""
    found = re.match(r"(whole|loss|out) (.*?:\d+): (impl\b.*)", line)
    if found is None:
        return None
    fate, source, rest = found.groups()
    header, _, losses = rest.partition(": ")
    trait, subject = names_of(header)
    return {"header": header.split(" (")[0] if fate == "whole" else header, "source": source, "fate": fate, "losses": losses, "trait": trait, "type": subject}


def names_of(header: str) -> tuple[str, str]:
    """The names of the trait and of the type: `impl<T> PartialEq<&T> for bytes::Bytes` is of `PartialEq` and `bytes::Bytes`."""
    depth, rest = 0, header.removeprefix("impl")
    if rest.startswith("<"):
        for at, letter in enumerate(rest):
            depth += {"<": 1, ">": -1}.get(letter, 0) if rest[at - 1:at + 1] != "->" else 0
            if depth == 0:
                rest = rest[at + 1:]
                break
    trait, _, subject = rest.strip().partition(" for ")
    return name_in(trait.lstrip("!")), name_in(subject)


def name_in(text: str) -> str:
    return re.sub(r"^(&('static )?(mut )?|\*(const|mut) )+", "", text.strip()).split("<")[0].split(" (")[0].strip()


# ---- releases
@dataclass
class Change:
    """A change of a release by `later`: its class, as `impl-added`, the answer, and of an impl its header and its position."""
    code: str
    word: str
    text: str
    header: str = ""
    source: str = ""
    reason: str = ""


@dataclass
class Release:
    answer: str
    changes: list[Change] = field(default_factory=list)


def later(old: str, new: str, also: list[str], program: Optional[str]) -> Release:
    words = ["later", "--quiet", "--message-format", "json", *program_words(program)]
    done = call([*words, *(word for file in also for word in ("--with", file)), old, new])
    if done.status not in (0, 1, 4):
        raise BadInput(last_error(done.error) or f"status {done.status}")
    return read_release(done.output)


def read_release(output: str) -> Release:
    found = Release("")
    for line in output.splitlines():
        message = json.loads(line)
        if message["$message_type"] == "summary":
            found.answer = message["answer"]
            continue
        header = re.search(r"`(impl\b[^`]*)`", message["message"])
        span = message["spans"][0] if message["spans"] else None
        found.changes.append(Change(message["class"] or "", message["answer"] or "", message["message"], header.group(1) if header else "",
                                    f"{span['file_name']}:{span['line_start']}" if span else "", "; ".join(c["message"] for c in message["children"])))
    if not found.answer:
        raise BadInput("`later` ended without a last word")
    return found
