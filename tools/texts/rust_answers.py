"""What rustc says to each line of a text, for a comparison with the program's answer.

Each crate is compiled with its queries. A `prove` is a function that calls another one with the bounds. A variable is `_` there, and a second
call has the values of the program's answer. A `refute` is a pair of impls that overlap unless one of the bounds is refused. All of an item or a
query is in lines of its own, so that the lines of the errors tell which of them rustc refuses.
"""
from __future__ import annotations

import json
import os
import subprocess
from collections import defaultdict
from dataclasses import dataclass, field
from typing import NamedTuple, Optional, Sequence

from .as_rust import FEATURES, FROM_STD, Form, Reader, declared, impl_line, struct_line, trait_line
from .rustc import FLAGS, NIGHTLY, SOLVERS

FORM = Form(unsized=True, lifetimes=True)
ORPHAN, OVERLAP, REFUSED, UNDECIDED = {"E0117", "E0210"}, {"E0119"}, {"E0277", "E0271"}, {"E0282", "E0283", "E0284", "E0275"}
# rustc has one code for a value that stays open, whether or not a bound is left to prove.
OPEN_VALUE = "yes or maybe, with an open value"
WORDS_OF_LINES = ("fundamental", "auto", "struct", "trait", "impl")


class Answer(NamedTuple):
    """A line of the program's answer: what it is about, and what it says."""

    of: str
    says: str


@dataclass
class Asked:
    """A query: its position among all, its word, its lines in Rust with what each is for."""

    number: int
    word: str
    lines: list[tuple[str, str]]


@dataclass
class RustCrate:
    """A crate: its items and queries, each with its line in the text."""

    name: str
    uses: list[str]
    words: set[str] = field(default_factory=set)
    declared: set[str] = field(default_factory=set)
    items: list[tuple[int, str, str]] = field(default_factory=list)
    asked: list[Asked] = field(default_factory=list)


class Errors:
    """What rustc says of a crate: the codes of each item of the text, and of each query with what the line is for."""

    def __init__(self) -> None:
        self.items: defaultdict[int, set[str]] = defaultdict(set)
        self.asked: defaultdict[tuple[int, str], set[str]] = defaultdict(set)
        self.others: set[str] = set()


def bounds_of(reader: Reader) -> list[tuple[str, str]]:
    found = []
    while True:
        subject = reader.type()
        reader.take(":")
        found.append((subject, reader.named()))
        if not reader.has(","):
            return found


def where(clauses: Sequence[tuple[str, str]]) -> str:
    # rustc takes `*const fn(T): Show` for a misspelled output
    return " where " + ", ".join(f"({subject}): {bound}" for subject, bound in clauses) if clauses else ""


def arguments(names: Sequence[str]) -> str:
    return f"::<{', '.join(names)}>" if names else ""


def values_of(says: str) -> dict[str, str]:
    """The values of a yes that name no variable, as the text has them."""
    parts, depth, at = [], 0, 0
    listed = says.partition(" ")[2]
    for here, sign in enumerate(listed):
        depth += (sign in "<([") - (sign in ">)]" and listed[here - 1 : here + 1] != "->")
        if sign == "," and depth == 0:
            parts.append(listed[at:here])
            at = here + 1
    parts.append(listed[at:])
    pairs = [it.strip().partition(" = ") for it in parts if it.strip()]
    return {name[1:]: value for name, _, value in pairs}


def prove_lines(reader: Reader, number: int, says: str) -> list[tuple[str, str]]:
    """A function with the bounds, a call of it, and a call with the values of the program."""
    params = reader.params()
    goals = bounds_of(reader)
    variables = list(reader.variables)
    clauses = bounds_of(reader) if reader.has("where") else []
    names = [it.split(" ")[-1] for it in params if not it.startswith("'")]
    head, given = declared(params, FORM), where(clauses)
    if not variables:
        subjects = [f"Q{k}_: ?Sized + {bound}" for k, (_, bound) in enumerate(goals)]
        asked = f"pub fn of{number}{(head[:-1] + ', ') if head else '<'}{', '.join(subjects)}>() {{}}"
        call = f"of{number}{arguments([*names, *(subject for subject, _ in goals)])}();"
        return [("bounds", asked), ("call", f"pub fn asked{number}{head}(){given} {{ {call} }}")]
    asked = f"pub fn of{number}{declared(params, FORM, variables)}(){where(goals)} {{}}"
    lines = [("bounds", asked), ("call", f"pub fn asked{number}{head}(){given} {{ of{number}{arguments([*names, *('_' for _ in variables)])}(); }}")]
    values = values_of(says)
    if says.startswith("yes") and all(it in values and "?" not in values[it] for it in variables):
        written = [Reader(values[it], FORM) for it in variables]
        called = [it.type() for it in written]
        reader.words.update(*(it.words for it in written))
        lines.append(("values", f"pub fn values{number}{head}(){given} {{ of{number}{arguments([*names, *called])}(); }}"))
    return lines


def refute_lines(reader: Reader, number: int) -> list[tuple[str, str]]:
    """Two impls of a trait of their own, of which the first has the bounds for its where-clauses."""
    goals = bounds_of(reader)
    more = declared(reader.variables, FORM)
    given = f"<{', '.join(reader.variables)}>" if reader.variables else ""
    outer = declared(["Q_", *reader.variables], FORM)
    first = f"impl{outer} Refuted{number}{given} for Q_{where(goals)} {{}}"
    return [("trait", f"pub trait Refuted{number}{more} {{}}"), ("first", first), ("second", f"impl{more} Refuted{number}{given} for u8 {{}}")]


class RustText:
    """A text in Rust, with the answers of the program for the values that it asks."""

    def __init__(self, lines: Sequence[str], answers: Sequence[Answer]) -> None:
        self.crates: dict[str, RustCrate] = {}
        self.current: Optional[RustCrate] = None
        self.says = dict(answers)
        self.number = 0
        for number, line in enumerate(lines, 1):
            if line.strip() and not line.lstrip().startswith("//"):
                self.add(number, Reader(line, FORM))

    def add(self, number: int, reader: Reader) -> None:
        word = reader.take()
        if word == "crate":
            name = reader.take()
            uses = [it for it in reader.tokens[3:] if it != ","]
            self.crates[name] = self.current = RustCrate(name, uses)
        elif word == "later":
            self.current = None
        elif word in ("prove", "refute"):
            self.add_query(reader, word)
        elif word in WORDS_OF_LINES and self.current:
            self.add_item(number, reader, word, self.current)

    def add_item(self, number: int, reader: Reader, word: str, crate: RustCrate) -> None:
        front = ""
        if word == "fundamental":
            front, word = "#[fundamental] ", reader.take()
        is_auto = word == "auto"
        if is_auto:
            word = reader.take()
        if word == "impl":
            line = impl_line(reader, FORM)
        else:
            name, line = struct_line(reader, FORM, front) if word == "struct" else trait_line(reader, FORM, front, is_auto)
            crate.declared.add(name)
        crate.items.append((number, word, line))
        crate.words |= reader.words

    def add_query(self, reader: Reader, word: str) -> None:
        self.number += 1
        reader.take("in")
        crate = self.crates[reader.take()]
        says = self.says.get(f"{word} {self.number}", "")
        lines = prove_lines(reader, self.number, says) if word == "prove" else refute_lines(reader, self.number)
        crate.asked.append(Asked(self.number, word, lines))
        crate.words |= reader.words

    def impls(self, crate: RustCrate) -> list[int]:
        return [number for number, word, _ in crate.items if word == "impl"]

    def head(self, crate: RustCrate) -> list[str]:
        homes = {name: it.name for it in self.crates.values() for name in it.declared}
        lines = [f"#![feature({FEATURES})]", "#![allow(warnings)]", "use std::marker::PhantomData;"]
        lines += [f"use {FROM_STD[it]};" for it in sorted(crate.words & set(FROM_STD))]
        others: dict[str, list[str]] = {it: [] for it in crate.uses}
        for word in sorted(crate.words):
            if homes.get(word, crate.name) != crate.name:
                others.setdefault(homes[word], []).append(word)
        crate.uses = list(others)
        for name, words in others.items():
            lines.append(f"extern crate {name};")
            lines += [f"use {name}::{{{', '.join(words)}}};"] if words else []
        return lines


class Rustc:
    """Compiles the crates of texts in a folder."""

    def __init__(self, rustc: str, solver: str, folder: str) -> None:
        self.rustc, self.solver, self.folder = rustc, solver, folder

    def compile(self, crate: RustCrate, lines: Sequence[str]) -> list[tuple[int, str]]:
        """The errors of the crate with their lines. Errors of syntax have no code, and are `other`."""
        path = os.path.join(self.folder, crate.name + ".rs")
        with open(path, "w", encoding="ascii") as file:
            file.write("\n".join(lines) + "\n")
        words = [self.rustc, *(it for it in FLAGS if not it.startswith("--error")), "--error-format=json", *SOLVERS[self.solver]]
        words += ["--crate-name", crate.name, "--out-dir", self.folder, f"-Ldependency={self.folder}", path]
        words += [f"--extern={it}={os.path.join(self.folder, 'lib' + it + '.rmeta')}" for it in crate.uses]
        ended = subprocess.run(words, stdin=subprocess.DEVNULL, capture_output=True, check=False, text=True, env={**os.environ, **NIGHTLY})
        found = []
        for message in map(json.loads, ended.stderr.splitlines()):
            if message["level"] == "error" and message["spans"]:
                code = message["code"]["code"] if message["code"] else "other"
                found += [(it["line_start"], code) for it in message["spans"] if it["is_primary"]]
        return found

    def errors_of(self, crate: RustCrate, head: Sequence[str]) -> Errors:
        """What rustc says of the crate, with its queries."""
        lines = [*head, *(line for _, _, line in crate.items)]
        places: dict[int, tuple[int, str]] = {}
        for asked in crate.asked:
            for role, line in asked.lines:
                lines.append(line)
                places[len(lines)] = (asked.number, role)
        errors = Errors()
        for line, code in self.compile(crate, lines):
            if code == "other":
                raise ValueError(f"rustc has an error without a code in `{lines[line - 1]}`")
            if line in places:
                errors.asked[places[line]].add(code)
            elif line > len(head):
                errors.items[crate.items[line - len(head) - 1][0]].add(code)
            else:
                errors.others.add(code)
        return errors


def coded(codes: set[str]) -> str:
    return " ".join(sorted(codes))


def said_of_query(asked: Asked, errors: Errors) -> str:
    """What rustc says of a query, or the codes of errors that do not answer it."""
    codes = {role: errors.asked[asked.number, role] for role, _ in asked.lines}
    every = set().union(*codes.values())
    if asked.word == "refute":
        return coded(every) if codes["trait"] or codes["first"] or every - OVERLAP else "open" if every else "no"
    if "E0275" in every:
        return "maybe"
    if codes["bounds"] or every - REFUSED - UNDECIDED:
        return coded(every)
    if codes["call"] == {"E0282"}:
        return OPEN_VALUE
    if codes["call"]:
        return "unproved" if codes["call"] & REFUSED else "maybe"
    return "yes, with other values" if codes.get("values") else "yes"


def said_of_crate(text: RustText, crate: RustCrate, errors: Errors) -> dict[str, str]:
    """What rustc says of the crate and of its impls: the first orphan, each impl that overlaps, the first without a supertrait."""
    found = {number: errors.items[line] for number, line in enumerate(text.impls(crate), 1)}
    orphans, overlaps, missing = ([number for number, codes in found.items() if codes & kind] for kind in (ORPHAN, OVERLAP, REFUSED))
    known = ORPHAN | OVERLAP | REFUSED
    others = errors.others.union(*errors.items.values()) - known
    verdict = f"orphan impl {orphans[0]}" if orphans else f"overlap impl {' or '.join(map(str, overlaps))}" if overlaps else "accepted"
    return {"crate": coded(others) if others else verdict, "supers": f"missing impl {missing[0]}" if missing else "held"}


def rust_answers(rustc: Rustc, lines: Sequence[str], answers: Sequence[Answer]) -> dict[str, str]:
    """What rustc says of each crate, of its supertraits and its queries. Of a crate that it refuses, and of those above it, there are no queries."""
    text = RustText(lines, answers)
    refused: set[str] = set()
    found: dict[str, str] = {}
    for crate in text.crates.values():
        head = text.head(crate)
        if refused & set(crate.uses):
            refused.add(crate.name)
            continue
        errors = rustc.errors_of(crate, head)
        said = said_of_crate(text, crate, errors)
        found[f"crate {crate.name}"] = said["crate"]
        if said["crate"] == "accepted":
            found[f"supers {crate.name}"] = said["supers"]
            found.update({f"{asked.word} {asked.number}": said_of_query(asked, errors) for asked in crate.asked})
        if list(said.values()) != ["accepted", "held"]:
            refused.add(crate.name)
        elif any(errors.asked.values()):
            rustc.compile(crate, head + [line for _, _, line in crate.items])
    return found


def codes_of_last(rustc: Rustc, lines: Sequence[str]) -> set[str]:
    """The codes of the errors in the last of the lines, which is an item."""
    text = RustText(lines, [])
    codes: set[str] = set()
    for crate in text.crates.values():
        codes = rustc.errors_of(crate, text.head(crate)).items[len(lines)]
    return codes
