"""Writes the crates of a text as Rust, for rustc to judge the same.

Items stay as they are. `prove` becomes a call of a function with the bound, in which variables are any types, like parameters. `refute`
becomes a pair of impls that overlap unless the bound is refused. `later` and `supers` are left out, because rustc has no line for them: it
checks supertraits with each impl. Types of traits stay as they are. Fields that lead back to their own struct are in `PhantomData`, since Rust needs a size. Slices may be
written as arrays, since Rust needs their items to be `Sized`.
"""
from __future__ import annotations

import re
from dataclasses import dataclass, field
from typing import Optional

TOKEN = re.compile(r"->|'[A-Za-z_0-9]+|\?[A-Za-z_0-9]+|[A-Za-z_0-9]+|[^ ]")
FEATURES = "auto_traits, fundamental, never_type, unsize, fn_ptr_trait, tuple_trait, unboxed_closures, trivial_bounds"
FROM_STD = {"Unsize": "std::marker::Unsize", "FnPtr": "std::marker::FnPtr", "Tuple": "std::marker::Tuple"}
CALLS_OF_A_FUNCTION = 50


class NotRust(Exception):
    """A line that has no form in Rust."""


@dataclass
class Crate:
    """A crate in Rust: what it uses, its names, and its lines."""

    name: str
    uses: list[str] = field(default_factory=list)
    declared: set[str] = field(default_factory=set)
    words: set[str] = field(default_factory=set)
    lines: list[str] = field(default_factory=list)
    calls: list[str] = field(default_factory=list)


@dataclass(frozen=True)
class Form:
    """What is different for a family: parameters that may be unsized, slices as arrays, an omitted lifetime that is written."""

    unsized: bool = False
    slices: bool = True
    lifetimes: bool = False


class Reader:
    """Reads the tokens of one line and writes types and bounds as Rust."""

    def __init__(self, line: str, form: Form) -> None:
        self.tokens: list[str] = TOKEN.findall(line)
        self.form = form
        self.at = 0
        self.words: set[str] = set()
        self.variables: list[str] = []

    def peek(self, ahead: int = 0) -> str:
        at = self.at + ahead
        return self.tokens[at] if at < len(self.tokens) else ""

    def take(self, expected: str = "") -> str:
        token = self.peek()
        if not token or (expected and token != expected):
            raise NotRust(f"'{expected or 'a token'}' is expected before '{' '.join(self.tokens[self.at:])}'")
        self.at += 1
        return token

    def has(self, token: str) -> bool:
        if self.peek() != token:
            return False
        self.at += 1
        return True

    def listed(self, end: str) -> list[str]:
        """Types, lifetimes and numbers up to the sign."""
        found: list[str] = []
        while not self.has(end):
            found.append(self.argument())
            if not self.has(","):
                self.take(end)
                break
        return found

    def argument(self) -> str:
        token = self.peek()
        if token.startswith("'") or token.isdigit():
            return self.take()
        return self.binding() if self.peek(1) == "=" else self.type()

    def binding(self) -> str:
        """What a type of a trait is."""
        name = self.take()
        self.take("=")
        return f"{name} = {self.type()}"

    def arguments(self) -> str:
        return "<" + ", ".join(self.listed(">")) + ">" if self.has("<") else ""

    def named(self) -> str:
        name = self.take()
        self.words.add(name)
        return name + self.arguments()

    def pointer(self, sign: str) -> str:
        words = [sign]
        if self.peek().startswith("'"):
            words.append(self.take() + " ")
        elif sign == "&" and self.form.lifetimes:
            words.append("'static ")
        if self.peek() in ("mut", "const"):
            words.append(self.take() + " ")
        return "".join(words) + self.type(inside=True)

    def bracket(self) -> str:
        inside = self.type()
        length = self.take() if self.has(";") else ("1" if not self.form.slices else "")
        self.take("]")
        return f"[{inside}; {length.lstrip('?')}]" if length else f"[{inside}]"

    def tuple(self) -> str:
        items = self.listed(")")
        return "(" + ", ".join(items) + (",)" if len(items) == 1 else ")")

    def binder(self) -> str:
        """A `for` with its lifetimes, which become one word each."""
        if not self.has("for"):
            return ""
        self.take("<")
        return "for<" + ", ".join(self.listed(">")) + "> "

    def function(self) -> str:
        self.take("fn")
        self.take("(")
        inputs = ", ".join(self.listed(")"))
        return f"fn({inputs})" + (" -> " + self.type(inside=True) if self.has("->") else "")

    def object(self, inside: bool) -> str:
        items = []
        while True:
            items.append(self.take() if self.peek().startswith("'") else self.binder() + self.named())
            if not self.has("+"):
                break
        written = "dyn " + " + ".join(items)
        return f"({written})" if inside and len(items) > 1 else written

    def type(self, inside: bool = False) -> str:
        token = self.peek()
        if token.startswith("?"):
            self.variables += [] if token[1:] in self.variables else [token[1:]]
            return self.take()[1:]
        if token in ("&", "*"):
            return self.pointer(self.take())
        if token == "[":
            self.take()
            return self.bracket()
        if token == "(":
            self.take()
            return self.tuple()
        if token == "dyn":
            self.take()
            return self.object(inside)
        if token == "!":
            return self.take()
        if token == "fn" or (token == "for" and "fn" in self.tokens[self.at :]):
            return self.binder() + self.function()
        return self.named()

    def clauses(self) -> list[str]:
        """Pairs of a type and a bound, after `where`."""
        found: list[str] = []
        while self.peek():
            subject = self.type()
            self.take(":")
            found.append(f"{subject}: {self.named()}")
            if not self.has(","):
                break
        return found

    def types(self) -> list[str]:
        """The types that a trait has, or that an impl gives, between braces."""
        found: list[str] = []
        if not self.has("{"):
            return found
        while not self.has("}"):
            self.take("type")
            found.append(self.binding() if self.peek(1) == "=" else self.take())
            self.take(";")
        return found

    def params(self) -> list[str]:
        """Parameters of a line, in their order and with their kinds."""
        found: list[str] = []
        if not self.has("<"):
            return found
        while not self.has(">"):
            found.append(self.take() + (" " + self.take() if self.peek(-1) == "const" else ""))
            self.has(",")
        return found


def declared(params: list[str], form: Form, more: list[str] = []) -> str:
    """The parameters as they are declared in Rust; further ones are types."""
    written = []
    for param in params + more:
        if param.startswith("const "):
            written.append(param + ": usize")
        elif param.startswith("'"):
            written.append(param)
        else:
            written.append(param + ": ?Sized" * form.unsized)
    return "<" + ", ".join(written) + ">" if written else ""


def marker_of(param: str) -> Optional[str]:
    """A field that uses a parameter which the struct does not mention."""
    if param.startswith("const "):
        return None
    return f"PhantomData<&{param} ()>" if param.startswith("'") else f"PhantomData<fn(*const {param})>"


def words_of(written: str) -> set[str]:
    return set(re.findall(r"'?[A-Za-z_0-9]+", written))


def struct_line(reader: Reader, form: Form, front: str) -> tuple[str, str]:
    name = reader.take()
    params = reader.params()
    fields: list[str] = []
    if reader.has("("):
        while not reader.has(")"):
            fields.append(reader.type())
            reader.has(",")
    used = words_of(" ".join(it for it in fields if name not in words_of(it)))
    fields = [f"PhantomData<{it}>" if name in words_of(it) else it for it in fields]
    markers = [marker for it in params if it not in used and (marker := marker_of(it))]
    inside = ", ".join(f"pub {it}" for it in markers + fields)
    return name, f"{front}pub struct {name}{declared(params, form)}({inside});"


def trait_line(reader: Reader, form: Form, front: str, is_auto: bool) -> tuple[str, str]:
    name = reader.take()
    params = declared(reader.params(), form)
    bounds = []
    while reader.has(":") or reader.has("+"):
        bounds.append(reader.named())
    supers = ": " + " + ".join(bounds) if bounds else ""
    types = " ".join(f"type {it}{': ?Sized' * form.unsized};" for it in reader.types())
    return name, f"{front}pub {'auto ' if is_auto else ''}trait {name}{params}{supers} {{ {types} }}"


def impl_line(reader: Reader, form: Form) -> str:
    params = reader.params()
    bound = reader.named()
    reader.take("for")
    subject = reader.type()
    clauses = reader.clauses() if reader.has("where") else []
    where = " where " + ", ".join(clauses) if clauses else ""
    types = " ".join(f"type {it};" for it in reader.types())
    return f"impl{declared(params, form)} {bound} for {subject}{where} {{ {types} }}"


def prove_call(reader: Reader, crate: Crate, form: Form, number: int) -> None:
    """A query with parameters is a function of its own. Others are calls in functions of so many calls."""
    params = reader.params()
    subject = reader.type()
    reader.take(":")
    bound = reader.named()
    clauses = reader.clauses() if reader.has("where") else []
    params += reader.variables
    where = " where " + ", ".join(clauses) if clauses else ""
    names = [it.split(" ")[-1] for it in params if not it.startswith("'")]
    inner = f"fn ask{number}{declared(params, form, [])[:-1] + ', ' if params else '<'}Q_: ?Sized + {bound}>() {{}}"
    call = f"ask{number}::<{', '.join(names + [subject])}>();"
    if params or clauses:
        crate.lines.append(f"pub fn proved{number}{declared(params, form)}(){where} {{ {inner} {call} }}")
    else:
        crate.calls.append(f"{bound}|{subject}")


def write_calls(crate: Crate) -> None:
    """The calls for queries without parameters: one function for each bound, and calls of it together."""
    numbers: dict[str, int] = {}
    calls = []
    for ask in crate.calls:
        bound, subject = ask.split("|")
        if bound not in numbers:
            numbers[bound] = len(numbers)
            crate.lines.append(f"pub fn of{numbers[bound]}<Q_: ?Sized + {bound}>() {{}}")
        calls.append(f"of{numbers[bound]}::<{subject}>();")
    for first in range(0, len(calls), CALLS_OF_A_FUNCTION):
        crate.lines.append(f"pub fn asked{first}() {{ {' '.join(calls[first:first + CALLS_OF_A_FUNCTION])} }}")


def refute_pair(reader: Reader, crate: Crate, form: Form, number: int) -> None:
    """Two impls of a trait of the crate's own, of which the first has the reference for its where-clause."""
    subject = reader.type()
    reader.take(":")
    bound = reader.named()
    variables = reader.variables
    arguments = "<" + ", ".join(variables) + ">" if variables else ""
    more = declared(variables, form)
    outer = declared(["Q_"] + variables, Form(True, form.slices) if not variables else form)
    crate.lines.append(f"pub trait Refuted{number}{more} {{}}")
    crate.lines.append(f"impl{outer} Refuted{number}{arguments} for Q_ where {subject}: {bound} {{}}")
    crate.lines.append(f"impl{more} Refuted{number}{arguments} for u8 {{}}")


class Translation:
    """The crates of a text, in its order."""

    def __init__(self, lines: list[str], form: Form) -> None:
        self.form = form
        self.crates: dict[str, Crate] = {}
        self.number = 0
        self.current: Optional[Crate] = None
        for line in lines:
            if line.strip() and not line.lstrip().startswith("//"):
                self.add(Reader(line, form))

    def add(self, reader: Reader) -> None:
        word = reader.take()
        if word == "crate":
            self.add_crate(reader)
        elif word in ("prove", "refute"):
            self.add_query(reader, word)
        elif word == "later":
            self.current = None
        elif word != "supers" and self.current is not None:
            self.add_item(reader, word, self.current)

    def add_crate(self, reader: Reader) -> None:
        crate = Crate(reader.take())
        if reader.has("uses"):
            crate.uses.append(reader.take())
            while reader.has(","):
                crate.uses.append(reader.take())
        self.crates[crate.name] = self.current = crate

    def add_item(self, reader: Reader, word: str, crate: Crate) -> None:
        front = ""
        if word == "fundamental":
            front, word = "#[fundamental] ", reader.take()
        is_auto = word == "auto"
        if is_auto:
            word = reader.take()
        if word == "impl":
            crate.lines.append(impl_line(reader, self.form))
        else:
            name, line = struct_line(reader, self.form, front) if word == "struct" else trait_line(reader, self.form, front, is_auto)
            crate.declared.add(name)
            crate.lines.append(line)
        crate.words |= reader.words

    def add_query(self, reader: Reader, word: str) -> None:
        self.number += 1
        reader.take("in")
        crate = self.crates[reader.take()]
        (prove_call if word == "prove" else refute_pair)(reader, crate, self.form, self.number)
        crate.words |= reader.words

    def sources(self, depth: int) -> list[tuple[Crate, str]]:
        """Each crate with its source, as a file has it."""
        homes = {name: crate.name for crate in self.crates.values() for name in crate.declared}
        return [(crate, self.source(crate, homes, depth)) for crate in self.crates.values()]

    def source(self, crate: Crate, homes: dict[str, str], depth: int) -> str:
        write_calls(crate)
        lines = [f"#![feature({FEATURES})]", "#![allow(warnings)]", f'#![recursion_limit = "{depth}"]', "use std::marker::PhantomData;"]
        lines += [f"use {FROM_STD[it]};" for it in sorted(crate.words & set(FROM_STD))]
        others: dict[str, list[str]] = {it: [] for it in crate.uses}
        for word in sorted(crate.words):
            if homes.get(word, crate.name) != crate.name:
                others.setdefault(homes[word], []).append(word)
        crate.uses = list(others)
        for name, words in others.items():
            lines.append(f"extern crate {name};")
            lines += [f"use {name}::{{{', '.join(words)}}};"] if words else []
        return "\n".join(lines + crate.lines) + "\n"
