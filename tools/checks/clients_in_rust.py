"""What rustc says to the programs of two clients, for the check `bindings`.

method_lookup: a Rust program has the same structs, traits and impls. Its methods return a type that names their trait and `Self`. For a call
that has a method the program prints the same one. Every other call is refused by rustc, with the code in REFUSALS.

type_checker: rustc reports errors of the same KINDS in the same lines of each program of toys.txt. Where the kind differs, the text says so.
"""
from __future__ import annotations

import json
import re
from collections import defaultdict
from pathlib import Path
from typing import Any, NamedTuple

from .common import Tally, difference, run

TOYS = Path(__file__).with_name("toys.txt")

# What method_lookup says if it does not decide for a method, and the codes of rustc for it.
REFUSALS = (
    ("(maybe)", {"E0283"}), ("ambiguous: ", {"E0034"}), ("no method", {"E0599"}), ("more than ", {"E0055"}), ("fault 5: ", {"E0412", "E0425"}),
)
# What type_checker says, and the codes of rustc for it.
KINDS = (
    ("does not hold", {"E0277"}), ("expected", {"E0308", "E0061"}), ("is not known", {"E0425"}),
    ("type annotations needed", {"E0282", "E0283", "E0284"}), ("overflow", {"E0275"}),
)

# What methods return, and a function that prints what a call returns. No call is run.
PICKED = """\
use std::marker::PhantomData;
struct Picked<Of, Own: ?Sized>(PhantomData<Of>, PhantomData<Own>);
fn print<T, R>(_: fn(T) -> R) {
    println!("{}", std::any::type_name::<R>());
}
"""

# A method in the table of method_lookup: its name, how it takes the receiver, and its trait.
METHOD = re.compile(r'^    \("(\w+)", (\w+), "(\w+)', re.M)
# What method_lookup says of a call: the receiver, the method, and what it means.
CALL = re.compile(r"^(.+)\.(\w+)\(\): (?:step \d+, .+?: )?(.+)$", re.M)
TRAIT = re.compile(r"trait (\w+)((?:<.*>)?)")
DEREF = re.compile(r"impl(<.*?>)? Deref for (.*) \{ type Target = (.*); \}")
TOY = re.compile(r"^== (.*)\n((?:(?!== ).*\n)*)", re.M)
NOTE = re.compile(r"// (error|rustc): (.*)")
FUNCTION = re.compile(r"(fn \w+(?:<.*?>)?)\((.*?)\)(.*)")
DECLARATION = re.compile(r"(crate|struct|trait|impl)\b")
STATIC = "&'static "


class Rustc:
    """Compiles programs in a folder."""

    def __init__(self, room: Path) -> None:
        self.room = room

    def messages(self, program: str, emitted: str) -> list[dict[str, Any]]:
        source = self.room / "program.rs"
        source.write_text(program, encoding="utf-8")
        ended = run(["rustc", "--edition", "2021", "-A", "warnings", "--error-format", "json", "--emit", emitted, "--out-dir", self.room, source])
        return [json.loads(it) for it in ended.errors.splitlines()]

    def errors(self, program: str) -> set[tuple[int, str]]:
        """The lines and the codes of its errors."""
        coded = [it for it in self.messages(program, "metadata") if it["level"] == "error" and it["code"]]
        return {(span["line_start"], it["code"]["code"]) for it in coded for span in it["spans"] if span["is_primary"]}

    def printed(self, program: str) -> str:
        """What it prints, or the messages of rustc."""
        messages = self.messages(program, "link")
        return "".join(it["rendered"] for it in messages) or run([self.room / "program"]).output.decode()


def rust_item(line: str, methods: str = "") -> str:
    """A declaration of a text, in Rust. `Deref` is that of the standard library, with its impls for references and `Box`."""
    deref = DEREF.fullmatch(line)
    if line.startswith(("crate ", "trait Deref ")) or deref and deref[2].startswith(("&", "Box<")):
        return ""
    if line.startswith("struct "):
        return f"{line};"
    if deref:
        return f"impl{deref[1] or ''} std::ops::Deref for {deref[2]} {{ type Target = {deref[3]}; fn deref(&self) -> &{deref[3]} {{ loop {{}} }} }}"
    if " Clone for " in line:
        methods = "fn clone(&self) -> Self { loop {} }"
    return f"{line} {{ {methods} }}"


# ---- method_lookup


def method(name: str, takes: str, of: str) -> str:
    head = f"fn {name}(self) -> Picked<{of}, Self> where Self: Sized" if takes == "Value" else f"fn {name}(&self) -> Picked<{of}, Self>"
    return f"{head} {{ loop {{}} }}"


def lookup_items(source: str) -> str:
    """The declarations of method_lookup, with the methods of its table, and for each trait a type by its name."""
    items = [PICKED]
    for line in source.partition('TEXT: &str = "\\\n')[2].partition('";')[0].splitlines():
        trait = TRAIT.fullmatch(line)
        if trait:
            mark = f"Is{trait[1]}{trait[2]}"
            methods = [method(name, takes, mark) for name, takes, of in METHOD.findall(source) if of == trait[1]]
            items += [f"struct {mark}(PhantomData<({trait[2][1:-1]})>);", rust_item(line, " ".join(methods))]
        else:
            items.append(rust_item(line))
    return "\n".join(items)


def try_lookups(tally: Tally, rustc: Rustc, source: str, output: str) -> None:
    items, calls, picked = lookup_items(source), [], []
    for receiver, name, said in CALL.findall(output):
        call = f"|it: {receiver.replace('&', STATIC)}| it.{name}()"
        allowed = next((codes for words, codes in REFUSALS if words in said), None)
        if allowed:
            found = {code for _, code in rustc.errors(f"{items}\nfn main() {{ let _ = {call}; }}\n")}
            tally.expect(f"rustc: {receiver}.{name}()", bool(found) and found <= allowed, f"it says {found or 'nothing'}, and method_lookup `{said}`")
        else:
            of, _, own = said.partition(" for ")
            calls.append(f"print({call});\n")
            picked.append(f"Picked<Is{of}, {own}>\n")
    printed = rustc.printed(f"{items}\nfn main() {{\n{''.join(calls)}}}\n")
    tally.report(f"rustc: the {len(calls)} calls that have a method", difference(re.sub(r"\w+::", "", printed).encode(), "".join(picked).encode()))


# ---- type_checker


class Toy(NamedTuple):
    """A program for the type checker."""

    name: str
    text: str

    def notes(self, kind: str) -> list[tuple[int, str]]:
        """The comments of that kind, by the line that they are about, which is above."""
        found, line = [], 0
        for number, it in enumerate(self.text.splitlines(), 1):
            note = NOTE.match(it)
            if not note:
                line = number
            elif note[1] == kind:
                found.append((line, note[2]))
        return found


def toys() -> list[Toy]:
    return [Toy(*it) for it in TOY.findall(TOYS.read_text(encoding="utf-8"))]


def arguments(listed: str) -> list[str]:
    """What is between the commas outside of brackets."""
    found, depth = [""], 0
    for sign in listed:
        depth += (sign == "<") - (sign == ">")
        found = [*found, ""] if sign == "," and depth == 0 else [*found[:-1], found[-1] + sign]
    return [it.strip() for it in found if it]


def rust_line(line: str) -> str:
    """A line of the toy language, in Rust. The head of a function with a body is the same there."""
    if line.endswith(" {") or line == "}":
        return line
    function = FUNCTION.fullmatch(line)
    if function:
        inputs = ", ".join(f"_: {it}" for it in arguments(function[2]))
        return f"{function[1]}({inputs}){function[3]} {{ loop {{}} }}"
    if not line or line.startswith("//"):
        return line
    return rust_item(line) if DECLARATION.match(line) else f"{line};"


def try_toy(tally: Tally, rustc: Rustc, toy: Toy) -> None:
    """rustc has errors in the same lines, and with codes of what is said there, or with those that the program names."""
    found = {(line - 1, code) for line, code in rustc.errors("\n".join(["fn main() {", *map(rust_line, toy.text.splitlines()), "}", ""]))}
    allowed: dict[int, set[str]] = defaultdict(set)
    for line, error in toy.notes("error"):
        allowed[line] |= next(codes for words, codes in KINDS if words in error)
    allowed.update({line: {code} for line, code in toy.notes("rustc")})
    is_same = {line for line, _ in found} == set(allowed) and all(code in allowed[line] for line, code in found)
    tally.expect(f"rustc: {toy.name}", is_same, f"it says {sorted(found)}, and one of {dict(allowed)} is expected")
