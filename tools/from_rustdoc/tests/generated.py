"""Questions about the public types of crates, for the texts and for rustc: the same question as a line of Rust that compiles or not."""
from __future__ import annotations

import json
import os
import random
import subprocess
from dataclasses import dataclass
from typing import Any, Callable, Optional

from ..ask.questions import Question
from ..model.show import Show
from ..model.world import World
from ..read.html_docs import Pages
from ..read.rustdoc_json import JsonCrate, kind_and_body
from ..read.terms import Array, Bound, Declaration, Function, Lossy, Named, Param, Parameter, Pointer, Predicate, Primitive, Reference, Slice, Tuple, Type

TRAITS = {"Clone": "core/clone/trait.Clone.html", "Copy": "core/marker/trait.Copy.html", "Default": "core/default/trait.Default.html",
          "Debug": "core/fmt/trait.Debug.html", "Send": "core/marker/trait.Send.html", "Sync": "core/marker/trait.Sync.html",
          "Unpin": "core/marker/trait.Unpin.html", "Eq": "core/cmp/trait.Eq.html", "Hash": "core/hash/trait.Hash.html"}
AROUND = {"Vec": "alloc/vec/struct.Vec.html", "Option": "core/option/enum.Option.html", "Rc": "alloc/rc/struct.Rc.html", "Arc": "alloc/sync/struct.Arc.html",
          "Cell": "core/cell/struct.Cell.html", "RefCell": "core/cell/struct.RefCell.html", "Box": "alloc/boxed/struct.Box.html",
          "Mutex": "std/sync/struct.Mutex.html", "PhantomData": "core/marker/struct.PhantomData.html", "HashMap": "std/collections/struct.HashMap.html"}


UNSIZED = "cannot be known at compilation time"


@dataclass
class Asked:
    question: Question
    rust: str


def around(pages: Pages) -> list[Callable[[Type], Type]]:
    """Types of std around a type, itself first."""
    u8 = Primitive("u8")
    found: list[Callable[[Type], Type]] = [
        lambda t: t, lambda t: Reference(False, t), lambda t: Reference(True, t), lambda t: Pointer(False, t), lambda t: Tuple((t, u8)),
        lambda t: Array(t, "2"), lambda t: Array(t, "40"), lambda t: Function((t,), u8), lambda t: Slice(t)]
    for name, page in AROUND.items():
        key = pages.key(page)
        if key:
            found.append(lambda t, key=key, name=name: Named(key, (u8, t) if name == "HashMap" else (t,)))  # type: ignore[misc]
    return found


def rust_generics(world: World, declaration: Declaration, show: Show) -> tuple[str, str, str]:
    """The item's parameters, its where-clauses, and its arguments, as Rust."""
    _, body = kind_and_body(declaration.item)
    crate = world.crates[declaration.crate]
    assert isinstance(crate, JsonCrate)
    params, arguments = [], []
    for param in body["generics"]["params"]:
        kind, inner = next(iter(param["kind"].items()))
        if kind == "lifetime":
            arguments.append("'static")
        elif kind == "const":
            params.append(f"const {param['name']}: {show.type(crate.type(inner['type'], None))}")
            arguments.append(param["name"])
        else:
            params.append(param["name"])
            arguments.append(param["name"])
    clauses = [f"{show.type(t)}: {show.bound(b)}" for t, b in declaration.predicates]
    clauses += [f"{p.name}: 'static" for p in declaration.params if p.kind == "type"]
    return ", ".join(params), ", ".join(clauses), f"<{', '.join(arguments)}>" if arguments else ""


def questions(world: World, crate: str, count: int, seed: int) -> list[Asked]:
    """As many questions about the crate's public types, drawn by the seed: each trait of each type, with and without the same bound
    on its parameters, and of types of std around it."""
    show, pages = Show(world, exact=True), world.pages
    keys = {name: pages.key(page) for name, page in TRAITS.items()}
    found: list[Asked] = []
    for declaration in world.crates[crate].declarations.values():
        if declaration.is_trait or not declaration.public_path:
            continue
        try:
            params, clauses, arguments = rust_generics(world, declaration, show)
        except Lossy:
            continue
        path = "::".join(declaration.public_path) + arguments
        types = [p for p in declaration.params if p.kind == "type"]
        for name, key in keys.items():
            for bounded in (False, True) if types else (False,):
                extra: list[Predicate] = [(Parameter(p.name), Bound(key or "")) for p in types] if bounded else []
                rust_clauses = ", ".join([c for c in [clauses] if c] + [f"{p.name}: {show.path(key or '')}" for p in types if bounded])
                for wrap in around(pages):
                    inner = wrap(declaration.itself())
                    question = Question(f"{path}: {name}", inner, Bound(key or ""), [Param(p.kind, p.name) for p in declaration.params],
                                        declaration.predicates + extra, crate=crate)
                    try:
                        rust = show.type(wrap(Primitive(path)))
                        found.append(Asked(question, f"fn q%d<{params}>() where {rust_clauses} {{ need_{name}::<{rust}>() }}"))
                    except Lossy:
                        continue
    plain = [a for a in found if isinstance(a.question.subject, Named) and a.question.subject.key.startswith(crate + "::")]
    rest = [a for a in found if a not in plain] if len(plain) < count else []
    draw = random.Random(seed)
    return draw.sample(plain, count) if len(plain) >= count else plain + draw.sample(rest, min(count - len(plain), len(rest)))


def compiled(asked: list[Asked], folder: str, pages: Pages, world: World) -> list[Optional[bool]]:
    """What rustc says of each: whether it holds; None where the line says something that rustc does not take."""
    show = Show(world, exact=True)
    needs = [f"fn need_{name}<T: {show.path(pages.key(page) or '')} + ?Sized>() {{}}" for name, page in TRAITS.items()]
    left = dict(enumerate(asked))
    answers: list[Optional[bool]] = [None] * len(asked)
    for _ in range(6):
        head = ["#![allow(dead_code, unused, deprecated, bare_trait_objects)]", "extern crate alloc;"] + needs
        lines = head + [a.rust % n if n in left else "" for n, a in enumerate(asked)]
        with open(os.path.join(folder, "src", "lib.rs"), "w", encoding="utf-8") as handle:
            handle.write("\n".join(lines) + "\n")
        done = subprocess.run(["cargo", "check", "--offline", "--message-format=json", "--target-dir", os.path.join(folder, "target", "questions")],
                              cwd=folder, stdout=subprocess.PIPE, stderr=subprocess.PIPE, text=True)
        failed, odd = failures(done.stdout, len(head))
        if not odd:
            for number in left:
                answers[number] = number not in failed
            return answers
        for number in odd:
            left.pop(number, None)
    return answers


def failures(output: str, offset: int) -> tuple[set[int], set[int]]:
    """The questions that do not hold (E0277), and those with another error, of types that cannot be: `(str, u8)`."""
    failed: set[int] = set()
    odd: set[int] = set()
    for line in output.splitlines():
        message: dict[str, Any] = json.loads(line)
        if message.get("reason") != "compiler-message" or message["message"]["level"] != "error":
            continue
        told = message["message"]
        code = (told.get("code") or {}).get("code")
        for span in told["spans"]:
            if span["is_primary"] and span["file_name"].endswith("lib.rs"):
                (failed if code == "E0277" and UNSIZED not in told["message"] else odd).add(span["line_start"] - 1 - offset)
    return failed, odd
