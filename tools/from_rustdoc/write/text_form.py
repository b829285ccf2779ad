"""Reads a written text back: its lines as declarations, impls and clauses, with types of the intermediate form by the text's names."""
from __future__ import annotations

import functools
import re
from dataclasses import dataclass, field, replace
from typing import Optional

from ..read.headers import FLOATS, Named_, NotUnderstood, Reader
from ..read.terms import (Array, Bound, Constant, Dyn, Function, Named, Never, Param, Parameter, Predicate, Primitive, Slice, Tuple, Type, UNIT, Unknown, parts,
                          walk)

MAXIMAL = {"bytes": 67108864, "crates": 4095, "items": 65535, "name": 64, "params": 64, "fields": 64, "clauses": 64, "bounds": 64, "depth": 64}


@dataclass
class TextLine:
    """A line of a text, read."""
    number: int
    text: str
    kind: str
    crate: str
    name: str = ""
    params: list[Param] = field(default_factory=list)
    fields: list[Type] = field(default_factory=list)
    bounds: list[Bound] = field(default_factory=list)
    trait: Optional[Bound] = None
    self_type: Type = UNIT
    clauses: list[Predicate] = field(default_factory=list)
    is_auto: bool = False
    is_fundamental: bool = False


@dataclass
class Text:
    """A text, read: its lines, which crate uses which, and the items by name."""
    lines: list[TextLine] = field(default_factory=list)
    uses: dict[str, list[str]] = field(default_factory=dict)
    names: dict[str, TextLine] = field(default_factory=dict)
    problems: list[str] = field(default_factory=list)

    def impls(self, crate: str) -> list[TextLine]:
        return [line for line in self.lines if line.crate == crate and line.kind == "impl"]

    def above(self, trait: str) -> set[str]:
        """The trait and the traits above it."""
        found: set[str] = set()
        todo = [trait]
        while todo:
            name = todo.pop()
            if name not in found:
                found.add(name)
                line = self.names.get(name)
                todo += [b.key for b in line.bounds] if line else []
        return found


# Items and impls that were read, each with what its names were then: None for a parameter.
KNOWN: dict[str, tuple[TextLine, dict[str, Optional[str]]]] = {}
MANY = 100000


class TextReader:
    """Reads line after line, since a name is known from the line after its own."""

    CORE = {"Sized": "trait", "Clone": "trait", "Copy": "trait", "Tuple": "trait", "FnPtr": "trait", "FnOnce": "trait", "FnMut": "trait",
            "Fn": "trait", "Unsize": "trait", "Box": "struct"}

    def __init__(self) -> None:
        self.text = Text()
        self.kinds: dict[str, str] = dict(self.CORE)
        self.homes: dict[str, str] = {}
        self.seen: set[str] = set()
        self.crate = ""
        self.counts: dict[str, int] = {}
        self.asked: dict[str, Optional[str]] = {}

    def lookup(self, words: list[str]) -> Named_:
        name = words[-1]
        kind = self.asked[name] = self.kinds.get(name)
        if kind and not self.sees(name):
            raise NotUnderstood(f"`{name}` is not seen by crate {self.crate}")
        return (kind, name, name) if kind else ("word", None, name)

    def sees(self, name: str) -> bool:
        return name not in self.homes or self.homes[name] in self.seen

    def see(self, crate: str) -> None:
        """What the crate sees: its own names, and those of the crates that it uses, directly or through others."""
        self.seen = set()
        todo = [crate]
        while todo:
            name = todo.pop()
            if name not in self.seen:
                self.seen.add(name)
                todo += self.text.uses.get(name, [])

    def read(self, text: str) -> Text:
        if len(text) > MAXIMAL["bytes"]:
            self.problem(0, f"the text has {len(text)} bytes, 67,108,864 are allowed: give fewer crates at once")
        for number, line in enumerate(text.split("\n"), 1):
            if line.strip() and not line.strip().startswith("//"):
                try:
                    self.line(number, line)
                except NotUnderstood as error:
                    self.problem(number, f"{error} in `{line[:80]}`")
        for crate, count in self.counts.items():
            if count > MAXIMAL["items"]:
                self.problem(0, f"crate {crate} has {count} items, 65,535 are allowed: give fewer crates at once")
        return self.text

    def problem(self, number: int, what: str) -> None:
        self.text.problems.append(f"line {number}: {what}" if number else what)

    def line(self, number: int, text: str) -> None:
        known = KNOWN.get(text)
        if known is not None and known[0].name not in self.kinds and all(
                self.kinds.get(name) == kind and (kind is None or self.sees(name)) for name, kind in known[1].items()):
            # The line is in another text too, and each of its names is there what it is here.
            line = replace(known[0], number=number, crate=self.crate)
            self.counts[self.crate] = self.counts.get(self.crate, 0) + 1
            if line.name:
                self.declare(line)
            self.auto_at_home(line)
            self.text.lines.append(line)
            return
        self.asked = {}
        reader = Reader(text, self.lookup, unknowns=True)
        if reader.eat("crate"):
            self.crate = reader.word()
            self.text.uses[self.crate] = []
            if reader.eat("uses"):
                self.text.uses[self.crate].append(reader.word())
                while reader.eat(","):
                    self.text.uses[self.crate].append(reader.word())
            self.see(self.crate)
            return
        line = TextLine(number, text, "", self.crate)
        if reader.eat("prove") or reader.eat("refute"):
            self.question(reader, line)
        else:
            self.item(reader, line)
        self.limits(line)
        if not reader.at_end():
            raise NotUnderstood(f"`{reader.peek()[1]}` is too much")
        self.text.lines.append(line)
        if line.kind != "question":
            if len(KNOWN) > MANY:
                KNOWN.clear()
            KNOWN[text] = line, self.asked

    def question(self, reader: Reader, line: TextLine) -> None:
        line.kind = "question"
        reader.need("in")
        line.crate = self.crate = reader.word()
        self.see(line.crate)
        line.params, _ = reader.generics()
        line.self_type = reader.type()
        reader.need(":")
        line.trait = reader.bound()
        if reader.eat("where"):
            line.clauses = reader.where()

    def item(self, reader: Reader, line: TextLine) -> None:
        line.is_fundamental = reader.eat("fundamental")
        line.is_auto = reader.eat("auto")
        self.counts[self.crate] = self.counts.get(self.crate, 0) + 1
        for kind in ("struct", "trait", "impl"):
            if reader.eat(kind):
                line.kind = kind
                break
        if line.kind in ("struct", "trait"):
            line.name = reader.word()
            if line.name in self.kinds:
                raise NotUnderstood(f"the name `{line.name}` is taken")
            line.params, _ = reader.generics()
            if line.kind == "struct":
                self.kinds[line.name] = "struct"
                if reader.eat("("):
                    line.fields.append(reader.type())
                    while reader.eat(","):
                        line.fields.append(reader.type())
                    reader.need(")")
            elif reader.eat(":"):
                line.bounds = reader.bounds()
            self.declare(line)
        elif line.kind == "impl":
            line.params, _ = reader.generics()
            line.trait = reader.bound()
            reader.need("for")
            line.self_type = reader.type()
            if reader.eat("where"):
                line.clauses = reader.where()
            self.auto_at_home(line)
        else:
            raise NotUnderstood("no statement")

    def declare(self, line: TextLine) -> None:
        self.kinds[line.name] = "struct" if line.name in FLOATS else line.kind
        self.homes[line.name] = self.crate
        self.text.names[line.name] = line

    # ---- faults and limits
    def auto_at_home(self, line: TextLine) -> None:
        """An impl of an auto trait is for a struct of its crate (fault 11)."""
        declared = self.text.names.get(line.trait.key) if line.trait else None
        if declared is not None and declared.is_auto:
            if not isinstance(line.self_type, Named) or self.homes.get(line.self_type.key) != self.crate:
                raise NotUnderstood("an impl of an auto trait for no struct of its crate")

    def limits(self, line: TextLine) -> None:
        params = {p.name for p in line.params}
        bounds = line.bounds + ([line.trait] if line.trait else []) + [b for _, b in line.clauses]
        terms = line.fields + [line.self_type] + [t for t, _ in line.clauses] + [a for b in bounds for a in b.arguments]
        for bound in bounds:
            if bound.key.startswith("?"):
                raise NotUnderstood(f"the trait `{bound.key[1:]}` is not known here")
        for term in terms:
            for part in walk(term):
                if isinstance(part, Parameter) and part.name not in params:
                    raise NotUnderstood(f"the name `{part.name}` is not known here")
                if isinstance(part, Dyn) and any(b.key.startswith("?") for b in part.bounds):
                    raise NotUnderstood("a trait of a dyn is not known here")
        if line.kind == "impl" and line.trait:
            header = line.text.split(" where ")[0].split(" ", 1)[1] if not line.params else line.text.split(" where ")[0][line.text.index(">") + 1:]
            for param in line.params:
                if not re.search(rf"\b{param.name}\b", header):
                    raise NotUnderstood(f"the parameter `{param.name}` is not in the header")
        for what, count in (("params", len(line.params)), ("fields", len(line.fields)), ("clauses", len(line.clauses)), ("bounds", len(line.bounds))):
            if count > MAXIMAL[what]:
                raise NotUnderstood(f"{count} {what}, {MAXIMAL[what]} are allowed")
        for word in re.findall(r"\w+", line.text):
            if len(word) > MAXIMAL["name"]:
                raise NotUnderstood(f"the name {word} is too long")
        if max(depth(t) for t in terms) > MAXIMAL["depth"]:
            raise NotUnderstood("a type is more than 64 deep")


def depth(term: Type) -> int:
    inner = [depth(t) for t in parts(term) if not isinstance(t, Constant)]
    return 1 + (max(inner) if inner else 0)


def written(term: Type) -> str:
    """The type as the text writes it."""
    match term:
        case Primitive(name) | Parameter(name):
            return name
        case Constant(text):
            return text
        case Never():
            return "!"
        case Unknown(name):
            return "?" + name
        case Slice(element):
            return f"[{written(element)}]"
        case Array(element, length):
            return f"[{written(element)}; {length}]"
        case Tuple(items):
            return f"({written(items[0])},)" if len(items) == 1 else f"({', '.join(map(written, items))})"
        case Function(inputs, output, _):
            return f"fn({', '.join(map(written, inputs))})" + ("" if output == UNIT else f" -> {written(output)}")
        case Dyn(bounds):
            return "dyn " + " + ".join(map(written_bound, bounds))
        case Named(key, arguments):
            return written_bound(Bound(key, arguments))
    raise AssertionError(f"a type that no text has: {term}")


def written_bound(bound: Bound) -> str:
    return bound.key + (f"<{', '.join(map(written, bound.arguments))}>" if bound.arguments else "")


@functools.lru_cache(maxsize=4)
def read_text(text: str) -> Text:
    """The text, which nobody changes: what was read last is stored."""
    return TextReader().read(text)
