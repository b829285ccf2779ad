"""Makers of texts, each by lot from a number: whole crates, and texts that are hostile. `wide_texts` are made once each.

Who adds a call of the lot between others changes all texts of a seed.
"""
from __future__ import annotations

import itertools
import random
import re
from functools import lru_cache
from typing import Callable, Iterable, Iterator, NamedTuple, Optional, Sequence, Union

from texts.by_lot import asked_clique_text, costly_text, endless_text, growing_premises_text, multiplying_text, stepping_text, wide_clauses_text

from .common import examples

Lines = list[str]
PRIMITIVES = ["u8", "bool", "char", "str", "i32", "u64", "usize", "i128", "!", "()"]
RESERVED = (
    "crate uses fundamental struct auto trait impl for where prove refute in later supers bool char str mut const fn dyn type"
    " i8 i16 i32 i64 i128 isize u8 u16 u32 u64 u128 usize"
).split()
SIGNS = ["->", "<", ">", "(", ")", "[", "]", ",", ":", ";", "&", "*", "+", "!", "=", "{", "}", "'", "?", "'static", "?x", "?", "//", "-", "\t", "\r"]
NUMBERS = ["0", "1", "12", "13", "16", "17", "64", "65", "255", "256", "4096", "4294967295", "18446744073709551615", "18446744073709551616"]


def within(written: Iterable[str]) -> str:
    """Parameters or arguments in brackets, where there are any."""
    listed = ", ".join(written)
    return f"<{listed}>" if listed else ""


def where(clauses: Sequence[str]) -> str:
    return " where " + ", ".join(clauses) if clauses else ""


# ---- whole crates


class Item(NamedTuple):
    """A struct or trait that was declared: its name, the kinds of its parameters ('l', 't' or 'c'), and its index among the traits."""

    name: str
    kinds: str
    crate: str
    index: int = 0
    auto: bool = False


class Crates:
    """A text of crates and queries without faults. Clauses lead to earlier traits or smaller types."""

    def __init__(self, rng: random.Random, cyclic: bool = False) -> None:
        self.rng, self.cyclic = rng, cyclic
        self.lines: Lines = []
        self.crates: Lines = []
        self.sees = {"core": {"core"}}
        self.structs = [Item("Box", "t", "core")]
        self.traits = [Item(name, "", "core", index) for index, name in enumerate(("Sized", "Clone", "Copy"))]
        # of each impl its crate, its parameters for types and for constants, and its header
        self.impls: list[tuple[str, Lines, Lines, str]] = []
        # what a type may name where it is written
        self.structs_seen: list[Item] = []
        self.traits_seen: list[Item] = []
        self.scope()

    def chance(self, part: float) -> bool:
        return self.rng.random() < part

    def look(self, crate: str) -> None:
        seen = self.sees[crate]
        self.structs_seen = [it for it in self.structs if it.crate in seen]
        self.traits_seen = [it for it in self.traits if it.crate in seen]

    def scope(self, types: Sequence[str] = (), consts: Sequence[str] = (), lifetimes: Sequence[str] = (), variables: Sequence[str] = ()) -> None:
        self.types, self.consts, self.lifetimes, self.variables = list(types), list(consts), list(lifetimes), list(variables)
        self.used: set[str] = set()

    def lifetime(self) -> str:
        if self.lifetimes and self.chance(0.6):
            return self.rng.choice(self.lifetimes)
        return "'static"

    def number(self) -> str:
        roll = self.rng.random()
        if self.consts and roll < 0.5:
            name = self.rng.choice(self.consts)
            self.used.add(name)
            return name
        if self.variables and roll < 0.6:
            return "?n"
        return str(self.rng.randrange(4)) if roll < 0.97 else self.rng.choice(NUMBERS[:-1])

    def arguments(self, kinds: str, depth: int) -> str:
        of_kind: dict[str, Callable[[], str]] = {"l": self.lifetime, "t": lambda: self.type(depth - 1), "c": self.number}
        return within(of_kind[kind]() for kind in kinds)

    def leaf(self) -> str:
        roll = self.rng.random()
        if self.types and roll < 0.5:
            name = self.rng.choice(self.types)
            self.used.add(name)
            return name
        if self.variables and roll < 0.7:
            return self.rng.choice(self.variables)
        if roll < 0.85:
            plain = [it for it in self.structs_seen if not it.kinds]
            if plain:
                return self.rng.choice(plain).name
        return self.rng.choice(PRIMITIVES)

    def type(self, depth: int) -> str:
        rng = self.rng
        if depth <= 0 or rng.random() < 0.25:
            return self.leaf()
        roll = rng.randrange(20)
        if roll < 9:
            found = rng.choice(self.structs_seen)
            return found.name + self.arguments(found.kinds, depth)
        if roll < 11:
            life = self.lifetime() + " " if rng.random() < 0.3 else ""
            return "&" + life + ("mut " if rng.random() < 0.2 else "") + self.type(depth - 1)
        if roll < 12:
            return "*" + rng.choice(["const ", "mut "]) + self.type(depth - 1)
        if roll < 14:
            return "[" + self.type(depth - 1) + (f"; {self.number()}" if rng.random() < 0.6 else "") + "]"
        if roll < 17:
            items = [self.type(depth - 1) for _ in range(rng.randrange(1, 4))]
            return "(" + ", ".join(items) + (",)" if len(items) == 1 else ")")
        if roll < 19:
            binder = ""
            before = self.lifetimes
            if rng.random() < 0.3:
                binder = "for<'z> "
                self.lifetimes = before + ["'z"]
            inputs = [self.type(depth - 1) for _ in range(rng.randrange(0, 3))]
            output = " -> " + self.type(depth - 1) if rng.random() < 0.5 else ""
            self.lifetimes = before
            return f"{binder}fn({', '.join(inputs)}){output}"
        return self.dyn(depth)

    def dyn(self, depth: int) -> str:
        principals = [it for it in self.traits_seen if not it.auto and it.crate != "core"]
        autos = [it for it in self.traits_seen if it.auto]
        items = []
        if principals and self.chance(0.8):
            items.append(self.bound(self.rng.choice(principals), depth))
        while autos and (not items or self.chance(0.3)):
            items.append(self.rng.choice(autos).name)
        if not items:
            return "u8"
        if self.chance(0.2):
            items.append(self.lifetime())
        return "dyn " + " + ".join(items)

    def bound(self, trait: Item, depth: int) -> str:
        return trait.name + self.arguments(trait.kinds, depth)

    def kinds(self, most: int) -> str:
        kinds = ""
        if self.chance(0.1):
            kinds += "l"
        kinds += "t" * self.rng.choice([0, 0, 1, 1, 1, 2][:most + 3])
        if self.chance(0.12):
            kinds += "c"
        return kinds

    def params(self, kinds: str) -> str:
        lifetimes = [f"'{'abc'[k]}" for k in range(kinds.count("l"))]
        types = ["T", "U", "W", "X", "Y"][: kinds.count("t")]
        consts = ["N", "M"][: kinds.count("c")]
        self.scope(types, consts, lifetimes)
        return self.front()

    def front(self) -> str:
        """The parameters that are declared."""
        return within(self.lifetimes + self.types + ["const " + it for it in self.consts])

    def add_struct(self, crate: str) -> None:
        name = f"S{len(self.structs)}"
        kinds = self.kinds(3)
        params = self.params(kinds)
        head = "fundamental " if self.chance(0.12) else ""
        found = Item(name, kinds, crate)
        self.structs_seen.append(found)
        fields = ""
        if self.chance(0.6):
            fields = "(" + ", ".join(self.type(2) for _ in range(self.rng.randrange(1, 4))) + ")"
        if "dyn" in fields and "+" in fields:
            fields = ""
        self.structs.append(found)
        self.lines.append(f"{head}struct {name}{params}{fields}")

    def add_trait(self, crate: str) -> None:
        index = len(self.traits)
        name = f"Tr{index}"
        if self.chance(0.2):
            self.traits.append(Item(name, "", crate, index, auto=True))
            self.lines.append(("fundamental " if self.chance(0.2) else "") + f"auto trait {name}")
            return
        kinds = self.kinds(2)
        params = self.params(kinds)
        head = "fundamental " if self.chance(0.15) else ""
        supers: list[Item] = []
        while self.traits_seen and self.chance(0.3) and len(supers) < 3:
            supers.append(self.rng.choice(self.traits_seen))
        bounds = ": " + " + ".join(self.bound(it, 1) for it in supers) if supers else ""
        self.traits.append(Item(name, kinds, crate, index))
        self.lines.append(f"{head}trait {name}{params}{bounds}")

    def clause(self, trait: Item, parts: Lines) -> str:
        """A where-clause of an impl of the trait: on a smaller type, or of a trait that was declared earlier."""
        rng = self.rng
        if self.cyclic and rng.random() < 0.6:
            return f"{rng.choice(parts)}: {self.bound(rng.choice(self.traits_seen), 1)}"
        earlier = [it for it in self.traits_seen if it.index < trait.index]
        if self.types and (not earlier or rng.random() < 0.5):
            subject = rng.choice(self.types)
            bound = trait if rng.random() < 0.6 or not earlier else rng.choice(earlier)
            return f"{subject}: {self.bound(bound, 1)}"
        if not earlier:
            return ""
        subject = rng.choice(parts) if rng.random() < 0.5 else self.type(2)
        return f"{subject}: {self.bound(rng.choice(earlier), 1)}"

    def add_impl(self, crate: str) -> None:
        rng = self.rng
        own = [it for it in self.structs_seen if it.crate == crate]
        choices = [it for it in self.traits_seen if it.name != "Sized" and (own or not it.auto)]
        local = [it for it in choices if it.crate == crate]
        if local and rng.random() < 0.85:
            choices = local
        if not choices or not (own or local or rng.random() < 0.1):
            return
        trait = rng.choice(choices)
        types = ["T", "U", "W"][: rng.choice([0, 0, 1, 1, 2])]
        consts = ["N"] if rng.random() < 0.15 else []
        lifetimes = ["'a"] if rng.random() < 0.15 else []
        self.scope(types, consts, lifetimes)
        if trait.auto or (own and trait.crate != crate and rng.random() < 0.9):
            found = rng.choice(own)
            subject = found.name + self.arguments(found.kinds, 2)
        else:
            subject = self.type(2)
        bound = self.bound(trait, 2)
        # a parameter that the header leaves out is not declared
        types = [it for it in types if it in self.used]
        consts = [it for it in consts if it in self.used]
        self.scope(types, consts, lifetimes)
        clauses: Lines = []
        while rng.random() < 0.4 and len(clauses) < 4:
            clause = self.clause(trait, types + [subject])
            if clause:
                clauses.append(clause)
        self.lines.append(f"impl{self.front()} {bound} for {subject}{where(clauses)}")
        self.impls.append((crate, types, consts, f"{subject}: {bound}"))

    def bound_of(self, trait: Item) -> str:
        """A reference: any of the trait, or one that the header of an impl gives for some types."""
        seen = [it for it in self.impls if any(it[0] == found.crate for found in self.structs_seen + self.traits_seen)]
        if not seen or self.chance(0.4):
            return f"{self.type(3)}: {self.bound(trait, 2)}"
        _, types, consts, header = self.rng.choice(seen)
        values = {it: self.type(self.rng.randrange(3)) for it in types}
        values.update({it: self.number() for it in consts})
        values["'a"] = "'static"
        written = re.sub(r"'?\b[A-Z]\b|'a\b", lambda it: values.get(it[0], it[0]), header)
        if self.variables and self.chance(0.7):
            written = re.sub(r"(?<=<)(u8|bool|char|i32|str|u64|usize|i128|S[0-9]+)(?=[,>])", self.variables[0], written, count=1)
        return written

    def bounds_of(self, traits: Sequence[Item]) -> str:
        """One reference, or several that share their variables."""
        bounds = [self.bound_of(self.rng.choice(traits))]
        while self.chance(0.2) and len(bounds) < 4:
            bounds.append(self.bound_of(self.rng.choice(traits)))
        return ", ".join(bounds)

    def add_query(self) -> None:
        rng = self.rng
        crate = rng.choice(self.crates)
        self.look(crate)
        variables = ["?x", "?y"] if rng.random() < 0.45 else []
        traits = [it for it in self.traits_seen if it.name != "Sized"] or self.traits_seen
        if rng.random() < 0.35:
            self.scope(variables=variables)
            self.lines.append(f"refute in {crate} {self.bounds_of(traits)}")
            return
        types = ["T", "U"][: rng.choice([0, 0, 0, 1, 2])]
        self.scope(types, variables=variables)
        params = within(types)
        bounds = self.bounds_of(traits)
        clauses: Lines = []
        self.variables = []
        while types and rng.random() < 0.5 and len(clauses) < 3:
            clauses.append(f"{rng.choice(types) if rng.random() < 0.7 else self.type(1)}: {self.bound(rng.choice(traits), 1)}")
        self.lines.append(f"prove in {crate} {params}{' ' if params else ''}{bounds}{where(clauses)}")

    def add_section(self) -> None:
        """A later version of a crate, with impls as those of the crate itself."""
        changed = self.rng.choice(self.crates + ["core"])
        self.look(changed)
        self.lines.append(f"later {changed}")
        for _ in range(self.rng.randrange(4)):
            self.add_impl(changed)
            if self.chance(0.05):
                self.add_supers()

    def add_supers(self) -> None:
        self.lines.append(f"supers in {self.rng.choice(self.crates + self.crates + ['core'])}")

    def add_checks(self) -> None:
        while self.chance(0.25):
            if self.chance(0.6):
                self.add_section()
            else:
                self.add_supers()

    def make(self, items: int = 7, queries: int = 6) -> Lines:
        rng = self.rng
        for number in range(rng.choice([1, 1, 2, 2, 3])):
            name = f"c{number}"
            used = [it for it in self.crates if rng.random() < 0.6]
            self.sees[name] = {"core", name}.union(*[self.sees[it] for it in used])
            self.lines.append(f"crate {name}" + (" uses " + ", ".join(used) if used else ""))
            self.crates.append(name)
            for _ in range(rng.randrange(2, items)):
                self.look(name)
                roll = rng.random()
                if roll < 0.27:
                    self.add_struct(name)
                elif roll < 0.55:
                    self.add_trait(name)
                else:
                    self.add_impl(name)
            self.add_checks()
        for _ in range(rng.randrange(1, queries)):
            self.add_query()
            if self.chance(0.05):
                self.add_checks()
        return self.lines


# ---- hostile texts


def crates_text(rng: random.Random) -> Lines:
    return Crates(rng).make(rng.choice([5, 8, 12]), rng.choice([3, 6, 9]))


def cyclic_text(rng: random.Random) -> Lines:
    """Impls that need each other, by lot or all of them."""
    return Crates(rng, cyclic=True).make(10, 5) if rng.random() < 0.6 else clique(rng)


def query_head(rng: random.Random) -> str:
    return rng.choice(["prove", "refute"]) + " in c0"


def growing_text(rng: random.Random) -> Lines:
    """Structs and impls that need types with more levels than their own, by several rules at once."""
    lines = ["crate c0", "auto trait Safe", "trait Show", "struct V<T>", "struct W<T>"]
    grown = [it for it in ["T", "&T", "*const T", "[T]", "V<T>", "W<T>", "V<W<T>>", "(T, T)", "Box<T>"] if rng.random() < 0.5] or ["V<T>"]
    wrapped = [rng.choice(["V", "W", "G"]) + f"<{it}>" for it in grown]
    lines.append("struct G<T>(" + ", ".join(it if it.startswith("G") else f"G<{it}>" for it in wrapped) + ")")
    for name in ("V", "W"):
        lines.append(f"impl<T> Show for {name}<T>" + where([f"{it}: Show" for it in wrapped if it[0] != "G" and rng.random() < 0.7]))
    if rng.random() < 0.3:
        lines += ["trait Sub: Show", "impl<T> Sub for V<T>", "impl Sub for W<u8>", "supers in c0"]
    for _ in range(rng.randrange(1, 4)):
        subject = rng.choice(["V<u8>", "W<bool>", "V<?x>", "V<W<V<u8>>>", "G<u8>"])
        lines.append(f"{query_head(rng)} {subject}: {'Safe' if subject[0] == 'G' else 'Show'}")
    return lines


def clique(rng: random.Random) -> Lines:
    """Impls that need each other: each trait's impl needs some of the other traits of the same type."""
    count = rng.choice([2, 3, 4, 5, 6, 7, 8, 12, 16, 24])
    subject = rng.choice(["u8", "V<T>", "T"])
    params = "<T>" if "T" in subject else ""
    lines = ["crate c0", "struct V<T>", *(f"trait R{k}" for k in range(count))]
    for k in range(count):
        lines.append(f"impl{params} R{k} for {subject}" + where([f"{subject}: R{it}" for it in range(count) if rng.random() < 0.6]))
    if rng.random() < 0.3:
        lines += [f"trait Sub: R{rng.randrange(count)} + R{rng.randrange(count)}", f"impl{params} Sub for {subject}", "supers in c0"]
    for _ in range(rng.randrange(1, 4)):
        lines.append(f"{query_head(rng)} {rng.choice(['u8', 'V<u8>', 'V<V<u8>>'])}: R{rng.randrange(count)}")
    return lines


# types around another one, for which # stands
WRAPS = ["&#", "&mut #", "*const #", "[#]", "[#; 3]", "(#,)", "(#, u8)", "V<#>", "Box<#>", "fn(#)", "fn() -> #", "for<'z> fn(*const &'z #)", "dyn Q<#>"]


def deep_type(rng: random.Random, depth: int, leaf: str) -> str:
    """A type of so many levels, most of them of few kinds."""
    wraps = [rng.choice(WRAPS) for _ in range(rng.randrange(1, 4))]
    written = leaf
    for level in range(depth - 1):
        written = rng.choice(wraps).replace("#", written).replace("'z", f"'z{level}")
    return written


def deep_item(rng: random.Random, number: int) -> str:
    depth = rng.choice([2, 5, 8, 9, 30, 60, 63, 64, 64, 65] if rng.random() < 0.4 else [3, 7, 20, 40, 60])
    around = rng.choice(WRAPS).replace("#", "T")
    items = [
        f"impl<T> Show for {around} where T: Show",
        f"impl<T> Show for {deep_type(rng, depth, 'T')} where T: Show",
        f"impl<T> Q<{deep_type(rng, depth, 'T')}> for V<T>",
        f"impl Show for {deep_type(rng, depth, 'u8')}",
        f"struct D{number}<T>({deep_type(rng, depth, 'T')})",
    ]
    return rng.choice(items)


def deep_section(rng: random.Random) -> Lines:
    lines = ["fundamental struct F<A, B>", "trait Sub: Show", f"impl<T> Sub for {deep_type(rng, rng.choice([2, 7, 30, 60]), 'T')}"]
    lines += ["supers in c0", "later c0"]
    for _ in range(rng.randrange(1, 4)):
        leaf = rng.choice(["T", "F<u8, T>", "V<T>", "F<V<T>, F<u8, &V<T>>>"])
        lines.append(f"impl<T> {rng.choice(['Show', 'Q<u8>'])} for {deep_type(rng, rng.choice([2, 7, 30, 60, 64]), leaf)}")
    return lines


def deep_query(rng: random.Random) -> str:
    depth = rng.choice([2, 8, 9, 20, 40, 60, 63])
    leaf = rng.choice(["u8", "bool", "?x", "str", "V<?x>"])
    bound = rng.choice(["Show", "Safe", "Clone", "Copy", "Sized", "Q<?y>", f"Q<{deep_type(rng, depth, '?z')}>", "Unsize<?y>"])
    return f"{rng.choice(['prove', 'prove', 'refute'])} in c0 {deep_type(rng, depth, leaf)}: {bound}"


def deep_text(rng: random.Random) -> Lines:
    lines = ["crate c0", "struct V<T>", "trait Q<U>", "trait Show", "auto trait Safe"]
    for _ in range(rng.randrange(1, 6)):
        lines.append(deep_item(rng, len(lines)))
    if rng.random() < 0.3:
        lines += deep_section(rng)
    return lines + [deep_query(rng) for _ in range(rng.randrange(1, 6))]


def doubled_by_fields(rng: random.Random, count: int) -> Lines:
    fields = [rng.choice([f"D{k}, D{k}", f"P<D{k}, D{k}>", f"&D{k}, V<D{k}>"]) for k in range(count)]
    lines = ["struct D0", *(f"struct D{k + 1}({it})" for k, it in enumerate(fields))]
    return lines + [f"prove in c0 D{count}: Safe", f"prove in c0 D{count}: Sized", f"refute in c0 D{count}: {rng.choice(['Safe', 'Copy'])}"]


def doubled_by_clauses(rng: random.Random, count: int) -> Lines:
    lines = ["trait R0", rng.choice(["impl R0 for u8", "impl<T> R0 for T", "impl<T> R0 for V<T>"])]
    for k in range(count):
        pair = rng.choice(["P<T, T>", "(T, T)", "P<V<T>, T>", "(&T, &T)"])
        subject = rng.choice(["T", "V<T>", "&T"])
        alone = f", T: R{k}" if rng.random() < 0.4 else ""
        lines += [f"trait R{k + 1}", f"impl<T> R{k + 1} for {subject} where {pair}: R{k}{alone}"]
    for _ in range(3):
        subject = rng.choice(["u8", "V<u8>", "&V<bool>", "?x", "V<?x>"])
        lines.append(f"{query_head(rng)} {subject}: R{rng.randrange(count + 1)}")
    return lines


def doubled_by_headers(rng: random.Random, _: int) -> Lines:
    lines = ["impl<A, B> Show for P<A, B> where A: Show, B: Show", rng.choice(["impl Show for u8", "impl<T> Show for V<T> where T: Show"])]
    written = rng.choice(["u8", "bool", "?x", "V<u8>"])
    for _ in range(rng.choice([2, 4, 6])):
        written = f"P<{written}, {written}>"
    return lines + [f"prove in c0 {written}: Show", f"refute in c0 {written}: Show"]


def doubled_by_supertraits(rng: random.Random, count: int) -> Lines:
    last = min(count, 10) - 1
    lines = [f"trait R{k}" + (": " + " + ".join(f"R{rng.randrange(k)}" for _ in range(3)) if k else "") for k in range(last + 1)]
    lines += [f"impl R{last} for u8", "supers in c0", f"prove in c0 <T> T: R0 where T: R{last}"]
    return lines + [f"refute in c0 u8: R{last}", f"prove in c0 dyn R{last}: R0"]


def doubled_by_arguments(rng: random.Random, count: int) -> Lines:
    lines, last = ["trait R0<A, B>"], min(count, 12)
    for k in range(last):
        lines.append(f"trait R{k + 1}<A, B>")
        lines.append(f"impl<A, B> R{k + 1}<A, B> for u8 where u8: R{k}<P<A, B>, P<B, A>>, u8: R{k}<P<B, A>, P<A, B>>")
    lines.append(f"prove in c0 u8: R{last}<{rng.choice(['u8', '?x'])}, {rng.choice(['bool', '?x', '?y'])}>")
    return lines + [f"refute in c0 u8: R{last}<?x, ?y>"]


DOUBLED = [doubled_by_fields, doubled_by_clauses, doubled_by_headers, doubled_by_supertraits, doubled_by_arguments]


def doubling_text(rng: random.Random) -> Lines:
    """Types whose trees double at each level."""
    count = rng.choice([2, 4, 8, 12, 20, 30])
    lines = ["crate c0", "struct V<T>", "struct P<A, B>", "auto trait Safe", "trait Show", "trait Q<U>"]
    return lines + DOUBLED[rng.randrange(5)](rng, count)


ALIKE = [
    ["a", "A", "aa", "_", "a_", "_a", "__", "aA", "Aa"],
    ["n" * 63 + end for end in "abcdefghi"],
    ["Show", "show", "SHOW", "Shows", "Sho", "Show_", "_Show", "Show1", "Show01"],
    ["core", "Box", "Clone", "Sized", "Core", "box", "clone", "Boxes", "Tuples"],
    ["crates", "fnn", "u88", "u9", "dynn", "static", "self", "Self", "forr"],
    ["T", "U", "T1", "T_1", "T0", "T00", "T01", "TT", "U1"],
]


class Colliding:
    """Makes a text with few names, alike or the same, for all that has a name: crates, structs, traits, parameters, binders, variables."""

    def __init__(self, rng: random.Random) -> None:
        self.rng = rng
        self.names = rng.choice(ALIKE)
        self.free = list(self.names)
        self.crates: Lines = []
        self.structs: Lines = []
        self.traits: Lines = []
        rng.shuffle(self.free)

    def pick(self, declared: Lines) -> str:
        return self.rng.choice(declared) if declared and self.rng.random() < 0.97 else self.rng.choice(self.names)

    def declare(self, declared: Lines) -> str:
        declared.append(self.free.pop() if self.free and self.rng.random() < 0.97 else self.rng.choice(self.names))
        return declared[-1]

    def impl_or_query(self) -> str:
        # a lifetime and a variable may go by the name of anything, a parameter by that of nothing else
        pick, crates, structs, traits = self.pick, self.crates, self.structs, self.traits
        own, other, trait = self.rng.choice(self.free or self.names), self.rng.choice(self.names), pick(traits)
        lines = [
            f"impl {trait} for {pick(structs)}",
            f"impl<'{other}, {own}> {trait} for &'{other} {own} where {own}: {pick(traits)}",
            f"impl {trait} for for<'{other}> fn(&'{other} {pick(structs)})",
            f"impl {trait} for dyn {pick(traits)}",
            f"prove in {pick(crates)} <'{other}, {own}> &'{other} {own}: {trait} where {own}: {pick(traits)}",
            f"prove in {pick(crates)} {pick(structs)}: {trait}",
            f"prove in {pick(crates)} (?{own}, ?{other}): {trait}",
            f"refute in {pick(crates)} &?{other}: {trait}",
            f"supers in {pick(crates)}",
            f"later {pick(crates)}",
            f"refute in {pick(crates)} {pick(structs)}: {trait}",
        ]
        return self.rng.choice(lines)

    def line(self) -> str:
        roll = self.rng.randrange(12)
        if roll == 0 and len(self.free) > 3:
            return f"crate {self.declare(self.crates)} uses {self.pick(self.crates[:-1])}, {self.pick(self.crates[:-1])}"
        if roll < 3 and len(self.free) > 1:
            return f"struct {self.declare(self.structs)}" + self.rng.choice(["", f"(&'static {self.rng.choice(self.structs)})"])
        if roll < 5 and len(self.free) > 1:
            bounds = f": {self.pick(self.traits)} + {self.pick(self.traits)}" if self.traits and self.rng.random() < 0.4 else ""
            return f"trait {self.declare(self.traits)}{bounds}"
        return self.impl_or_query() if self.traits else ""

    def make(self) -> Lines:
        lines = ["crate " + self.declare(self.crates)]
        lines += [self.line() for _ in range(self.rng.randrange(3, 14))]
        return [it for it in lines if it]


def colliding_text(rng: random.Random) -> Lines:
    return Colliding(rng).make()


def bytes_text(rng: random.Random) -> bytes:
    roll = rng.randrange(4)
    if roll == 0:
        return bytes(rng.randrange(256) for _ in range(rng.randrange(200)))
    if roll == 1:
        return bytes(rng.choice(b"\n\n \t/crateimplfordyn<>()[];:,&*+!?'0123\r\x00") for _ in range(rng.randrange(400)))
    words = RESERVED + SIGNS + NUMBERS + ["a", "T", "Box", "Clone", "\n", "\n", "\n"]
    written = " ".join(rng.choice(words) for _ in range(rng.randrange(120)))
    if roll == 2:
        return written.encode("latin-1")
    return ("crate a\ntrait T\nimpl T for " + rng.choice("&[(*<") * rng.choice([1, 63, 64, 65, 1000, 20000]) + written).encode("latin-1")


WORD = re.compile(r"[A-Za-z0-9_]+|->|[^ ]")


def mutate_line(rng: random.Random, line: str, words: Lines) -> str:
    tokens = WORD.findall(line)
    if not tokens:
        return line
    roll = rng.randrange(10)
    at = rng.randrange(len(tokens))
    if roll < 3:
        tokens[at] = rng.choice(words)
    elif roll < 4:
        del tokens[at]
    elif roll < 5:
        tokens.insert(at, rng.choice(RESERVED + SIGNS + NUMBERS))
    elif roll < 6:
        other = rng.randrange(len(tokens))
        tokens[at], tokens[other] = tokens[other], tokens[at]
    elif roll < 7:
        tokens[at:at] = tokens[at : at + rng.randrange(1, 4)] * rng.choice([1, 2, 20, 70])
    elif roll < 8:
        tokens[at] = rng.choice(NUMBERS)
    elif roll < 9:
        tokens[at] = tokens[at] * rng.choice([2, 32, 64, 65]) if tokens[at].isalnum() else tokens[at] + tokens[at]
    else:
        return line[: rng.randrange(len(line) + 1)]
    return " ".join(tokens)


@lru_cache(maxsize=None)
def example_lines() -> list[Lines]:
    return [it.text.decode("latin-1").split("\n") for it in examples()]


def mutated_text(rng: random.Random, others: Optional[Sequence[Lines]] = None) -> bytes:
    """A text with lines and words changed: one that is made, or one of the others, which are the examples where none are given."""
    if rng.random() < 0.5:
        lines = list(rng.choice(others or example_lines()))
    else:
        lines = Crates(rng).make(8, 6)
    words = [it for line in lines for it in WORD.findall(line)]
    for _ in range(rng.choice([1, 1, 2, 3])):
        if not lines:
            break
        at = rng.randrange(len(lines))
        roll = rng.randrange(10)
        if roll < 6:
            lines[at] = mutate_line(rng, lines[at], words)
        elif roll < 7:
            del lines[at]
        elif roll < 8:
            lines.insert(rng.randrange(len(lines)), lines[at])
        elif roll < 9:
            other = rng.randrange(len(lines))
            lines[at], lines[other] = lines[other], lines[at]
        else:
            lines.reverse()
    text = ("\n".join(lines) + "\n" * rng.randrange(2)).encode("latin-1", "replace")
    if rng.random() < 0.1 and text:
        at = rng.randrange(len(text))
        text = text[:at] + bytes([rng.randrange(256)]) + text[at + rng.randrange(2) :]
    if rng.random() < 0.1:
        text = text[: rng.randrange(len(text) + 1)]
    return text


def many(form: str, numbers: Iterable[int]) -> Lines:
    """A line for each number, where the form has it."""
    return [form.replace("#", str(k)) for k in numbers]


def repeated(part: str, count: int, between: str = ", ") -> str:
    return between.join([part] * count)


def wide_texts() -> Iterator[Lines]:
    """Some thousand items of each kind, and lines of up to a megabyte. (What is at a limit and past it is tried by tools/check limits.)"""
    show = ["crate c0", "trait Show"]
    one = show + ["struct S1"]
    both = ["impl Show for S1", "impl<T> Show for &T"]
    queries = ["prove in c0 S1: Show", "refute in c0 S1: Show", "prove in c0 ?x: Show"]
    # a crate with some thousand items of each kind
    yield show + many("struct S#", range(1, 4094)) + both + queries
    yield one + many("trait R#", range(1, 4093)) + both + queries
    yield one + many("impl Show for [u8; #]", range(1, 4095)) + queries
    # items that lead to one another, as far as they can
    last = ["prove in c0 <T> T: R0 where T: R3999", "refute in c0 u8: R3999"]
    yield one + ["trait R0"] + [f"trait R{k}: R{k - 1}" for k in range(1, 4000)] + last
    last = ["prove in c0 <T> T: R0 where T: R63", "refute in c0 u8: R63", "prove in c0 dyn R63: R1"]
    yield one + ["trait R0"] + [f"trait R{k}: R0 + R{k - 1}" for k in range(1, 64)] + last
    last = ["prove in c0 S3999: Safe", "prove in c0 S200: Safe", "refute in c0 S3999: Safe"]
    yield show + ["auto trait Safe", "struct S0"] + [f"struct S{k}(S{k - 1}, S{k - 1})" for k in range(1, 4000)] + last
    chain = [it for k in range(1, 2000) for it in (f"trait R{k}", f"impl<T> R{k} for T where T: R{k - 1}")]
    yield show + ["trait R0"] + chain + ["prove in c0 u8: R1999", "prove in c0 u8: R7", "refute in c0 u8: R1999"]
    yield one + many("impl Show for S1 where [u8; #]: Copy", range(4094)) + queries
    yield one + ["impl<T> Show for T where T: Copy"] * 300 + queries
    # queries and crates
    yield ["crate b", "trait S"] + ["prove in b!:S"] * 65536
    yield ["crate b", "trait S"] + ["prove in b!:S"] * 65537
    yield show + [f"crate c{k} uses c{k - 1}" for k in range(1, 2000)] + ["prove in c1999 u8: Show", "refute in c1999 u8: Show"]
    each = [it for k in range(1, 1000) for it in (f"crate c{k} uses c0", f"struct S{k}", f"impl Show for S{k}")]
    yield show + each + ["crate all uses " + ", ".join(f"c{k}" for k in range(1000))]
    # a section of some thousand impls, and many sections
    yield one + ["later c0"] + many("impl Show for [u8; #]", range(4095)) + ["impl<T> Show for &T", "later c0", "impl Show for S1"]
    yield ["crate b", "trait S"] + ["later b", "impl S for!", "later core"] * 20000 + ["prove in b!:S"]
    # many headers with a supertrait, and headers with many supertraits
    impls = many("impl Sub for [u8; #]", range(2040)) + many("impl Show for [u8; #]", range(2040))
    yield show + ["trait Sub: Show"] + impls + ["supers in c0", "impl Sub for [u8; 2040]", "supers in c0"]
    last = ["impl R299 for u8", "supers in c0"] + many("impl R# for u8", range(299)) + ["supers in c0"]
    yield show + ["trait R0"] + [f"trait R{k}: R{k - 1}" for k in range(1, 300)] + last
    yield ["crate b", "trait S", "trait R:S", "impl R for!", "impl S for!"] + ["supers in b"] * 20000
    # parts of a line
    yield show + ["impl Show for u8"] + ["prove in c0 <T> T: Show where " + repeated("T: Show", 64)] * 500
    wide = [f"struct S{k}({repeated('W', 64)})" for k in range(1, 900)]
    yield show + ["auto trait Safe", f"struct W({repeated('u8', 64)})"] + wide + ["prove in c0 S899: Safe"]
    tuples = ["(" + ", ".join("u8" if k >> bit & 1 else "bool" for bit in range(12)) + ")" for k in range(4095)]
    last = [f"prove in c0 ({repeated('?x', 12)}): Show", "prove in c0 (" + ", ".join(f"?x{k}" for k in range(12)) + "): Show"]
    yield show + [f"impl Show for {it}" for it in tuples] + last
    # lines without end
    yield show + ["//" + "x" * 1000] * 1000
    yield show + ["impl Show for " + "&" * 500000 + "u8"]
    yield show + ["impl Show for " + "(" * 500000]
    yield show + ["impl Show for " + "[" * 500000 + "u8" + "]" * 500000]
    yield show + [f"impl Show for ({repeated('u8', 250000)})"]
    yield show + [f"struct S({repeated('u8', 250000)})"]
    yield show + ["impl<T> Show for T where " + repeated("T: Show", 100000)]
    yield show + ["trait R: " + repeated("Show", 140000, " + ")]
    yield show + ["struct S<" + ", ".join(f"T{k}" for k in range(100000)) + ">"]
    yield ["crate c0 uses " + repeated("core", 170000)]


class Kind(NamedTuple):
    """How a text is made, and how often it is of this kind."""

    name: str
    weight: int
    make: Callable[[random.Random], Union[bytes, Lines]]


KINDS = [
    Kind("mutated", 40, mutated_text),
    Kind("crates", 34, crates_text),
    Kind("deep", 8, deep_text),
    Kind("doubling", 6, doubling_text),
    Kind("colliding", 8, colliding_text),
    Kind("bytes", 4, bytes_text),
    Kind("cyclic", 1, cyclic_text),
    Kind("growing", 1, growing_text),
]
# Kinds that work the search hard.
HARD = [Kind("growing_premises", 1, growing_premises_text)]
# Those that the program does not answer within the bounds yet: each goes up to HARD when it does.
WAITING = [
    Kind("multiplying", 1, multiplying_text),
    Kind("endless", 1, endless_text),
    Kind("asked", 1, asked_clique_text),
    Kind("stepping", 1, stepping_text),
    Kind("wide_clauses", 1, wide_clauses_text),
    Kind("costly", 1, costly_text),
]


def joined(lines: Lines) -> bytes:
    return ("\n".join(lines) + "\n").encode("ascii")


def as_bytes(made: Union[bytes, Lines]) -> bytes:
    return made if isinstance(made, bytes) else joined(made)


def by_lot(rng: random.Random, kinds: Sequence[Kind]) -> tuple[str, bytes]:
    """A text of one of the kinds, with the kind's name."""
    kind = rng.choice([it for it in kinds for _ in range(it.weight)])
    return kind.name, as_bytes(kind.make(rng))


@lru_cache(maxsize=None)
def count_wide() -> int:
    return sum(1 for _ in wide_texts())


def wide_text(number: int) -> bytes:
    """The wide text of that number, from 1."""
    return joined(next(itertools.islice(wide_texts(), number - 1, None)))


# ---- plain texts


class PlainText:
    """Makes a text without a fault: crates that use earlier ones, with structs, traits, impls and queries."""

    def __init__(self, seed: int) -> None:
        self.random = random.Random(seed)
        # of each its crate, its name, and how many parameters it has
        self.structs: list[tuple[str, str, int]] = []
        self.traits: list[tuple[str, str, int]] = []
        self.uses: dict[str, Lines] = {}
        self.lines: Lines = []

    def chance(self, percent: int) -> bool:
        return self.random.randrange(100) < percent

    def sees(self, crate: str, other: str) -> bool:
        return crate == other or any(self.sees(it, other) for it in self.uses[crate])

    def seen(self, crate: str, items: list[tuple[str, str, int]]) -> list[tuple[str, str, int]]:
        return [it for it in items if self.sees(crate, it[0])]

    def named(self, crate: str, items: list[tuple[str, str, int]], params: Lines, depth: int) -> str:
        """One of the items, with arguments."""
        _, name, count = self.random.choice(self.seen(crate, items))
        return name + within([self.type(crate, params, depth) for _ in range(count)])

    def type(self, crate: str, params: Lines, depth: int) -> str:
        if depth and self.seen(crate, self.structs) and self.chance(60):
            return self.named(crate, self.structs, params, depth - 1)
        if depth and self.chance(15):
            inner = self.type(crate, params, depth - 1)
            return self.random.choice([f"&{inner}", f"({inner},)", f"({inner}, u8)", f"[{inner}]", f"*const {inner}"])
        return self.random.choice(["u8", "bool", *params, *params])

    def reference(self, crate: str, subject: int, bound: int, params: Lines, others: Sequence[str] = ()) -> str:
        """A type of so many levels and a bound of so many, which may name others too."""
        return f"{self.type(crate, params, subject)}: {self.named(crate, self.traits, [*params, *others], bound)}"

    def add_impl(self, crate: str) -> None:
        params = ["T", "U"][: self.random.choice([0, 1, 1, 1, 2])]
        subject, bound = self.reference(crate, 2, 1, params).split(": ")
        used = [it for it in params if re.search(rf"\b{it}\b", f"{subject} {bound}")]
        clauses: Lines = []
        while self.seen(crate, self.traits) and len(clauses) < 3 and self.chance(45):
            clauses.append(self.reference(crate, 1, 1, used))
        self.lines.append(f"impl{within(used)} {bound} for {subject}{where(clauses)}")

    def add_query(self, crate: str) -> None:
        params = ["P"] if self.chance(25) else []
        queried = self.reference(crate, 3, 2, params)
        if self.chance(35):
            self.lines.append(f"refute in {crate} {self.reference(crate, 3, 2, [])}")
            return
        if self.chance(15):
            queried = self.reference(crate, 2, 1, ["?x"], ["?y"])
        clauses = [f"{params[0]}: {self.named(crate, self.traits, params, 1)}"] if params and self.chance(60) else []
        self.lines.append(f"prove in {crate} {within(params)}{' ' if params else ''}{queried}{where(clauses)}")

    def add_struct(self, crate: str) -> None:
        name, count = f"S{len(self.structs)}", self.random.choice([0, 0, 1, 1, 2])
        self.lines.append(("fundamental " if self.chance(10) else "") + f"struct {name}{within('AB'[:count])}")
        self.structs.append((crate, name, count))

    def add_trait(self, crate: str) -> None:
        name, count = f"R{len(self.traits)}", self.random.choice([0, 0, 0, 1])
        above = [it for it in self.seen(crate, self.traits) if it[2] == 0]
        bounds = f": {self.random.choice(above)[1]}" if above and self.chance(20) else ""
        self.lines.append(("fundamental " if self.chance(8) else "") + f"trait {name}{within('A'[:count])}{bounds}")
        self.traits.append((crate, name, count))

    def add_crate(self, crate: str) -> None:
        self.uses[crate] = [it for it in self.uses if self.chance(70)]
        self.lines.append(f"crate {crate}" + (f" uses {', '.join(self.uses[crate])}" if self.uses[crate] else ""))
        for _ in range(self.random.randrange(1, 4)):
            self.add_struct(crate)
        for _ in range(self.random.randrange(1 if not self.traits else 0, 4)):
            self.add_trait(crate)
        if self.seen(crate, self.traits):
            for _ in range(self.random.randrange(2, 9)):
                self.add_impl(crate)

    def make(self) -> bytes:
        for number in range(self.random.randrange(1, 4)):
            self.add_crate(f"c{number}")
        self.lines += [f"supers in {it}" for it in self.uses if self.chance(40)]
        for _ in range(8):
            self.add_query(self.random.choice([it for it in self.uses if self.seen(it, self.traits)]))
        return joined(self.lines)
