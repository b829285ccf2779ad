"""Random texts whose traits have types: up to three crates, with impls that give types, bounds that say what they are, and queries of both."""
from __future__ import annotations

import random
import re
from typing import NamedTuple, Sequence

Lines = list[str]
NAMES = re.compile(r"(?<![?\w])\w+")
LEAVES = ["u8", "u16", "bool"]


class Trait(NamedTuple):
    """A trait that is declared: its name, its number of parameters, its types, and whether it is fundamental."""

    name: str
    params: int
    types: Sequence[str]


class Struct(NamedTuple):
    name: str
    params: int


class Impl(NamedTuple):
    """An impl that is written: its trait with the arguments, its self type, and the types that it gives."""

    trait: Trait
    arguments: Sequence[str]
    subject: str
    given: Sequence[str]


class Texts:
    """Makes the lines of one text. Names are known from their crate on, to the crates that use it."""

    def __init__(self, rng: random.Random) -> None:
        self.rng = rng
        self.lines: Lines = []
        self.traits: dict[str, list[Trait]] = {}
        self.structs: dict[str, list[Struct]] = {}
        self.impls: dict[str, list[Impl]] = {}
        self.heads: set[tuple[str, str]] = set()
        self.crates: list[str] = []
        self.made = 0

    def seen(self, crate: str) -> tuple[list[Trait], list[Struct]]:
        """What the crate sees: it uses all crates before it."""
        before = self.crates[: self.crates.index(crate) + 1]
        return [it for name in before for it in self.traits[name]], [it for name in before for it in self.structs[name]]

    def type(self, crate: str, names: Sequence[str], levels: int) -> str:
        """A type with these parameters or variables at its leaves."""
        structs = self.seen(crate)[1]
        if levels == 0 or self.rng.random() < 0.35:
            plain = [it.name for it in structs if it.params == 0]
            return self.rng.choice([*names, *names, *LEAVES, *plain])
        choices = [it for it in structs if it.params]
        if choices and self.rng.random() < 0.8:
            it = self.rng.choice(choices)
            return f"{it.name}<{', '.join(self.type(crate, names, levels - 1) for _ in range(it.params))}>"
        return self.rng.choice(["Box<#>", "*const #", "fn(#)"]).replace("#", self.type(crate, names, levels - 1))

    def bound(self, crate: str, trait: Trait, names: Sequence[str], chance: float) -> str:
        """The trait with arguments, and with this chance for each of its types what it is."""
        arguments = [self.type(crate, names, 1) for _ in range(trait.params)]
        return written(trait.name, arguments, [f"{it} = {self.type(crate, names, 1)}" for it in trait.types if self.rng.random() < chance])

    def clauses(self, crate: str, names: Sequence[str], most: int) -> str:
        traits = self.seen(crate)[0]
        found = []
        for _ in range(self.rng.randint(0, most)):
            subject = self.rng.choice([*names, *names, self.type(crate, names, 1)]) if names else self.type(crate, names, 1)
            found.append(f"{subject}: {self.bound(crate, self.rng.choice(traits), names, 0.6)}")
        return " where " + ", ".join(found) if found else ""

    def add_crate(self, number: int) -> None:
        crate = f"c{number}"
        self.lines.append(f"crate {crate}" + (f" uses {', '.join(self.crates)}" if self.crates else ""))
        self.crates.append(crate)
        self.traits[crate], self.structs[crate], self.impls[crate] = [], [], []
        for _ in range(self.rng.randint(2, 4)):
            self.add_struct(crate)
        for _ in range(self.rng.randint(1, 2)):
            self.add_trait(crate)
        for _ in range(self.rng.randint(2, 6)):
            self.add_impl(crate)

    def add_struct(self, crate: str) -> None:
        self.made += 1
        params = self.rng.choice([0, 0, 1, 1, 2])
        front = "fundamental " if params and self.rng.random() < 0.1 else ""
        self.lines.append(f"{front}struct S{self.made}" + (f"<{', '.join('TU'[:params])}>" if params else ""))
        self.structs[crate].append(Struct(f"S{self.made}", params))

    def add_trait(self, crate: str) -> None:
        self.made += 1
        params = self.rng.choice([0, 0, 0, 1])
        types = self.rng.choice([[], ["Item"], ["Item"], ["Item"], ["Item", "Out"]])
        front = "fundamental " if self.rng.random() < 0.15 else ""
        head = f"{front}trait R{self.made}" + ("<T>" if params else "")
        seen = self.seen(crate)[0]
        if seen and self.rng.random() < 0.25:
            head += f": {self.bound(crate, self.rng.choice(seen), ['T'] * params, 0.6)}"
        self.lines.append(head + (f" {{ {' '.join(f'type {it};' for it in types)} }}" if types else ""))
        self.traits[crate].append(Trait(f"R{self.made}", params, types))

    def subject(self, crate: str, trait: Trait, names: Sequence[str]) -> str:
        """The self type of an impl. In most cases its head has no impl of the trait yet, and it or the trait is of the crate."""
        structs = self.structs[crate] if trait not in self.traits[crate] else self.seen(crate)[1]
        heads = [it for it in structs if (trait.name, it.name) not in self.heads]
        if not heads or self.rng.random() < 0.15:
            return self.rng.choice([self.type(crate, names, 2), *names[:1]])
        it = self.rng.choice(heads)
        self.heads.add((trait.name, it.name))
        return written(it.name, [self.rng.choice([*names, self.type(crate, names, 1)]) for _ in range(it.params)])

    def add_impl(self, crate: str) -> None:
        trait = self.rng.choice([*self.seen(crate)[0], *self.traits[crate] * 2])
        names = self.rng.choice([[], ["T"], ["T"], ["T", "U"]])
        subject = self.subject(crate, trait, names)
        arguments = [self.type(crate, names, 1) for _ in range(trait.params)]
        header = written(trait.name, arguments)
        used = [it for it in names if it in NAMES.findall(f"{header} {subject}")]
        given = [self.type(crate, used, 1) for _ in trait.types]
        clauses = self.clauses(crate, used, 2) if used and self.rng.random() < 0.6 else ""
        braces = " ".join(f"type {name} = {it};" for name, it in zip(trait.types, given))
        self.lines.append(f"impl{written('', used)} {header} for {subject}{clauses}" + (f" {{ {braces} }}" if given else ""))
        self.impls[crate].append(Impl(trait, arguments, subject, given))

    def filled(self, crate: str, names: Sequence[str]) -> Impl:
        """An impl that the crate sees, with types for its parameters: some of these names, or others."""
        found = self.rng.choice([it for name in self.crates[: self.crates.index(crate) + 1] for it in self.impls[name]])
        chosen = {it: self.type(crate, names, 1) for it in "TU"}

        def put(written_type: str) -> str:
            return NAMES.sub(lambda it: chosen.get(it[0], it[0]), written_type)

        return Impl(found.trait, [put(it) for it in found.arguments], put(found.subject), [put(it) for it in found.given])

    def asked(self, crate: str, names: Sequence[str], values: Sequence[str]) -> str:
        """A bound with what the types of its trait are: the right ones, others, or these variables."""
        it = self.filled(crate, names)
        if self.rng.random() < 0.25:
            trait = self.rng.choice(self.seen(crate)[0])
            it = Impl(trait, [self.type(crate, names, 1) for _ in range(trait.params)], it.subject, [self.type(crate, names, 1) for _ in trait.types])
        bindings = [f"{name} = {self.rng.choice([value, value, *values, *values, self.type(crate, names, 1)])}" for name, value in zip(it.trait.types, it.given)]
        arguments = [self.rng.choice([given, given, given, *names]) for given in it.arguments]
        return f"{it.subject}: {written(it.trait.name, arguments, bindings if self.rng.random() < 0.8 else bindings[1:])}"

    def add_prove(self) -> None:
        crate = self.rng.choice(self.crates)
        params = ["T"] if self.rng.random() < 0.3 else []
        names = params + (["?x"] if self.rng.random() < 0.2 else [])
        goals = ", ".join(self.asked(crate, names, ["?x", "?y"]) for _ in range(self.rng.choice([1, 1, 1, 1, 2])))
        clauses = self.clauses(crate, params, 2) if params else ""
        self.lines.append(f"prove in {crate} {'<T> ' if params else ''}{goals}{clauses}")

    def add_refute(self) -> None:
        crate = self.rng.choice(self.crates)
        names = ["?x"] if self.rng.random() < 0.3 else []
        self.lines.append(f"refute in {crate} {self.asked(crate, names, names)}")


def written(name: str, arguments: Sequence[str], bindings: Sequence[str] = ()) -> str:
    given = [*arguments, *bindings]
    return name + (f"<{', '.join(given)}>" if given else "")


def values_text(seed: str) -> Lines:
    """The text of that seed."""
    rng = random.Random(seed)
    texts = Texts(rng)
    for number in range(1, rng.choice([1, 2, 2, 3]) + 1):
        texts.add_crate(number)
    texts.lines += [f"supers in {it}" for it in texts.crates]
    for _ in range(6):
        texts.add_prove()
    for _ in range(4):
        texts.add_refute()
    return texts.lines
