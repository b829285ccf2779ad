"""How many lines of definitions a function's contract rests on.

    tools/check reading                       the calls that the program makes, and counts of contracts
    tools/check reading CRATE FUNCTION...     these functions, by their names

From the names in a function's clauses it follows each definition of specs/ to those that it names, and counts their lines, without
comments and blank lines. Names of the toolchain's library and types of the code are not followed. If a law on a contract says exactly
what a definition means, a reader reads the law instead, and the lines of the definition are not counted (LAWS below). For a method it
also follows the clauses of the type's `new`, except for those on costs: a session is about declarations, and `new` ties them to the bytes
of a text. The rest of the type's invariant is proved and used by the type alone, and is not counted.

The figures of these calls, and figures that should fall, are in tools/checks/reading.txt. A case is a figure, which has to be as it is
there. With --write the file gets the figures of today.
"""
from __future__ import annotations

import argparse
import os
import re
from collections import defaultdict
from functools import lru_cache
from pathlib import Path
from typing import Iterable, Iterator, NamedTuple, Optional, Sequence

from .common import TOP, Missing, Tally

FIGURES = Path(__file__).with_suffix(".txt")
CALLS = [
    ("sessions", "Session::prove"), ("sessions", "Session::refute"), ("sessions", "Session::check_crate"), ("sessions", "Session::check_later"),
    ("sessions", "Session::check_supertraits"), ("coherence", "run"),
]


class Name(NamedTuple):
    """A definition, by its module and its name there."""

    module: str
    name: str


# Definitions in whose place a law is read: two trees, and two labels as trees of one node, pass `same` exactly if they are equal. The rules
# of an impl are those of the arguments that fit and make its header the trait reference.
EQUALITY = Name("Rattle.type_terms.specs.Promised.ReadByLaws", "SameIsEqual")
LAWS = {
    Name("Rattle.type_terms.specs.Codes", "same"): EQUALITY,
    Name("Rattle.type_terms.specs.Codes", "same_label"): EQUALITY,
    Name("Rattle.type_terms.specs.Promised.Rules", "impl_rules"): Name("Rattle.type_terms.specs.Promised.ReadByLaws", "ImplRulesAreInstances"),
}
# The grammar of a line without types, which laws of the language alone rest on, and a definition that its name says.
GRAMMAR_OF_LINES = Name("Rattle.text_language.specs.Promised.Grammar", "BytesSay")
SAID_BY_NAME = Name("Rattle.text_language.specs.Promised.Desugared", "clauses_of")
BOOK = ".specs.Promised."
NO_DEFINITION = ("use", "infixl", "infixr")
HEAD = re.compile(r"^( *)(?:(?:unfoldable|abbrev|pub) )*(?:(record|data) )?(?:(?:abbrev|pub) )*([^\s:(){}]+)(?=[\s:(){]|$)")
DECLARED = re.compile(r"^ +(?:abbrev|unfoldable|pub (?:abbrev|record|data)) ")
RECORD = re.compile(r"\b(record|data)\b")
NO_ITEM = re.compile(r"pub mod | *module ")
MUTUAL = re.compile(r"(?:abbrev )?mutual$")
WORD = re.compile(r"[^\s(){}\[\],;]+")
USE = re.compile(r"^ *(?:(?:unfoldable|abbrev|pub|ghost) )*use (Rattle\.[\w.]+?)(?:\.\{([^}]*)\})?(?: as (\w+))?;?\s*$")
PASSED = re.compile(r"^pub use (Rattle\.[\w.]+)(?: as (\w+))?$", re.M)
CLAUSE = re.compile(r" *(requires|ensures)\b *(\w*)")
BODY = re.compile(r" *(\{|\}|\{ *\})$")
IMPL = re.compile(r"impl(?:<[^>]*>)? (?:.* for )?(\w+)")
AFTER_CLAUSES = re.compile(r" *(pub |fn |//|#)")
COSTS = ("frames", "full")
WIDE = 160


# ---- modules of specs/


@lru_cache(maxsize=None)
def passed_on(crate: str) -> dict[str, str]:
    """Names of other libraries that specs/Lib.antt of the crate passes on, with the whole names of their modules."""
    path = TOP / "crates" / crate / "specs" / "Lib.antt"
    text = path.read_text(encoding="utf-8") if path.is_file() else ""
    return {found[2] or found[1].rpartition(".")[2]: found[1] for found in PASSED.finditer(text)}


def own_name(module: str) -> str:
    """The module's own name, if the given one begins with a crate that passes it on."""
    parts = module.split(".")
    passed = passed_on(parts[1]) if len(parts) > 3 and parts[0] == "Rattle" and parts[2] == "specs" else {}
    return own_name(".".join([passed[parts[3]], *parts[4:]])) if parts[-1] and len(parts) > 3 and parts[3] in passed else module


class Imports:
    """What a file imports: names of modules, and modules by another name."""

    def __init__(self) -> None:
        self.names: dict[str, Name] = {}
        self.aliases: dict[str, str] = {}

    def take(self, line: str) -> bool:
        """Whether the line is an import, which is then taken."""
        found = USE.match(line)
        if not found:
            return False
        module, names, alias = own_name(found[1]), found[2] or "", found[3]
        if alias and not names:
            self.aliases[alias] = module
        for it in names.split(",") if names else []:
            own, _, other = it.strip().partition(" as ")
            if own:
                self.names[other.strip() or own.strip()] = Name(module, own.strip())
        return True


class Module:
    """One file of specs/: its items by name, with their lines, and what it imports."""

    def __init__(self, path: Path) -> None:
        self.items: dict[str, list[str]] = {}
        self.columns: dict[str, int] = {}
        self.imports, self.is_mutual, self.item = Imports(), False, ""
        for line in path.read_text(encoding="utf-8").split("\n"):
            text = "" if line.lstrip().startswith("--") else line.split(" -- ")[0]
            if text.strip() and not self.imports.take(text):
                self.take(text)

    def take(self, text: str) -> None:
        """Takes a line, which begins an item or belongs to the last one."""
        if NO_ITEM.match(text):
            self.item = ""
            return
        if MUTUAL.match(text):
            self.is_mutual, self.item = True, ""
            return
        self.is_mutual = self.is_mutual and text.startswith(" ")
        if "◌" in self.item and all(it in text.split() for it in self.item.split("◌") if it):
            self.items[self.item].append(text)
            return
        head = HEAD.match(text)
        if head and self.begins(text, len(head[1]), head[3]):
            self.item = head[3]
            self.columns.setdefault(self.item, len(head[1]))
        if self.item:
            self.items.setdefault(self.item, []).append(text)

    def begins(self, text: str, column: int, name: str) -> bool:
        """Whether the line begins an item or a clause of one, and is not a field or a later line of the last."""
        if not column or self.is_mutual and text.startswith("  pub ") or DECLARED.match(text):
            return True
        is_in_record = self.item in self.items and RECORD.search(self.items[self.item][0])
        return self.columns.get(name) == column and not is_in_record


@lru_cache(maxsize=None)
def module_of(name: str) -> Optional[Module]:
    """The module of that name if it is a file of specs/ of this repository."""
    parts = name.split(".")
    if len(parts) < 4 or parts[2] != "specs" or parts[3] == "declared":
        return None
    path = TOP.joinpath("crates", parts[1], "specs", *parts[3:]).with_suffix(".antt")
    return Module(path) if path.is_file() else None


def find(it: Name) -> Optional[Name]:
    """Where the name that a module gives is defined, if that is in specs/."""
    seen: set[Name] = set()
    while it not in seen:
        module = module_of(it.module)
        if module and it.name in module.items:
            return it
        if not module or it.name not in module.imports.names:
            return None
        seen.add(it)
        it = module.imports.names[it.name]
    return None


def named(texts: Iterable[str], imports: Imports, own: str = "") -> set[Name]:
    """The definitions that the texts name: those of their own module, and those that it imports."""
    module = module_of(own)
    found: set[Optional[Name]] = set()
    words = {it for text in texts for it in WORD.findall(text)}
    for operator in (it for it in {**imports.names, **(module.items if module else {})} if "◌" in it):
        if all(part in words for part in operator.split("◌") if part):
            found.add(Name(own, operator) if module and operator in module.items else find(imports.names[operator]))
    for word in words:
        head, _, rest = word.partition(".")
        for part in (word, word.rstrip("."), head):
            if module and part in module.items:
                found.add(Name(own, part))
            elif part in imports.names:
                found.add(find(imports.names[part]))
        if head in imports.aliases and rest:
            found.add(find(Name(imports.aliases[head], rest)))
    return {it for it in found if it}


def lines_of(it: Name) -> list[str]:
    module = module_of(it.module)
    return module.items[it.name] if module else []


def reached_from(start: Iterable[Name]) -> set[Name]:
    """All definitions that these lead to."""
    reached: set[Name] = set()
    todo = list(start)
    while todo:
        it = todo.pop()
        it = LAWS.get(it, it)
        module = module_of(it.module)
        if module and it not in reached:
            reached.add(it)
            todo.extend(named(module.items[it.name], module.imports, it.module))
    return reached


# ---- contracts


class Contract(NamedTuple):
    """The clause lines of a function, with the imports of its file."""

    clauses: list[str]
    imports: Imports

    def definitions(self) -> set[Name]:
        return reached_from(named(self.clauses, self.imports))

    def without_costs(self) -> Contract:
        """It without the clauses `frames` and `full`."""
        lines, is_included = list[str](), True
        for line in self.clauses:
            begins = CLAUSE.match(line)
            is_included = begins[2] not in COSTS if begins else is_included
            lines += [line] if is_included else []
        return Contract(lines, self.imports)


def contract_in(lines: Sequence[str], number: int) -> Contract:
    """The contract of the function that begins in that line."""
    clauses = []
    for line in lines[number + 1 :]:
        if re.match(r" *\{ *(\}|$)", line):
            break
        if not line.lstrip().startswith("//"):
            clauses.append(line)
    imports = Imports()
    for line in lines:
        imports.take(line)
    return Contract(clauses, imports)


def contract_if_any(crate: str, function: str) -> Optional[Contract]:
    """The contract of a function of the crate, or of a method by its type and name, if it is there."""
    owner, _, name = function.rpartition("::")
    head = re.compile(rf" *pub fn {re.escape(name)}\b")
    for at, _, files in os.walk(TOP / "crates" / crate / "src"):
        for file in sorted(files):
            lines = Path(at, file).read_text(encoding="utf-8").split("\n")
            within = ""
            for number, line in enumerate(lines):
                block = IMPL.match(line)
                within = block[1] if block else "" if line == "}" else within
                if head.match(line) and within == owner:
                    return contract_in(lines, number)
    return None


def contract_of(crate: str, function: str) -> Contract:
    contract = contract_if_any(crate, function)
    if not contract:
        raise Missing(f"no function {function} in crates/{crate}/src")
    return contract


def ties_of(crate: str, function: str) -> set[Name]:
    """The definitions that the clauses of `new` rest on, if the function is a method of a type that has it. They say what a value is."""
    owner = function.rpartition("::")[0]
    maker = contract_if_any(crate, f"{owner}::new") if owner else None
    return maker.without_costs().definitions() if maker else set()


class Count(NamedTuple):
    """What a contract rests on: lines of definitions, definitions, files, lines without the clauses on costs, and lines for its own clauses
    alone, without `new`."""

    lines: int
    definitions: int
    files: int
    without_costs: int
    of_clauses: int

    def __str__(self) -> str:
        costs = f", {self.without_costs} without the clauses on costs" if self.without_costs != self.lines else ""
        own = f", {self.of_clauses} for its own clauses" if self.of_clauses != self.lines else ""
        return f"{self.lines} lines of {self.definitions} definitions in {self.files} files{costs}{own}"


def count_of(crate: str, function: str) -> Count:
    contract, ties = contract_of(crate, function), ties_of(crate, function)
    own, without_costs = contract.definitions(), contract.without_costs().definitions()
    reached = own | ties
    lines, without, clauses = (sum(len(lines_of(it)) for it in some) for some in (reached, without_costs | ties, own))
    return Count(lines, len(reached), len({it.module for it in reached}), without, clauses)


def counts_of_calls() -> dict[str, Count]:
    """The counts of each promised call."""
    return {function: count_of(crate, function) for crate, function in CALLS}


# ---- all contracts, and all definitions


def files_of(ending: str) -> Iterator[Path]:
    for at, folders, files in os.walk(TOP / "crates"):
        folders[:] = sorted(it for it in folders if it != "out")
        yield from (Path(at, it) for it in files if it.endswith(ending))


def clause_lines(path: Path) -> Iterator[str]:
    is_inside = False
    for line in path.read_text(encoding="utf-8").split("\n"):
        goes_on = is_inside and line.strip() and not BODY.match(line) and not AFTER_CLAUSES.match(line)
        is_inside = bool(CLAUSE.match(line) or goes_on)
        if is_inside:
            yield line


def names_of_specs() -> dict[str, set[Path]]:
    """The names of specs/, with the files that define them."""
    paths: dict[str, set[Path]] = defaultdict(set)
    for path in files_of(".antt"):
        module = module_of(".".join(["Rattle", *path.relative_to(TOP / "crates").with_suffix("").parts])) if path.name != "Lib.antt" else None
        for name in set(module.items) - set(NO_DEFINITION) if module else ():
            paths[name].add(path)
    return paths


def counts_of_contracts() -> dict[str, int]:
    """Prints how long contract lines are and how often names recur. Returns the figures that should fall."""
    files = list(files_of(".rt"))
    clauses = [line for file in files for line in clause_lines(file)]
    wide, over = (sum(len(it) > most for it in clauses) for most in (WIDE, 200))
    print(f"contract lines: {len(clauses)} in {len(files)} files; over {WIDE} characters {wide}, over 200 {over}")
    words = [found[2] for it in clauses if (found := CLAUSE.match(it)) and found[1] == "ensures"]
    print("clauses named " + ", ".join(f"{it} {words.count(it)}" for it in ("keeps", "limit", "full", "grew")))
    names = names_of_specs()
    several = sum(len(it) > 1 for it in names.values())
    print(f"names of specs/: {len(names)}, of which {several} are in several files")
    return {"wide_contract_lines": wide, "names_in_several_files": several}


# ---- the promised book


def promised_modules() -> list[str]:
    """The modules of all folders specs/Promised."""
    files = sorted((TOP / "crates").glob("*/specs/Promised/*.antt"))
    return [f"Rattle.{it.parts[-4]}{BOOK}{it.stem}" for it in files]


def is_commented(it: Name) -> bool:
    """Whether there is a comment above the definition, or above the `mutual` block that begins with it."""
    parts = it.module.split(".")
    lines = TOP.joinpath("crates", parts[1], "specs", *parts[3:]).with_suffix(".antt").read_text(encoding="utf-8").split("\n")
    heads = [k for k, line in enumerate(lines) if (found := HEAD.match(line)) and found[3] == it.name]
    return any(re.match(r" *--|(abbrev )?mutual", lines[k - 1]) for k in heads if k)


def check_book(tally: Tally) -> None:
    """Checks that specs/Promised has exactly the definitions that the promised calls rest on, and that each has a comment."""
    reached = set().union(*(contract_of(*it).definitions() | ties_of(*it) for it in CALLS))
    promised = {Name(module, name) for module in promised_modules() if (found := module_of(module)) for name in found.items}
    for it in sorted(reached - promised):
        tally.report(f"{it.module}.{it.name}", "a promise rests on it, and it is not in specs/Promised")
    for it in sorted(promised - reached - {*LAWS, GRAMMAR_OF_LINES}):
        if it.name not in NO_DEFINITION:
            tally.report(f"{it.module}.{it.name}", "it is in specs/Promised, and no promise rests on it")
    for it in sorted(reached & promised - {SAID_BY_NAME}):
        tally.expect(f"{it.module}.{it.name}", is_commented(it), "it has no comment")


def figures() -> dict[str, tuple[int, ...]]:
    """The figures by name, each as its numbers."""
    found: dict[str, tuple[int, ...]] = {}
    for function, count in counts_of_calls().items():
        print(f"{function}: {count}")
        found[function] = count
    return {**found, **{name: (number,) for name, number in counts_of_contracts().items()}}


def stored_figures() -> dict[str, tuple[int, ...]]:
    rows = [line.split() for line in FIGURES.read_text(encoding="utf-8").split("\n") if line and not line.startswith("#")]
    return {name: tuple(map(int, numbers)) for name, *numbers in rows}


def write(found: dict[str, tuple[int, ...]]) -> None:
    """Writes these figures into the file, each after its name, and leaves its other lines."""
    lines = FIGURES.read_text(encoding="utf-8").split("\n")
    names = [line.partition(" ")[0] for line in lines]
    rows = {name: " ".join([name, *map(str, found[name])]) for name in found}
    written = [rows.get(name, line) for name, line in zip(names, lines)]
    FIGURES.write_text("\n".join(written), encoding="utf-8")


def add_words(reader: argparse.ArgumentParser) -> None:
    reader.add_argument("--write", action="store_true")
    reader.add_argument("crate", nargs="?")
    reader.add_argument("functions", nargs="*")


def check(tally: Tally, given: argparse.Namespace) -> None:
    if given.crate:
        for function in given.functions:
            print(f"{function}: {count_of(given.crate, function)}")
            tally.passed += 1
        return
    check_book(tally)
    found = figures()
    if given.write:
        write(found)
    stored = stored_figures()
    for name in {**stored, **found}:
        now, then = (" ".join(map(str, it.get(name, ()))) or "none" for it in (found, stored))
        tally.expect(name, now == then, f"{now}, and {then} in {FIGURES.relative_to(TOP)}")
