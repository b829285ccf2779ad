"""Figures of the repository that should fall, counted from its files, and lines of crates.txt that list too much.

    tools/check shape              the figures of today, which may not be greater than those in the file
    tools/check shape --copies     names the lemmas that are copies, and the names that are defined several times
    tools/check shape --write      writes the figures of today

- `crates`: those of crates.txt.
- `promised_...`: what the promised calls rest on, as the check `reading` follows it, and how many of its names are in several files of
  specs/.
- `functions_...`: functions outside the crates of tests, by their parameters, with `self`.
- `copies_of_lemmas`: lemmas of proofs/ with the statement of another one, including the blocks around it, under any name.
- `lines_of_...`: lines without blank ones and comments. `files`: the files that have them.

The figures are in tools/checks/shape.txt. A case is a figure, which has to be as it is there or less, or a line of crates.txt, in which
each word has to be a library that the crate's files name. (The toolchain refuses a name of a library that the line does not list.)
"""
from __future__ import annotations

import argparse
import re
from collections import defaultdict
from pathlib import Path
from typing import Iterator, NamedTuple

from . import reading
from .common import TOP, Tally, crates

FIGURES = Path(__file__).with_suffix(".txt")
NO_PRODUCT = "test_"
MANY = 7
FOLDERS = {"src": (".rt", "//"), "specs": (".antt", "--"), "proofs": (".antt", "--")}

FUNCTION = re.compile(r"\bfn (\w+)")
BRACKETS = {"(": ")", "[": "]", "{": "}", "<": ">"}
BLOCK = re.compile(r"(?:pub )?(?:module |(?:abbrev )?mutual$)")
PREFIX = re.compile(r"(?:(?:pub|abbrev|unfoldable) )+")
NO_LEMMA = re.compile(r"(?:pub )?(?:abbrev|unfoldable|record|data|use|infixl|infixr) ")
GOES_ON = re.compile(r"[)\]}]|unfolding ")
# Words of crates.txt that no file names. A crate that visits or folds terms lists `type_terms`, because the toolchain reads its declarations.
# `indexmap` can go when solver_graph, and so each crate above it, has to be proved again for another reason.
WAITING = {"solver_graph": ["indexmap"], **dict.fromkeys(("explain_sessions", "explain_texts", "celtisdarts"), ["type_terms"])}


def folder_files(folder: str, crate: str = "*") -> list[Path]:
    return sorted((TOP / "crates").glob(f"{crate}/{folder}/**/*{FOLDERS[folder][0]}"))


def lines_of(path: Path, comment: str) -> list[str]:
    """The lines of a file without blank ones and comments."""
    lines = path.read_text(encoding="utf-8").split("\n")
    return [it for it in lines if it.strip() and not it.lstrip().startswith(comment)]


# ---- crates.txt


def unused_libraries(crate: str, listed: list[str]) -> list[str]:
    """The libraries of a line of crates.txt that no file of the crate names: as the first word of a path in code, after `Rattle.` elsewhere."""
    paths = [(it, comment) for folder, (_, comment) in FOLDERS.items() for it in folder_files(folder, crate)]
    text = "\n".join(line for path, comment in paths for line in lines_of(path, comment))
    return [it for it in listed if not re.search(rf"(?<!\w)(?<!\w::){it}::|\buse {it}\b|\bRattle\.{it}\b", text)]


# ---- what promises rest on


def promised() -> set[reading.Name]:
    """The definitions that the promised calls rest on."""
    return set().union(*(reading.contract_of(*it).definitions() | reading.ties_of(*it) for it in reading.CALLS))


def names_again(definitions: set[reading.Name]) -> dict[str, set[Path]]:
    """The names of these definitions that are in several files of specs/, with the files."""
    paths = reading.names_of_specs()
    return {name: paths[name] for name in sorted({it.name for it in definitions}) if len(paths[name]) > 1}


def counts_of_promised() -> dict[str, int]:
    definitions = promised()
    return {
        "promised_files": len({it.module for it in definitions}),
        "promised_definitions": len(definitions),
        "promised_lines": sum(len(reading.lines_of(it)) for it in definitions),
        "promised_names_in_several_files": len(names_again(definitions)),
    }


# ---- functions of the product


def parts_between(text: str, start: int) -> tuple[list[str], int]:
    """The text from the bracket at that index to the one that closes it, split at its commas, and the index after it."""
    parts, open_ones = [""], [BRACKETS[text[start]]]
    for at in range(start + 1, len(text)):
        sign = text[at]
        if sign == open_ones[-1] and text[at - 1 : at + 1] != "->":
            open_ones.pop()
        elif sign in BRACKETS:
            open_ones.append(BRACKETS[sign])
        if not open_ones:
            return [it for it in parts if it.strip()], at + 1
        if sign == "," and len(open_ones) == 1:
            parts.append("")
        else:
            parts[-1] += sign
    return [], len(text)


def parameters(text: str) -> Iterator[int]:
    """The number of parameters of each function in the text."""
    for found in FUNCTION.finditer(text):
        at = found.end()
        if text[at : at + 1] == "<":
            at = parts_between(text, at)[1]
        if text[at : at + 1] == "(":
            yield len(parts_between(text, at)[0])


def counts_of_functions() -> dict[str, int]:
    files = [it for crate in crates() if not crate.startswith(NO_PRODUCT) for it in folder_files("src", crate)]
    counts = [number for it in files for number in parameters("\n".join(lines_of(it, "//")))]
    return {f"functions_of_over_{MANY}_parameters": sum(it > MANY for it in counts), f"functions_of_{MANY}_parameters": counts.count(MANY)}


# ---- copies of lemmas


class Lemma(NamedTuple):
    """A lemma: its file, and its statement with the heads of the blocks around it, for any name and layout."""

    path: Path
    name: str
    statement: str


class Reader:
    """Reads the lemmas of one file, whose blocks it opens and closes by their indentation."""

    def __init__(self, path: Path) -> None:
        self.path = path
        self.blocks: list[tuple[int, str]] = []
        self.is_head_open = self.is_lemma = False
        self.name, self.column, self.lines = "", -1, list[str]()

    def lemmas(self) -> Iterator[Lemma]:
        for line in lines_of(self.path, "--"):
            column, text = len(line) - len(line.lstrip()), line.strip().removeprefix("pub ")
            if self.is_head_open:
                self.extend_head(text)
            elif column > self.column >= 0 or GOES_ON.match(text):
                self.lines.append(text)
            elif BLOCK.match(text):
                yield from self.end(column)
                self.blocks.append((column, ""))
                self.extend_head(text)
            else:
                name = PREFIX.sub("", text).split()[0]
                if name != self.name or column != self.column:
                    yield from self.end(column)
                    self.name, self.column, self.is_lemma = name, column, not NO_LEMMA.match(text)
                self.lines.append(text)
        yield from self.end(0)

    def extend_head(self, text: str) -> None:
        """Adds a line to the head of the last block, which ends with a word of its own."""
        column, head = self.blocks[-1]
        self.blocks[-1] = (column, f"{head} {text}")
        self.is_head_open = not text.endswith(("where", "mutual"))

    def end(self, column: int) -> Iterator[Lemma]:
        """Ends the last lemma, and the blocks that a line in that column is not part of."""
        if self.name and self.is_lemma:
            words = " ".join([*(head for _, head in self.blocks), *self.lines]).split()
            yield Lemma(self.path, self.name, " ".join("◌" if it == self.name else it for it in words))
        self.name, self.column, self.lines = "", -1, []
        while self.blocks and self.blocks[-1][0] >= column:
            self.blocks.pop()


def copies() -> list[list[Lemma]]:
    """Groups of lemmas with the same statement. A function's own folder has answers and invariants, and no lemmas."""
    groups: dict[str, list[Lemma]] = defaultdict(list)
    for path in folder_files("proofs"):
        if path.parent.name == "proofs" and path.name != "Lib.antt":
            for it in Reader(path).lemmas():
                groups[it.statement].append(it)
    return [it for it in groups.values() if len(it) > 1]


# ---- figures


def counts_of_lines() -> dict[str, int]:
    files = {folder: folder_files(folder) for folder in FOLDERS}
    counts = {f"lines_of_{folder}": sum(len(lines_of(it, FOLDERS[folder][1])) for it in files[folder]) for folder in FOLDERS}
    return {**counts, "files": sum(map(len, files.values()))}


def figures() -> dict[str, int]:
    copied = {"copies_of_lemmas": sum(len(it) - 1 for it in copies())}
    return {"crates": len(crates()), **counts_of_promised(), **counts_of_functions(), **copied, **counts_of_lines()}


def stored_figures() -> dict[str, int]:
    rows = [line.split() for line in FIGURES.read_text(encoding="utf-8").split("\n") if line and not line.startswith("#")]
    return {name: int(number) for name, number in rows}


def write(found: dict[str, int]) -> None:
    """Puts these figures into the file, below its comments."""
    head = [line for line in FIGURES.read_text(encoding="utf-8").split("\n") if line.startswith("#")]
    FIGURES.write_text("\n".join([*head, "", *(f"{name} {number}" for name, number in found.items()), ""]), encoding="utf-8")


def print_copies() -> None:
    for group in copies():
        print(", ".join(f"{it.path.relative_to(TOP / 'crates')} {it.name}" for it in group))
    for name, paths in names_again(promised()).items():
        print(f"{name}: " + ", ".join(str(it.relative_to(TOP / "crates")) for it in sorted(paths)))


def add_words(reader: argparse.ArgumentParser) -> None:
    reader.add_argument("--write", action="store_true")
    reader.add_argument("--copies", action="store_true")


def check(tally: Tally, given: argparse.Namespace) -> None:
    if given.copies:
        print_copies()
    found = figures()
    if given.write:
        write(found)
    for name, listed in crates().items():
        unused = [it for it in unused_libraries(name, listed) if it not in WAITING.get(name, [])]
        tally.expect(f"crates.txt, {name}", not unused, f"no file of the crate names {', '.join(unused)}: take it out of the line")
    stored = stored_figures()
    for name, number in found.items():
        print(f"{name} {number}")
        most = stored.get(name, -1)
        tally.expect(name, number <= most, f"{number} are more than the {most} in {FIGURES.relative_to(TOP)}: lower it, or say why not and --write it")
