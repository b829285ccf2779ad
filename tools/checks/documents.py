"""Documents are as short as they may be, and so are their sentences.

Each document has at most as many words as SIZES says, as `wc -w` counts them, or OTHER if it is not named there. No document has a sentence
of more than 45 words. A sentence ends with a full stop, an item of a list or a cell of a table. Blocks of code have none.

A block with a line that begins with '$ ' shows a run: it is marked as `console`, and the check `transcripts` runs it. The index at the end
of docs/TUTORIAL.md names each folder of examples/ once. The lines of definitions that a run rests on, as README.md states them, are those of
tools/checks/reading.txt, rounded up to hundreds.

It proves nothing and takes a moment. --list prints words and long sentences of each document, --long the sentences.
"""
from __future__ import annotations

import argparse
import re
from typing import Iterator

from .common import TOP, Tally, examples

SIZES = {
    "README.md": 1000,
    "CONTRIBUTING.md": 1800,
    "benches/FIGURES.md": 2125,
    "docs/ARCHITECTURE.md": 1500,
    "docs/DECISIONS.md": 4120,
    "docs/DIFFERENCES.md": 1650,
    "docs/EXPLAIN.md": 1000,
    "docs/FORMAT.md": 4820,
    "docs/GLOSSARY.md": 1200,
    "docs/LIBRARY.md": 1900,
    "docs/PROMISES.md": 4400,
    "docs/PROVING.md": 2600,
    "docs/RELEASES.md": 850,
    "docs/RUSTDOC.md": 3165,
    "docs/SEMVER.md": 1620,
    "docs/TUTORIAL.md": 1950,
}
OTHER = 1500
LONG = 45
FOLDERS = ["", "docs", "benches"]

TUTORIAL = "docs/TUTORIAL.md"
INDEX = "\n## The examples, by subject\n"

FENCED = re.compile(r"^```.*?^```", re.M | re.S)
BLOCK = re.compile(r"^```(.*)\n((?:.|\n)*?)^```", re.M)
ITEM = re.compile(r"(?:[-*]|\d+\.) +")
RULE = re.compile(r"[|:\- ]+")
CELLS = re.compile(r"(?<!\\)\|")
END = re.compile(r"(?<=[.!?])[)\"'*`]*\s+(?=[A-Z`*(\[\"'&<0-9$-])")


def documents() -> list[str]:
    return [str(path.relative_to(TOP)) for folder in FOLDERS for path in sorted((TOP / folder).glob("*.md"))]


def text_of(document: str) -> str:
    return (TOP / document).read_text(encoding="utf-8")


def pieces_of(text: str) -> Iterator[str]:
    """Paragraphs, items of lists and cells of tables, each in one line."""
    open_lines: list[str] = []
    for line in [*FENCED.sub("\n\n", text).split("\n"), ""]:
        stripped = line.strip()
        item = ITEM.match(stripped)
        if open_lines and (not stripped or item or stripped[0] in "|#"):
            yield " ".join(open_lines)
            open_lines.clear()
        if stripped.startswith("|"):
            yield from () if RULE.fullmatch(stripped) else CELLS.split(stripped.strip("|"))
        elif stripped and not stripped.startswith("#"):
            open_lines.append(stripped[item.end():] if item else stripped)


def long_sentences(text: str) -> list[str]:
    return [sentence for piece in pieces_of(text) for sentence in END.split(piece.strip()) if len(sentence.split()) > LONG]


def check_blocks(tally: Tally, document: str, text: str) -> None:
    for block in BLOCK.finditer(text):
        if any(line.startswith("$ ") for line in block[2].split("\n")):
            line = 1 + text.count("\n", 0, block.start())
            tally.expect(f"{document}:{line}", block[1].startswith("console"), "a block that shows a run is not marked as `console`")


def check_index(tally: Tally) -> None:
    named = re.findall(r"`(\w+)`", text_of(TUTORIAL).partition(INDEX)[2])
    for example in examples():
        count = named.count(example.name)
        tally.expect(f"examples/{example.name}", count == 1, f"it is named {count} times in the index of {TUTORIAL}, and not once")


def check_figure(tally: Tally) -> None:
    stated = re.search(r"A run rests on ([\d,]+)\s+lines", text_of("README.md"))
    counted = re.search(r"^run (\d+) ", text_of("tools/checks/reading.txt"), re.M)
    figures = [int(it[1].replace(",", "")) if it else 0 for it in (stated, counted)]
    is_right = figures[1] > 0 and figures[0] == -(-figures[1] // 100) * 100
    tally.expect("README.md, lines that a run rests on", is_right, f"{figures[0]} there, {figures[1]} in tools/checks/reading.txt")


def check(tally: Tally, given: argparse.Namespace) -> None:
    for document in documents():
        text = text_of(document)
        words, most, long = len(text.split()), SIZES.get(document, OTHER), long_sentences(text)
        if given.list:
            print(f"{words:6} words, {len(long):3} long sentences  {document}")
        for sentence in long if given.long else ():
            print(f"{document}: {len(sentence.split())} words: {sentence}")
        tally.expect(document, words <= most, f"{words} words, {most} at most are allowed")
        tally.expect(f"{document}, sentences", not long, f"more than {LONG} words: {long}")
        check_blocks(tally, document, text)
    check_index(tally)
    check_figure(tally)


def add_words(reader: argparse.ArgumentParser) -> None:
    reader.add_argument("--list", action="store_true")
    reader.add_argument("--long", action="store_true")
