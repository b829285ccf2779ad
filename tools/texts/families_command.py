"""The words of benches/families."""
from __future__ import annotations

import argparse
import json
import os
import sys
from typing import Optional

from .as_rust import Form, Translation
from .families import FAMILIES, Family, named, text_of
from .measure import Measuring, Row, measure, startups_of
from .report import head_line, stored_form, lines_of, markdown_head, markdown_of, read_rustc
from .runs import Limits, program_here
from .rustc import SOLVERS, find_rustc, version_of

MEGABYTE = 1024 * 1024


def list_families() -> int:
    for family in FAMILIES:
        depth = "that size" if family.depth is None else str(family.depth)
        print(f"{family.name:24} {family.sizes[0]}, {family.sizes[1]} at depth {depth}: {family.what()}")
    return 0


def show(family: Family, size: Optional[int], as_rust: bool, depth: Optional[int]) -> int:
    """Prints the text, or its crates in Rust, one after the other."""
    at = size or family.sizes[0]
    if not as_rust:
        sys.stdout.buffer.write(text_of(family, at))
        return 0
    for crate, source in Translation(family.make(at), family.rust or Form()).sources(depth or family.depth_at(at)):
        print(f"// {crate.name}.rs\n{source}", end="")
    return 0


def reader_of(about: Optional[str]) -> argparse.ArgumentParser:
    reader = argparse.ArgumentParser(description=about, formatter_class=argparse.RawDescriptionHelpFormatter)
    reader.add_argument("--list", action="store_true", help="what the families are")
    reader.add_argument("--family", action="append", default=[], metavar="NAME", help="these alone")
    reader.add_argument("--program", default=program_here(), metavar="PATH", help="in place of the one that was built here, or of release/")
    reader.add_argument("--depth", type=int, metavar="NUMBER", help="in place of the family's")
    reader.add_argument("--runs", type=int, default=3, metavar="NUMBER", help="the best of so many, where one takes less than a second")
    reader.add_argument("--seconds", type=int, default=60, metavar="NUMBER", help="of the processor, for a run")
    reader.add_argument("--memory", type=int, default=1024, metavar="MB", help="for a run of the program")
    reader.add_argument("--no-rustc", action="store_true")
    reader.add_argument("--solver", choices=sorted(SOLVERS), action="append", help="of rustc: this one alone")
    reader.add_argument("--keep", metavar="FILE", help="writes the figures there too")
    reader.add_argument("--rustc-of", metavar="FILE", help="takes rustc's figures from there")
    reader.add_argument("--markdown", action="store_true", help="the table of benches/FIGURES.md")
    reader.add_argument("--show", metavar="NAME", help="prints a text")
    reader.add_argument("--size", type=int, metavar="NUMBER", help="of that text")
    reader.add_argument("--rust", action="store_true", help="prints it as Rust")
    return reader


def print_row(row: Row, is_markdown: bool) -> None:
    for line in (markdown_of if is_markdown else lines_of)(row):
        print(line, flush=True)


def run(given: argparse.Namespace, families: list[Family]) -> int:
    rustc = None if given.no_rustc or given.rustc_of else find_rustc()
    limits = Limits(given.seconds, given.memory * MEGABYTE)
    measuring = Measuring(given.program, limits, given.runs, given.depth, rustc, Limits(given.seconds, 8192 * MEGABYTE))
    startups = startups_of(measuring, given.solver or list(SOLVERS))
    stored = read_rustc(given.rustc_of) if given.rustc_of else {}
    times = [f"{name} {seconds:.3f} s" for name, seconds in startups.rustc.items()]
    if rustc:
        print(f"benches/families: rustc {version_of(rustc)}, an empty crate: {', '.join(times)}", file=sys.stderr)
    for line in markdown_head() if given.markdown else [head_line()]:
        print(line, flush=True)
    for family in families:
        row = measure(measuring, startups, family)
        row.rustc.update(stored.get(family.name, {}))
        print_row(row, given.markdown)
        if given.keep:
            with open(given.keep, "a", encoding="utf-8") as file:
                file.write(json.dumps(stored_form(row)) + "\n")
    return 0


def main(about: Optional[str], words: list[str]) -> int:
    reader = reader_of(about)
    given = reader.parse_args(words)
    if given.list:
        return list_families()
    try:
        if given.show:
            return show(named([given.show])[0], given.size, given.rust, given.depth)
        families = named(given.family)
    except KeyError as missing:
        reader.error(f"there is no family {missing.args[0]}")
    if not os.access(given.program, os.X_OK):
        reader.error(f"there is no program {given.program}")
    return run(given, families)
