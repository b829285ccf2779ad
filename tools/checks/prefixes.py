"""Every prefix of some texts without a fault, cut at each byte.

A prefix that ends with its line is answered by a line for each of its crates, sections, lines `supers` and queries. One that ends
inside a line is answered likewise, or is refused by a fault in that line.
"""
from __future__ import annotations

import argparse
from functools import partial

from .answers import FAULT, read_answer, statements
from .common import Tally, Wrong, example, program, run

NAMES = """types_as_they_are_printed unsizing_to_a_dyn several_bounds_and_where_clauses where_clauses_are_proved
    headers_that_differ_in_lifetimes values_of_a_type_and_a_const later_versions_are_judged_apart a_supertrait_that_is_missing
    a_supertrait_that_is_there types_of_a_trait""".split()


def try_prefix(answering: str, text: bytes) -> None:
    status, output, *_ = run([answering, "8"], text)
    lines = text.decode("ascii").split("\n")
    if status == 0:
        read_answer(lines, statements(lines), output)
        return
    found = FAULT.fullmatch(output)
    if status != 1 or not found or not lines[-1] or int(found[1]) != len(lines):
        raise Wrong(f"status {status} with '{output.decode().strip()}'")


def check(tally: Tally, _: argparse.Namespace) -> None:
    answering = program("celtisdarts")
    for name in NAMES:
        text = example(name).text
        for count in range(len(text) + 1):
            tally.hold(f"{name}, {count} bytes", partial(try_prefix, answering, text[:count]))
