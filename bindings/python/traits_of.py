"""Prints which traits of a text a type has, as far as a crate sees: python3 traits_of.py TEXT CRATE TYPE

Arguments of traits are asked as variables, and `yes` comes with their values. `maybe` is undecided, for example since several values fit.
`never` says that no crate which may be linked can add an impl. `not proved` says less: no impl that the crate sees applies, but another
crate or a later version may add one. Traits that the crate does not see are left out, and those of `core`. The type may have variables, but
no parameters. The status is 2 if a word or the text is wrong.

    $ python3 bindings/python/traits_of.py texts/std.txt std 'Vec<u8>'
    Never                   never
    Send                    yes
    Sync                    yes
    Debug                   yes
    Display                 never
    ToString                never
    Error                   never
    Iterator                never
    Iterator__Item<?a>      not proved
    IntoIterator            yes
    IntoIterator__Item<?a>  yes ?a = u8
    From<?a>                maybe
    Into<?a>                maybe
    TryFrom<?a>             maybe
    TryInto<?a>             maybe
"""
from __future__ import annotations

import re
import string
import sys
from pathlib import Path
from typing import Iterator, Sequence

import celtisdarts
from celtisdarts import CeltisdartsError, No, QuestionFault, Session, Unproved

TRAIT = re.compile(r"^ *(?:fundamental +)?(?:auto +)?trait +(\w+) *(?:<([^>]*)>)?", re.M)
NOT_SEEN = 6


def bounds(text: str, asked: str) -> Iterator[str]:
    """Each trait of the text, with variables as arguments that the type does not name."""
    letters = [it for it in string.ascii_lowercase if f"?{it}" not in asked]
    for name, params in TRAIT.findall(text):
        args = ["'static" if "'" in it else f"?{letter}" for it, letter in zip(params.split(","), letters)]
        yield f"{name}<{', '.join(args)}>" if params else name


def answer(session: Session, bound: str) -> str:
    found = session.prove(bound)
    if isinstance(found, Unproved):
        return "never" if isinstance(session.refute(bound), No) else "not proved"
    return str(found)


def rows(session: Session, text: str, asked: str) -> Iterator[tuple[str, str]]:
    for bound in bounds(text, asked):
        try:
            yield bound, answer(session, f"{asked}: {bound}")
        except QuestionFault as fault:
            if fault.number != NOT_SEEN:
                yield bound, str(fault)


def main(words: Sequence[str]) -> int:
    if len(words) != 3:
        print("usage: traits_of.py TEXT CRATE TYPE", file=sys.stderr)
        return 2
    file, name, asked = words
    try:
        text = Path(file).read_text(encoding="latin-1")
        session = celtisdarts.Workspace(text).session(name)
        session.refute(f"{asked}: Sized")  # raises the fault of the type
        table = list(rows(session, text, asked))
    except (ImportError, OSError, CeltisdartsError) as error:
        print(f"traits_of.py: {error}", file=sys.stderr)
        return 2
    width = max((len(bound) for bound, _ in table), default=0)
    for bound, found in table:
        print(f"{bound:{width}}  {found}")
    return 0


if __name__ == "__main__":
    sys.exit(main(sys.argv[1:]))
