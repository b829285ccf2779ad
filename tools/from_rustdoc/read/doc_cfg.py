"""Items that are there, or are not, because rustdoc sets `cfg(doc)`: found in the sources, since the JSON does not say so."""
from __future__ import annotations

import itertools
import os
import re
from typing import Iterable, Iterator, Optional, Union

# What is set where a crate is built, as `unix` and `feature="std"`. None if that is not known.
Cfgs = Optional[frozenset[str]]
Predicate = Union[str, tuple[str, tuple["Predicate", ...]]]
BEGINS = re.compile(r"\bcfg(_attr)?\s*\(")
WORDS = re.compile(r'"(?:[^"\\]|\\.)*"|[A-Za-z_]\w*|[(),=]')
LONGEST, MANY, TOLD = 2000, 6, 3


def places(files: Iterable[str], roots: list[str], cfgs: Cfgs) -> list[str]:
    """Where `doc` decides about an item, as `lib.rs:12`, the first few; `files` are as rustdoc names them, from one of the folders."""
    found: list[str] = []
    for file in sorted(files):
        path = next((p for p in (os.path.join(root, file) for root in roots) if os.path.isfile(p)), None)
        if path is None or len(found) >= TOLD:
            continue
        with open(path, encoding="utf-8", errors="replace") as handle:
            text = handle.read()
        if "doc" in text and "cfg" in text:
            found += [f"{os.path.basename(file)}:{line}" for line in lines(text, cfgs)]
    return found[:TOLD]


def lines(text: str, cfgs: Cfgs) -> Iterator[int]:
    """The lines with a predicate that is another one because of `doc`."""
    bare = without_comments(text)
    for begin in BEGINS.finditer(bare):
        predicate = read(WORDS.findall(bare[begin.end():begin.end() + LONGEST]))
        if depends_on_doc(predicate, cfgs):
            yield bare.count("\n", 0, begin.start()) + 1


def without_comments(text: str) -> str:
    """The text without what `//` begins and without strings that are no values; each line stays where it is."""
    return re.sub(r'("(?:[^"\\\n]|\\.)*")|//[^\n]*', lambda found: "" if not found.group(1) or "(" in found.group(1) else found.group(1), text)


def read(words: list[str]) -> Predicate:
    """The predicate that begins there. It takes the words away that it reads."""
    word = words.pop(0) if words else ""
    if word in ("all", "any", "not") and words[:1] == ["("]:
        words.pop(0)
        inside: list[Predicate] = []
        while words and words[0] != ")":
            inside.append(read(words))
            if words[:1] == [","]:
                words.pop(0)
        del words[:1]
        return word, tuple(inside)
    if words[:1] == ["="]:
        del words[:1]
        return f"{word}={words.pop(0) if words else ''}"
    return word


def atoms(predicate: Predicate) -> set[str]:
    if isinstance(predicate, str):
        return {predicate}
    return {atom for part in predicate[1] for atom in atoms(part)}


def holds(predicate: Predicate, given: frozenset[str]) -> bool:
    if isinstance(predicate, str):
        return predicate in given
    word, inside = predicate
    if word == "not":
        return not any(holds(part, given) for part in inside)
    return all(holds(part, given) for part in inside) if word == "all" else any(holds(part, given) for part in inside)


def depends_on_doc(predicate: Predicate, cfgs: Cfgs) -> bool:
    """Whether it is another one with `doc`, where that is not known for any of what may be set."""
    named = atoms(predicate)
    if "doc" not in named:
        return False
    unsure = sorted(named - {"doc", "test"}) if cfgs is None else []
    if len(unsure) > MANY:
        return True
    known = (cfgs or frozenset()) - {"doc", "test"}
    for some in itertools.chain.from_iterable(itertools.combinations(unsure, n) for n in range(len(unsure) + 1)):
        given = known | frozenset(some)
        if holds(predicate, given) != holds(predicate, given | {"doc"}):
            return True
    return False
