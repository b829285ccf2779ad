"""Writes the lines of a text that have types of traits as the plain lines for which they stand.

docs/FORMAT.md has the rule. The companion `It::Item` is a trait `It__Item` here, its parameter `=` is `V_`, and `::W` is a struct `W_` of a
crate of its own that each crate uses. This is written anew after the document, so that it does not share a mistake with the reader.
"""
from __future__ import annotations

import re
from collections import defaultdict
from typing import NamedTuple, Optional, Sequence

from .as_rust import TOKEN

Tokens = list[str]
OPENING, CLOSING = "<([{", ">)]}"
HOME = "wrapper_"
HEAD = [f"crate {HOME}", "struct W_<T>"]
IMPL = re.compile(r"\bimpl (\d+)(?: with (\w+) (\d+))?")
OF = re.compile(r"(crate|later|supers) (\w+): ")


def split_at(tokens: Tokens, *signs: str) -> list[Tokens]:
    """The parts between these signs outside of brackets."""
    parts: list[Tokens] = [[]]
    depth = 0
    for token in tokens:
        depth += (token in OPENING) - (token in CLOSING)
        if depth == 0 and token in signs:
            parts.append([])
        else:
            parts[-1].append(token)
    return parts


def end_of_list(tokens: Tokens, at: int) -> int:
    """Behind the brackets that begin there, if some do."""
    if tokens[at : at + 1] != ["<"]:
        return at
    depth = 0
    while True:
        depth += (tokens[at] in OPENING) - (tokens[at] in CLOSING)
        at += 1
        if depth == 0:
            return at


class Bound(NamedTuple):
    """A trait with its arguments, and what is said of its types."""

    trait: str
    arguments: list[str]
    types: list[tuple[str, str]]

    def plain(self) -> list[str]:
        """The trait, and a companion for each type."""
        companions = [(f"{self.trait}__{name}", [*self.arguments, f"W_<{value}>"]) for name, value in self.types]
        return [name + (f"<{', '.join(arguments)}>" if arguments else "") for name, arguments in [(self.trait, self.arguments), *companions]]


def written(tokens: Tokens) -> str:
    return " ".join(tokens)


def read_bound(tokens: Tokens, more: Sequence[Tokens] = ()) -> Bound:
    """The bound. Further bindings are types that an impl gives."""
    inside = [it for it in split_at(tokens[2:-1], ",") if it]
    bindings = [it for it in inside if it[1:2] == ["="]]
    types = [(it[0], written(it[2:])) for it in [*bindings, *more]]
    return Bound(tokens[0], [written(it) for it in inside if it[1:2] != ["="]], types)


def plain_goals(tokens: Tokens, is_asked: bool = False) -> list[str]:
    """The bounds of types for which these stand. Where bindings are asked, only the companions are."""
    found: list[str] = []
    for goal in split_at(tokens, ","):
        subject, bound = split_at(goal, ":")
        bounds = read_bound(bound).plain()
        found += [f"{written(subject)}: {it}" for it in (bounds[1:] if is_asked and len(bounds) > 1 else bounds)]
    return found


def types_between(tokens: Tokens) -> list[Tokens]:
    """What stands between `type` and `;` in the braces."""
    return [it[1:] for it in split_at(tokens, ";") if it]


def without_braces(tokens: Tokens) -> tuple[Tokens, list[Tokens]]:
    at = tokens.index("{") if "{" in tokens else len(tokens)
    return tokens[:at], types_between(tokens[at + 1 : -1])


def plain_trait(tokens: Tokens) -> list[str]:
    tokens, types = without_braces(tokens)
    at = tokens.index("trait") + 1
    end = end_of_list(tokens, at + 1)
    words, name, params = written(tokens[: at]), tokens[at], tokens[at + 2 : end - 1]
    bounds = [bound for it in split_at(tokens[end + 1 :], "+") if it for bound in read_bound(it).plain()]
    lines = [written(tokens[:end]) + (": " + " + ".join(bounds) if bounds else "")]
    return lines + [f"{words} {name}__{it}<{written(params) + ', ' if params else ''}V_>" for it, in types]


def plain_impl(tokens: Tokens) -> list[str]:
    tokens, types = without_braces(tokens)
    first = end_of_list(tokens, 1)
    end = end_of_list(tokens, first + 1)
    subject, *where = split_at(tokens[end + 1 :], "where")
    clauses = " where " + ", ".join(plain_goals(where[0])) if where else ""
    bounds = read_bound(tokens[first:end], types).plain()
    return [f"{written(tokens[:first])} {it} for {written(subject)}{clauses}" for it in bounds]


def plain_query(tokens: Tokens) -> list[str]:
    # parameters are a list of single words; a subject that begins with `<` cannot be written
    end = end_of_list(tokens, 3)
    goals, *where = split_at(tokens[end:], "where")
    clauses = " where " + ", ".join(plain_goals(where[0])) if where else ""
    return [f"{written(tokens[:end])} {', '.join(plain_goals(goals, is_asked=True))}{clauses}"]


def plain_line(line: str) -> list[str]:
    """The lines for which this one stands."""
    tokens = TOKEN.findall(line)
    if not tokens or line.lstrip().startswith("//"):
        return [line]
    if tokens[0] == "crate":
        return [f"{line}, {HOME}" if "uses" in tokens else f"{line} uses {HOME}"]
    if tokens[0] == "impl":
        return plain_impl(tokens)
    if tokens[0] in ("prove", "refute"):
        return plain_query(tokens)
    return plain_trait(tokens) if "trait" in tokens[:3] else [line]


class Plain:
    """The plain lines of a text. The impls of a crate or a section have other numbers there."""

    def __init__(self, lines: Sequence[str]) -> None:
        self.lines = HEAD[:]
        self.numbers: defaultdict[str, list[int]] = defaultdict(list)
        self.counts: defaultdict[str, int] = defaultdict(int)
        self.sections = 0
        place = ""
        for line in lines:
            words = line.split()
            if words[:1] == ["crate"]:
                place = words[1]
            elif words[:1] == ["later"]:
                self.sections += 1
                place = f"section {self.sections}"
            added = plain_line(line)
            self.lines += added
            if words and re.match(r"impl\b", words[0]):
                self.counts[place] += 1
                self.numbers[place] += [self.counts[place]] * len(added)

    def number_in(self, place: str, number: int) -> int:
        """The number that the impl has in the text. Those of `core` stay."""
        return self.numbers[place][number - 1] if place in self.numbers else number

    def answer(self, output: str) -> str:
        """The answer to the text: that to the plain lines, with the numbers of its impls."""
        lines = output.splitlines(keepends=True)
        section = 0
        found = ""
        for line in lines[1:] if lines[:1] == [f"crate {HOME}: accepted\n"] else lines:
            of = OF.match(line)
            section += bool(of and of[1] == "later")
            place: Optional[str] = of and (f"section {section}" if of[1] == "later" else of[2])
            found += IMPL.sub(lambda it: self.renamed(place or "", it), line)
        return found

    def renamed(self, place: str, found: re.Match[str]) -> str:
        with_other = f" with {found[2]} {self.number_in(found[2], int(found[3]))}" if found[2] else ""
        return f"impl {self.number_in(place, int(found[1]))}{with_other}"
