"""What the documents name exists, and each contract has a comment.

docs/PROMISES.md, in the sections of crates ('## `NAME`'):

    At `FILE.rt`: `function` (`clause`, ...), ...  the file in crates/NAME/src. The function there, or the method as `Type::method`
                                                   or `Trait::method`, with these clauses of its `ensures`, or, as
                                                   `requires NAME`, of its `requires`. Or the type or trait, with these
                                                   ghost items. A function that is named alone has a clause without a
                                                   name, or the contract of the trait that it implements
    Words: `FILE.antt`: `definition`, ...          the file in crates/NAME/specs, and public definitions there. The last column of
                                                   a table is read in the same way

A path with a slash begins with a crate's name, or with `Promised/`, the folder of `specs` with what promises rest on. Each promise has its
'At', and each row of a table a file. The items of its numbered list begin with a file, which contains everything in backticks after it.

Each function with a contract that other crates may call, and each public type or trait with ghost items, has a comment above it, or its
trait has one. `--write` makes a page for each crate of these comments, with the names of clauses and definitions: docs/layers/NAME.md. Since
they are generated they are not committed.

README.md has at most 140 lines, and docs/PROMISES.md at most 340. A link in any document leads to a file or a folder of the
repository, and to a heading of the document if it names one. A path in backticks that begins with `crates/` or the name of
another folder of the repository exists, unless a part of it is in capitals, such as NAME. So does a check that is named as `tools/check
NAME`.

It proves nothing and takes two seconds. A case is a mention, by its document and line, or a contract, by its file and line. Names after a
file or a function that does not exist are not looked up, and count as nothing.
"""
from __future__ import annotations

import argparse
import os
import re
from functools import lru_cache
from typing import Callable, Iterable, Iterator, NamedTuple, Optional, Sequence
from urllib.parse import unquote

from . import layers
from .common import TOP, Tally, crates
from .layers import FUNCTION, OWNER, contract_of, owners_of
from .runner import ALL, GROUPS

PROMISES = "docs/PROMISES.md"
MOST_LINES = {"README.md": 140, PROMISES: 340}
LAYERS = "docs/layers"
FOLDERS = "benches|crates|docs|examples|tools"
NO_SOURCE = ("out", "target")

SECTION = re.compile(r"## (?:`(\w+)`)?")
AT = re.compile(r"\sAt\s+(?=`)")
WORDS = re.compile(r"\sWords:\s+(?=`)")
STEP = re.compile(r"^\d+\. +`([^`]+)`((?:.|\n   )*)", re.M)
TOKEN = re.compile(r"`([^`]+)`|([()])")

FENCED = re.compile(r"^```.*?^```", re.M | re.S)
CODE = re.compile(r"^```.*?^```|`[^`\n]+`", re.M | re.S)
LINK = re.compile(r"\]\(\s*<?([^)\s>]+)[^)]*\)|^ {0,3}\[[^\]]+\]:\s+(\S+)", re.M)
HEADING = re.compile(r"#+ +(.*)")
ELSEWHERE = re.compile(r"[a-z][a-z0-9+.-]*:")
PATH = re.compile(rf"`((?:{FOLDERS})/[\w./-]+)`")
CHECK = re.compile(r"`tools/check (\w+)")


class Token(NamedTuple):
    """A part of the text, with the number of its line."""

    line: int
    text: str


class Function(NamedTuple):
    """A function by the words of its `impl` or `trait`, its name, and its clauses, '' for one without a name."""

    owners: Sequence[str]
    name: str
    clauses: Sequence[str]


@lru_cache(maxsize=None)
def text_of(path: str) -> str:
    return (TOP / path).read_text(encoding="utf-8")


def is_there(path: str) -> bool:
    return (TOP / path).exists()


def unless(is_so: object, fault: str) -> Optional[str]:
    return None if is_so else fault


# ---- the code


def clauses_of(lines: Sequence[str], at: int, indent: int) -> Iterator[str]:
    """The names of the clauses of the function that begins there: '' for an `ensures` that has none, and of `requires` those that have one."""
    for it in contract_of(lines, at, indent):
        if not it.is_required:
            yield it.name
        elif it.name:
            yield f"requires {it.name}"


@lru_cache(maxsize=None)
def functions_in(path: str) -> list[Function]:
    lines = text_of(path).split("\n")
    found: list[Function] = []
    owners: Sequence[str] = ()
    for at, line in enumerate(lines):
        if OWNER.match(line):
            owners = owners_of(lines, at)
        elif line.startswith("}"):
            owners = ()
        function = FUNCTION.match(line)
        if function:
            found.append(Function(owners, function[3], list(clauses_of(lines, at, len(function[1])))))
    return found


def functions_named(path: str, name: str) -> list[Function]:
    owner, _, function = name.rpartition("::")
    return [it for it in functions_in(path) if it.name == function and (owner in it.owners if owner else not it.owners)]


def ghosts_of(path: str, name: str) -> Optional[list[str]]:
    """The names of the ghost items of a type or trait; None where there is none of that name."""
    text = text_of(path)
    head = re.search(rf"^pub (?:struct|enum|trait) {re.escape(name)}\b[^{{;]*", text, re.M)
    if not head:
        return None
    body = text[head.end() :].partition("\n}")[0] if text[head.end() :].startswith("{\n") else ""
    return re.findall(r"^    (?:pub )?ghost (\w+)", body, re.M)


def has_definition(path: str, name: str) -> bool:
    form = rf"^ *(?:(?:abbrev|unfoldable) )?pub (?:(?:record|data) )?{re.escape(name)}(?!\S)"
    return re.search(form, text_of(path), re.M) is not None


def fault_of_function(path: str, name: str, is_alone: bool) -> Optional[str]:
    functions = functions_named(path, name)
    if not functions:
        return unless(ghosts_of(path, name) is not None, f"{path} has no function or type `{name}`")
    is_right = not is_alone or any("" in it.clauses or "for" in it.owners for it in functions)
    return unless(is_right, f"each clause of `{name}` has a name: {', '.join(functions[0].clauses) or 'there is none'}")


def fault_of_clause(path: str, name: str, clause: str) -> Optional[str]:
    functions = functions_named(path, name)
    there = [it for function in functions for it in function.clauses] if functions else ghosts_of(path, name) or []
    return unless(clause in there, f"`{name}` in {path} has no clause `{clause}`: {', '.join(filter(None, there)) or 'none has a name'}")


# ---- what the pages name


def sections(text: str) -> list[tuple[Token, list[Token]]]:
    """The sections: the line of the heading, with the crate or '', and the lines below."""
    found: list[tuple[Token, list[Token]]] = []
    for number, line in enumerate(text.split("\n"), 1):
        section = SECTION.match(line)
        if section:
            found.append((Token(number, section[1] or ""), []))
        elif found:
            found[-1][1].append(Token(number, line))
    return found


def promises_in(lines: Iterable[Token]) -> list[Token]:
    """The items of the lists: the first line of each, and its whole text."""
    found: list[Token] = []
    is_open = False
    for number, line in lines:
        if line.startswith("- "):
            found.append(Token(number, line))
        elif is_open and line.startswith("  "):
            found[-1] = Token(found[-1].line, f"{found[-1].text}\n{line}")
        is_open = line.startswith("- ") or (is_open and line.startswith("  "))
    return found


def rows_in(lines: Iterable[Token]) -> Iterator[Token]:
    """The rows of the tables, without the two lines of each head."""
    height = 0
    for it in lines:
        height = height + 1 if it.text.startswith("|") else 0
        if height > 2:
            yield it


def tokens_in(text: str, first: int, start: int = 0, end: Optional[int] = None) -> list[Token]:
    """The words in backticks and the parentheses of a part of the text, whose first line has that number."""
    found = TOKEN.finditer(text, start, len(text) if end is None else end)
    return [Token(first + text.count("\n", 0, it.start()), it[1] or it[2]) for it in found]


def with_clauses(tokens: Iterable[Token]) -> list[tuple[Token, list[Token]]]:
    """The functions, each with the clauses in parentheses after it."""
    found: list[tuple[Token, list[Token]]] = []
    is_inside = False
    for token in tokens:
        if token.text in "()":
            is_inside = token.text == "("
        elif is_inside and found:
            found[-1][1].append(token)
        else:
            found.append((token, []))
    return found


Report = Callable[[int, Optional[str]], bool]


class Section:
    """A crate's section of a page. Its faults are reported by their lines."""

    def __init__(self, report: Report, crate: str) -> None:
        self.report, self.crate = report, crate

    def by_file(self, part: str, ending: str, tokens: Iterable[Token]) -> list[tuple[str, list[Token]]]:
        """The files that exist, each with the tokens after it. Others are reported."""
        path = ""
        found: list[tuple[str, list[Token]]] = []
        for line, token in tokens:
            if token.endswith(ending):
                is_own = token.startswith("Promised/") or "/" not in token
                path = f"crates/{self.crate}/{part}/{token}" if is_own else f"crates/{token}"
                if self.report(line, unless(is_there(path), f"there is no file {path}")):
                    found.append((path, []))
            elif not path:
                self.report(line, f"no file comes before `{token}`")
            elif is_there(path):
                found[-1][1].append(Token(line, token))
        return found

    def check_code(self, tokens: Iterable[Token]) -> None:
        for path, named in self.by_file("src", ".rt", tokens):
            for (line, name), clauses in with_clauses(named):
                if self.report(line, fault_of_function(path, name, not clauses)):
                    for clause in clauses:
                        self.report(clause.line, fault_of_clause(path, name, clause.text))

    def check_words(self, tokens: Iterable[Token]) -> None:
        words = [it for it in tokens if it.text not in "()"]
        for path, names in self.by_file("specs", ".antt", words):
            for line, name in names:
                self.report(line, unless(has_definition(path, name), f"{path} has no public definition `{name}`"))

    def check_promise(self, promise: Token) -> None:
        first, text = promise
        at = AT.search(text)
        if not at:
            self.report(first, "a promise without 'At'")
            return
        words = WORDS.search(text, at.end() - 1)
        self.check_code(tokens_in(text, first, at.end(), words.start() if words else None))
        if words:
            self.check_words(tokens_in(text, first, words.end()))

    def check_row(self, row: Token) -> None:
        tokens = tokens_in(row.text.strip().strip("|").split(" | ")[-1], row.line)
        self.check_words(tokens)
        if not tokens:
            self.report(row.line, "a row without a file in its last column")

    def check(self, lines: Sequence[Token]) -> None:
        for promise in promises_in(lines):
            self.check_promise(promise)
        for row in rows_in(lines):
            self.check_row(row)


def check_page(report: Report, page: str) -> None:
    found = sections(text_of(page))
    if not any(head.text for head, _ in found):
        report(1, "no section of a crate")
    for (number, crate), lines in found:
        if crate:
            if report(number, unless(is_there(f"crates/{crate}"), f"there is no crate {crate}")):
                Section(report, crate).check(lines)


def check_steps(report: Report) -> None:
    text = text_of(PROMISES)
    found = list(STEP.finditer(text))
    if not found:
        report(1, "no numbered list")
    for step in found:
        path, line = step[1], 1 + text.count("\n", 0, step.start())
        if report(line, unless(is_there(path), f"there is no file {path}")):
            for at, word in tokens_in(text, 1, *step.span(2)):
                if word not in "()":
                    report(at, unless(word in text_of(path), f"{path} does not say `{word}`"))


# ---- the documents


def documents() -> list[str]:
    """The paths of all documents of the repository, from its top."""
    found = []
    for at, folders, files in os.walk(TOP):
        folders[:] = sorted(it for it in folders if it not in NO_SOURCE and not it.startswith(".") and os.path.relpath(f"{at}/{it}", TOP) != LAYERS)
        found += [os.path.relpath(f"{at}/{it}", TOP) for it in sorted(files) if it.endswith(".md")]
    return found


def blanked(form: re.Pattern[str], text: str) -> str:
    """The text with each character of what has the form, but line ends, made a space."""
    return form.sub(lambda it: re.sub(r"[^\n]", " ", it[0]), text)


def anchors_in(document: str) -> set[str]:
    """What a link may name in the document: its headings in small letters, with - for each space and without marks."""
    lines = FENCED.sub("", text_of(document)).split("\n")
    headings = [it[1].strip().lower() for it in map(HEADING.match, lines) if it]
    return {re.sub(r"[^\w\- ]", "", it).replace(" ", "-") for it in headings}


def fault_of_link(document: str, target: str) -> Optional[str]:
    file, _, anchor = unquote(target).partition("#")
    path = os.path.normpath(os.path.join(os.path.dirname(document), file)) if file else document
    if os.path.isabs(path) or path.split("/")[0] == "..":
        return f"the link {target} leads out of the repository"
    if not is_there(path):
        return f"the link {target} leads to no file"
    is_heading = not anchor or path.endswith(".md") and anchor in anchors_in(path)
    return unless(is_heading, f"the link {target} names no heading of {path}")


def check_document(report: Report, document: str) -> None:
    text, no_code = blanked(FENCED, text_of(document)), blanked(CODE, text_of(document))

    def tell_at(found: re.Match[str], fault: Optional[str]) -> None:
        report(1 + text.count("\n", 0, found.start()), fault)

    for link in LINK.finditer(no_code):
        target = link[1] or link[2]
        if not ELSEWHERE.match(target):
            tell_at(link, fault_of_link(document, target))
    for path in PATH.finditer(text):
        if not path[1].startswith(LAYERS) and not any(it.isupper() for it in path[1].split("/")):
            tell_at(path, unless(is_there(path[1]), f"there is no {path[1]}"))
    for name in CHECK.finditer(text):
        if not name[1].isupper():
            tell_at(name, unless(name[1] in [*ALL, *GROUPS], f"there is no check {name[1]}"))
    lines, most = len(text.splitlines()), MOST_LINES.get(document)
    if most:
        report(lines, unless(lines <= most, f"{lines} lines, {most} at most are allowed"))


def check_comments(tally: Tally, crate: str) -> None:
    for path in layers.files_of(crate):
        for item in layers.items_in(path):
            if item.is_public:
                tally.report(f"{path.relative_to(TOP)}:{item.line}", unless(item.comment, f"`{item.name}` has a contract and no comment"))


def write_pages() -> None:
    (TOP / LAYERS).mkdir(exist_ok=True)
    for crate in crates():
        page = layers.page_of(crate)
        if page:
            (TOP / LAYERS / f"{crate}.md").write_text(page, encoding="utf-8")


def check(tally: Tally, given: argparse.Namespace) -> None:
    def teller(page: str) -> Report:
        return lambda line, fault: tally.report(f"{page}:{line}", fault)

    check_page(teller(PROMISES), PROMISES)
    check_steps(teller(PROMISES))
    for document in documents():
        check_document(teller(document), document)
    for crate in crates():
        check_comments(tally, crate)
    if given.write:
        write_pages()


def add_words(reader: argparse.ArgumentParser) -> None:
    reader.add_argument("--write", action="store_true")
