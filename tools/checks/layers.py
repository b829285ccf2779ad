"""The pages of the layers: what the contracts of each crate promise, made of the sources.

A page has, for each file of the crate, its functions with a contract that others may call, and its types and traits with ghost items: what
the comment above says, the names of the clauses, and the files in crates/NAME/specs with the definitions that the clauses cite. Nothing here is a check: `promises` holds what is read here, and writes the pages.
"""
from __future__ import annotations

import re
from functools import lru_cache
from pathlib import Path
from typing import Iterator, NamedTuple, Optional, Sequence

from .common import TOP

OWNER = re.compile(r"(pub )?(?:impl|trait)\b")
FUNCTION = re.compile(r"( *)(pub(?:\(crate\))? )?(?:final )?(?:const )?(?:extern \"C\" )?fn (\w+)")
TYPE = re.compile(r"pub (?:struct|enum|trait) (\w+)")
CLAUSE = re.compile(r" *(ensures|requires) (?:(\w+) )?\{")
GHOST = re.compile(r" *(?:pub )?ghost (?!use\b)(\w+)")
IMPORT = re.compile(r"^ *ghost use Rattle\.(\w+)\.specs\.([\w.]+)\.\{([^}]*)\};", re.M)
WORD = re.compile(r"[A-Za-z_][\w'-]*")
COMMENT = re.compile(r" */// ?(.*)")
SKIPPED = re.compile(r" *(?:#\[|//(?!/))")


class Clause(NamedTuple):
    """A clause by its name ('' for one without), whether the caller has to meet it, and its text."""

    name: str
    is_required: bool
    text: str


class Item(NamedTuple):
    """A function, type or trait: its line, what it is called, whether other crates may use it, the lines of the comment above it or above its
    trait, its clauses or ghost items, and their definitions."""

    line: int
    name: str
    is_public: bool
    comment: Sequence[str]
    clauses: Sequence[Clause]
    words: Sequence[tuple[str, Sequence[str]]]


def owners_of(lines: Sequence[str], at: int) -> list[str]:
    """The words of the `impl` or `trait` that begins there: its trait and its type, without their parameters."""
    head, _, body = "\n".join(lines[at : at + 20]).partition("{")
    if body.startswith("}"):
        return []
    count = 1
    while count:
        head, count = re.subn(r"<[^<>]*>", "", head.replace("->", ""))
    return re.findall(r"\w+", re.sub(r"(?s):.*|\bwhere\b.*", "", head))


def comment_above(lines: Sequence[str], at: int) -> list[str]:
    found: list[str] = []
    for line in reversed(lines[:at]):
        comment = COMMENT.match(line)
        if comment:
            found.append(comment[1])
        elif found or not SKIPPED.match(line):
            break
    return found[::-1]


def ends_contract(line: str, indent: int) -> bool:
    """Whether the function's body begins in this line, or the function has none and ends in it."""
    code = line.partition("//")[0].rstrip()
    depth = len(line) - len(line.lstrip())
    # clauses are four columns right of the function, and the further lines of a long one are right of them
    return (depth <= indent and code.endswith(("{", "}"))) or (depth <= indent + 4 and code.endswith(";"))


def contract_of(lines: Sequence[str], at: int, indent: int) -> list[Clause]:
    found: list[Clause] = []
    for line in lines[at:]:
        clause = CLAUSE.match(line)
        if clause:
            found.append(Clause(clause[2] or "", clause[1] == "requires", line[clause.end() :]))
        elif found:
            found[-1] = found[-1]._replace(text=f"{found[-1].text}\n{line}")
        if ends_contract(line, indent):
            break
    return found


def ghosts_of(lines: Sequence[str], at: int) -> list[Clause]:
    """The ghost items of the type or trait that begins there, but for those of its methods."""
    found: list[Clause] = []
    for line in lines[at + 1 :]:
        if line.startswith("}") or lines[at].rstrip().endswith(";"):
            break
        ghost = GHOST.match(line)
        if ghost and line.startswith("    ") and not line.startswith("     "):
            found.append(Clause(ghost[1], False, line[ghost.end() :]))
    return found


def models_of(lines: Sequence[str], name: str) -> list[Clause]:
    """The ghost items of `impl Model for` the type: how it is seen, and its invariant."""
    for at, line in enumerate(lines):
        if re.match(r"impl\b", line) and owners_of(lines, at)[-2:] == ["for", name] and "Model" in owners_of(lines, at):
            return [it for it in ghosts_of(lines, at) if it.name in ("view", "invariant")]
    return []


@lru_cache(maxsize=None)
def imports_of(text: str) -> dict[str, str]:
    """Where each name comes from that the file cites: the path of its file of definitions."""
    return {
        word: f"{crate}/specs/{module.replace('.', '/')}.antt"
        for crate, module, names in IMPORT.findall(text) for word in WORD.findall(names)
    }


def words_of(text: str, clauses: Sequence[Clause]) -> list[tuple[str, Sequence[str]]]:
    imports = imports_of(text)
    by_file: dict[str, list[str]] = {}
    for clause in clauses:
        for word in WORD.findall(clause.text):
            if word in imports and word not in by_file.setdefault(imports[word], []):
                by_file[imports[word]].append(word)
    return [(path, names) for path, names in by_file.items() if not path.startswith("std/")]


def items_in(path: Path) -> Iterator[Item]:
    text = path.read_text(encoding="utf-8")
    lines = text.split("\n")
    owners: Sequence[str] = ()
    of_trait: Optional[list[str]] = None
    for at, line in enumerate(lines):
        comment = comment_above(lines, at)
        head = TYPE.match(line)
        if head:
            ghosts = [*ghosts_of(lines, at), *models_of(lines, head[1])]
            if ghosts:
                yield Item(at + 1, head[1], True, comment, ghosts, words_of(text, ghosts))
        if OWNER.match(line):
            owners, of_trait = owners_of(lines, at), comment if line.startswith("pub trait") else None
        elif line.startswith("}"):
            owners, of_trait = (), None
        function = FUNCTION.match(line)
        if not function:
            continue
        clauses = contract_of(lines, at, len(function[1]))
        is_public = function[2] == "pub " or of_trait is not None
        if clauses and (function[2] or is_public or "for" in owners):
            name = f"{owners[-1]}::{function[3]}" if owners else function[3]
            yield Item(at + 1, name, is_public, comment or of_trait or [], clauses, words_of(text, clauses))


def files_of(crate: str) -> list[Path]:
    return sorted((TOP / "crates" / crate / "src").rglob("*.rt"))


def module_comment(path: Path) -> str:
    """The first paragraph of the file's own comment."""
    found: list[str] = []
    for line in path.read_text(encoding="utf-8").split("\n"):
        if not line.startswith("//!") or not line[3:].strip():
            break
        found.append(line[3:].strip())
    return " ".join(found)


def row_of(item: Item) -> str:
    """The row of a page."""
    required = [it.name for it in item.clauses if it.is_required and it.name]
    ensured = [it.name for it in item.clauses if not it.is_required and it.name]
    lines = [f"- **`{item.name}`** (line {item.line}). {' '.join(it for it in item.comment if it.strip())}".rstrip()]
    for what, names in (("Needs", required), ("Clauses", ensured)):
        if names:
            lines.append(f"  {what}: {', '.join(f'`{it}`' for it in names)}.")
    if item.words:
        lines.append("  Words: " + "; ".join(f"`{path}`: {', '.join(f'`{it}`' for it in names)}" for path, names in item.words) + ".")
    return "\n".join(lines)


def page_of(crate: str) -> Optional[str]:
    """The page of a crate; none where nothing in it has a contract."""
    parts = []
    for path in files_of(crate):
        rows = [row_of(it) for it in items_in(path)]
        if rows:
            parts.append("\n".join([f"## `{path.relative_to(TOP / 'crates' / crate / 'src')}`", "", module_comment(path), "", *rows, ""]))
    if not parts:
        return None
    lib = TOP / "crates" / crate / "src" / "lib.rt"
    head = f"# `{crate}`\n\nMade by `tools/check promises --write` of the sources. {module_comment(lib) if lib.is_file() else ''}".rstrip()
    return head + "\n\n" + "\n".join(parts)
