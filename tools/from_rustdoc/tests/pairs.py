"""Pairs of versions of a small library (releases/pairs.txt): one module each, and a crate that uses it, compiled with both by rustc."""
from __future__ import annotations

import json
import os
import re
import subprocess
from dataclasses import dataclass, field

from ..report.messages import Message

HERE = os.path.dirname(os.path.abspath(__file__))
LIBRARY = "pairs"
LINT = "#![allow(warnings)]\n"


@dataclass
class Pair:
    """`classes` are what `later` is to tell; none of a pair that is compatible. `of` is the pair whose library is used, if it is another."""
    name: str
    classes: set[str]
    sources: dict[str, str] = field(default_factory=lambda: {"old": "", "new": "", "user": ""})
    of: str = ""


def read_pairs(text: str) -> list[Pair]:
    pairs: list[Pair] = []
    part = ""
    for line in text.splitlines():
        if line.startswith("== "):
            name, _, classes = line[3:].partition(": ")
            pairs.append(Pair(name, set(classes.split()) - {"compatible"}))
            part = ""
        elif line.startswith("-- "):
            part = line[3:]
        elif part:
            pairs[-1].sources[part] += line + "\n"
    return pairs


def all_pairs() -> list[Pair]:
    with open(os.path.join(HERE, "releases", "pairs.txt"), encoding="utf-8") as handle:
        return read_pairs(handle.read())


def library(pairs: list[Pair], version: str) -> str:
    return LINT + "".join(f"pub mod {p.name} {{\n{p.sources[version]}}}\n" for p in pairs)


def users(pairs: list[Pair]) -> str:
    return LINT + "".join(f"pub mod {p.name} {{\nuse {LIBRARY}::{p.of or p.name}::*;\n{p.sources['user']}}}\n" for p in pairs)


class Compiler:
    """Compiles the library and its users in a folder, without code."""

    def __init__(self, folder: str, pairs: list[Pair]) -> None:
        self.folder = folder
        self.pairs = pairs
        for version in ("old", "new"):
            os.makedirs(os.path.join(folder, version))
            self.rustc(["--crate-name", LIBRARY, "--out-dir", os.path.join(folder, version)], library(pairs, version), f"{version}.rs")

    def rustc(self, words: list[str], source: str, name: str, may_fail: bool = False) -> list[dict[str, object]]:
        """The errors; none where it compiles."""
        file = os.path.join(self.folder, name)
        with open(file, "w", encoding="utf-8") as handle:
            handle.write(source)
        done = subprocess.run(["rustc", "--edition", "2021", "--crate-type", "lib", "--emit", "metadata", "--error-format", "json", *words, file],
                              cwd=self.folder, stdout=subprocess.DEVNULL, stderr=subprocess.PIPE, text=True)
        messages = [json.loads(line) for line in done.stderr.splitlines() if line.startswith("{")]
        if done.returncode != 0 and not may_fail:
            raise AssertionError("\n".join(str(m["rendered"]) for m in messages))
        return [m for m in messages if m["level"] == "error" and m["spans"]]

    def failing(self, pairs: list[Pair], version: str) -> dict[str, set[str]]:
        """The names of the pairs whose users do not compile with a version, with rustc's codes, or how its message begins. Errors of one kind hide others, so the
        users that failed are left out and the rest compiled again."""
        found: dict[str, set[str]] = {}
        while True:
            left = [p for p in pairs if p.name not in found]
            source = users(left)
            words = ["--crate-name", "user", "--extern", f"{LIBRARY}={os.path.join(self.folder, version, f'lib{LIBRARY}.rmeta')}", "--out-dir", self.folder]
            errors = self.rustc(words, source, "user.rs", may_fail=True)
            if not errors:
                return found
            lines = source.splitlines()
            for error in errors:
                for span in error["spans"]:  # type: ignore[attr-defined]
                    if span["file_name"].endswith("user.rs"):
                        code = error["code"]["code"] if error["code"] else str(error["message"]).split(" `")[0]  # type: ignore[index]
                        found.setdefault(module_at(lines, span["line_start"]), set()).add(code)


def pairs_of(message: Message, pairs: list[Pair]) -> set[str]:
    """The pairs that a message is about: those that it names, or the one in which it stands."""
    named = set(re.findall(r"pairs::(\w+)", message.text)) & {p.name for p in pairs}
    places = [] if named else [module_at(library(pairs, span.version or "new").splitlines(), span.place.line) for span in message.spans[:1]]
    return named | set(places)


def written_out(message: Message) -> list[str]:
    """The crates that a message on an added impl says there may be; the types of constants are not told."""
    found = []
    for child in message.children:
        if "another crate may have " in child.text:
            items = re.findall("`([^`]*)`", child.text)
            mine = "" if any(item.startswith("trait Mine") for item in items) else "pub struct Mine; "
            found.append(mine + " ".join(re.sub(r"const (\w+)(?=[,>])", r"const \1: usize", item) + " {}" for item in items))
    return found


def module_at(lines: list[str], number: int) -> str:
    return next(m.group(1) for line in reversed(lines[:number]) if (m := re.match(r"pub mod (\w+) \{", line)))


def rustdoc(folder: str, source: str, name: str) -> str:
    """The JSON of a library's version."""
    file = os.path.join(folder, name + ".rs")
    with open(file, "w", encoding="utf-8") as handle:
        handle.write(source)
    flags = "-Z unstable-options --output-format json --document-private-items --document-hidden-items --cap-lints allow".split()
    subprocess.run(["rustdoc", "--edition", "2021", "--crate-name", LIBRARY, file, "-o", os.path.join(folder, "doc", name), *flags],
                   check=True, env={**os.environ, "RUSTC_BOOTSTRAP": "1"})
    return os.path.join(folder, "doc", name, LIBRARY + ".json")
