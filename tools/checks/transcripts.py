"""The runs in documents are what the commands print.

In README.md and the documents of docs/, a block that is marked as `console` has commands, each after '$ ', and below each its output, with
standard error. They are run at the top of the repository. Empty lines at the end of an output do not count.

A command of `cargo` is run in the library of the preceding `rust` block: the lines above '// added since v1.0.0' are the version of that tag,
the whole block is the next one, 1.1.0. Messages of cargo, on standard error, are not compared. Without cargo, rustdoc or the documents of the
standard library these commands are skipped. They take some 30 s.

--write puts the output into the documents, --only NAME tries one document.
"""
from __future__ import annotations

import argparse
import os
import re
import shutil
import subprocess
import tempfile
from pathlib import Path
from typing import NamedTuple, Optional

from .common import TOP, Missing, Tally, difference, run
from .documents import documents, text_of

BLOCK = re.compile(r"^```(console|rust)\n((?:.|\n)*?)^```", re.M)
COMMAND = re.compile(r"^\$ (.*)\n((?:(?!\$ ).*\n)*)", re.M)
SINCE = "// added since v1.0.0\n"
# So that the commit has one number each time.
AT_ONE_TIME = {f"GIT_{who}_DATE": "2026-01-01T00:00:00Z" for who in ("AUTHOR", "COMMITTER")}
MANIFEST = '[package]\nname = "shapes"\nversion = "{}"\nedition = "2021"\n'


class Run(NamedTuple):
    """A command, what the document says that it prints, the line of that, and the library that it is about."""

    command: str
    shown: str
    start: int
    end: int
    library: str


def runs_in(text: str) -> list[Run]:
    found: list[Run] = []
    library = ""
    for block in BLOCK.finditer(text):
        if block[1] == "rust":
            library = block[2]
        else:
            at = block.start(2)
            found += [Run(it[1], it[2], at + it.start(2), at + it.end(2), library) for it in COMMAND.finditer(block[2])]
    return found


def printed(words: str, folder: Path, with_errors: bool) -> str:
    done = subprocess.run(
        ["sh", "-c", words], cwd=folder, stdin=subprocess.DEVNULL, stdout=subprocess.PIPE, check=False,
        stderr=subprocess.STDOUT if with_errors else subprocess.DEVNULL, env={**os.environ, "PATH": f"{TOP / 'tools'}:{os.environ['PATH']}"},
    )
    return done.stdout.decode("utf-8").rstrip("\n") + "\n"


def has_program() -> bool:
    return "program: none" not in run([TOP / "celtisdarts", "--version"]).output.decode()


def has_cargo() -> bool:
    if not all(shutil.which(it) for it in ("cargo", "rustc", "rustdoc", "git")):
        return False
    root = run(["rustc", "--print", "sysroot"]).output.decode().strip()
    return (Path(root) / "share" / "doc" / "rust" / "html" / "std").is_dir()


class Library:
    """A folder with the library that a document shows, its first version as a tag of git."""

    def __init__(self, source: str, folder: Path) -> None:
        self.source, self.folder = source, folder
        (folder / "src").mkdir()
        self.write("1.0.0", source.partition(SINCE)[0])
        for words in (["init", "-q"], ["add", "."], ["-c", "user.name=a", "-c", "user.email=a@a", "commit", "-qm", "a"], ["tag", "v1.0.0"]):
            subprocess.run(["git", *words], cwd=folder, check=True, env={**os.environ, **AT_ONE_TIME})
        self.write("1.1.0", source)

    def write(self, version: str, source: str) -> None:
        (self.folder / "Cargo.toml").write_text(MANIFEST.format(version))
        (self.folder / "src" / "lib.rs").write_text(source)


class Runs:
    """Runs commands, those of cargo in the library that is shown before them."""

    def __init__(self, room: Path) -> None:
        self.room, self.cargo = room, has_cargo()
        self.library: Optional[Library] = None

    def folder_of(self, source: str) -> Path:
        if not self.library or self.library.source != source:
            self.library = Library(source, Path(tempfile.mkdtemp(dir=self.room)))
        return self.library.folder

    def printed(self, given: Run) -> Optional[str]:
        """What the command prints; none where it is skipped."""
        if not given.command.startswith("cargo "):
            return printed(given.command, TOP, True)
        return printed(given.command, self.folder_of(given.library), False) if self.cargo else None


def try_document(tally: Tally, document: str, runs: Runs, is_to_write: bool) -> None:
    text = text_of(document)
    made, end = "", 0
    for it in runs_in(text):
        found = runs.printed(it)
        name = f"{document}:{text.count(chr(10), 0, it.start)}: {it.command}"
        if found is None:
            print(f"skipped {name}: cargo, rustdoc or the documents of the standard library are not here")
            continue
        tally.report(name, difference(found.encode(), (it.shown.rstrip("\n") + "\n").encode()))
        made, end = made + text[end:it.start] + found.lstrip("\n" if found == "\n" else ""), it.end
    if is_to_write:
        (TOP / document).write_text(made + text[end:], encoding="utf-8")


def check(tally: Tally, given: argparse.Namespace) -> None:
    if not has_program():
        raise Missing("no proved program of today's sources: ./celtisdarts --build")
    with tempfile.TemporaryDirectory() as room:
        runs = Runs(Path(room))
        for document in documents():
            if not given.only or given.only == document:
                try_document(tally, document, runs, given.write)


def add_words(reader: argparse.ArgumentParser) -> None:
    reader.add_argument("--write", action="store_true")
    reader.add_argument("--only", default="", metavar="NAME")
