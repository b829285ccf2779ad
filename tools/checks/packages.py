"""The packages of tools/from_rustdoc are ordered: no module imports from a later package.

The order is that of `PACKAGES` in read/proved.py, which has to name each package. The command and other modules next to the packages may
import all of them, and no package imports these. Imports for types alone do not count. It takes a moment.
"""
from __future__ import annotations

import argparse
import ast
from pathlib import Path
from typing import Iterator

from from_rustdoc.read.proved import PACKAGES

from .common import TOP, Tally

TOOL = TOP / "tools" / "from_rustdoc"
TESTS = "tests"


def runs(tree: ast.AST) -> Iterator[ast.ImportFrom]:
    """The imports from this tool that are run; those under `if TYPE_CHECKING:` are not."""
    for node in ast.iter_child_nodes(tree):
        if isinstance(node, ast.If) and isinstance(node.test, ast.Name) and node.test.id == "TYPE_CHECKING":
            continue
        if isinstance(node, ast.ImportFrom) and node.level:
            yield node
        yield from runs(node)


def packages_of(path: Path) -> Iterator[tuple[int, str]]:
    """The packages from which a module of a package imports, by the line: its own, another, or none for a module next to them."""
    for it in runs(ast.parse(path.read_text(encoding="utf-8"))):
        names = (it.module or "").split(".") if it.module else [name.name for name in it.names]
        for name in [path.parent.name] if it.level == 1 else names[:1] if it.module else names:
            yield it.lineno, name


def upward(path: Path) -> list[str]:
    below = PACKAGES[: PACKAGES.index(path.parent.name) + 1]
    return [f"line {line} imports from {name}" for line, name in packages_of(path) if name not in below]


def check(tally: Tally, given: argparse.Namespace) -> None:
    there = sorted(path.parent.name for path in TOOL.glob("*/__init__.py") if path.parent.name != TESTS)
    tally.expect("packages", there == sorted(PACKAGES), f"{there} are there, and {sorted(PACKAGES)} are in the order")
    for name in PACKAGES:
        for path in sorted((TOOL / name).glob("*.py")):
            found = upward(path)
            tally.expect(str(path.relative_to(TOOL)), not found, "; ".join(found))
