"""What the tests share: the kept crates, read and translated once."""
from __future__ import annotations

import functools
import os
import sys

from ..model.world import World
from ..read.html_docs import Pages
from ..read.proved import proved_program
from ..write.build import Translation

HERE = os.path.dirname(os.path.abspath(__file__))
PROGRAM = os.environ.get("FROM_RUSTDOC_PROGRAM")
# The program that explains, where it is not to be the proved one of these sources.
EXPLAINS = os.environ.get("FROM_RUSTDOC_EXPLAINS")
WHY_NO_EXPLANATION = "" if EXPLAINS or proved_program() else "there is no proved program that explains"
WHY_NO_PROGRAM = "" if PROGRAM or proved_program() else "there is no proved program of these sources"
sys.setrecursionlimit(20000)


def kept(name: str) -> str:
    return os.path.join(HERE, "json", name + ".json")


@functools.lru_cache(maxsize=None)
def pages() -> Pages:
    return Pages(kept("std"))


def world(*names: str) -> World:
    found = World(pages())
    found.load([kept(name) for name in names])
    return found


@functools.lru_cache(maxsize=None)
def translation(name: str) -> Translation:
    found = Translation(world(name))
    found.build()
    return found


def texts(found: Translation) -> dict[str, str]:
    return {mode: "\n".join(found.text(mode)[0]) + "\n" for mode in ("upper", "lower")}


def crate_part(text: str, name: str) -> str:
    return text[text.index(f"crate {name}"):]
