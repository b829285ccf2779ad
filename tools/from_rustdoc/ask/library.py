"""Asks in this process, by the project's binding for Python (`bindings/python`), where the library is there that it calls.

That is the archive of these very sources, of which a C compiler makes a shared object, once; or what the variable CELTISDARTS_LIB names. Where
something is missing, programs are run instead.
"""
from __future__ import annotations

import functools
import hashlib
import importlib.util
import os
import subprocess
import sys
from types import ModuleType
from typing import Any, Optional

from ..read.proved import TOP

BINDING = os.path.join(TOP, "bindings", "python", "celtisdarts.py")
NAMED = "CELTISDARTS_LIB"
# Texts whose readings are stored: both of a query.
KEPT = 2


@functools.lru_cache(maxsize=None)
def binding(archive: Optional[str], folder: str) -> Optional[ModuleType]:
    """The binding, with its library loaded: that of the archive, if no other is named. What is made of it is stored in the folder."""
    named = os.environ.get(NAMED)
    if not named and archive is None:
        return None
    try:
        os.environ[NAMED] = named or made_of(str(archive), folder)
        found = module()
        found.library()
    except (OSError, ImportError, AttributeError, subprocess.CalledProcessError):
        return None
    finally:
        # (What this process starts is to find its own.)
        if not named:
            os.environ.pop(NAMED, None)
    return found


def module() -> ModuleType:
    name = "celtisdarts"
    known = sys.modules.get(name)
    if known is not None:
        return known
    spec = importlib.util.spec_from_file_location(name, BINDING)
    if spec is None or spec.loader is None:
        raise ImportError(f"there is no {BINDING}")
    found = importlib.util.module_from_spec(spec)
    # (Its classes look themselves up there.)
    sys.modules[name] = found
    spec.loader.exec_module(found)
    return found


def made_of(archive: str, folder: str) -> str:
    """The shared object of an archive, under the sum of its bytes. It is made whole or not at all, and nothing is reported."""
    with open(archive, "rb") as handle:
        shared = os.path.join(folder, f"libceltisdarts-{hashlib.sha256(handle.read()).hexdigest()}.so")
    if not os.path.exists(shared):
        import tempfile
        os.makedirs(folder, exist_ok=True)
        with tempfile.TemporaryDirectory(dir=folder) as room:
            part = os.path.join(room, "libceltisdarts.so")
            subprocess.run([sys.executable, "-B", BINDING, "--make", archive, part], stdout=subprocess.DEVNULL, stderr=subprocess.DEVNULL, check=True)
            os.replace(part, shared)
    return shared


class NoAnswer(Exception):
    """There is no answer, and why."""


class Fault(NoAnswer):
    """A line has a fault."""


def run(found: Any, text: str, depth: int) -> str:
    """What the program prints to a text."""
    try:
        return str(found.run(text, depth).text)
    except found.TextFault as error:
        raise Fault(f"{error}: `{text.splitlines()[error.line - 1]}`")
    except found.CeltisdartsError as error:
        raise NoAnswer(str(error))


@functools.lru_cache(maxsize=KEPT)
def read(found: Any, text: str, depth: int) -> Any:
    return found.Asker(text.encode("ascii"), depth)


def ask(found: Any, text: str, line: str, depth: int) -> str:
    """What the program prints last to a text with this query line after it. The text is read once for all lines."""
    try:
        return str(read(found, text, depth).ask(line.encode("ascii")))
    except found.TextFault as error:
        raise Fault(f"{error}: `{text.splitlines()[error.line - 1]}`")
    except found.QuestionFault as error:
        raise Fault(f"{error}: `{line}`")
    except found.CeltisdartsError as error:
        raise NoAnswer(str(error))
