"""Which proved programs, and which library, are here: by the conditions of the script `celtisdarts`, asked once while nothing changes."""
from __future__ import annotations

import contextlib
import functools
import hashlib
import json
import os
import subprocess
import sys
import time
from typing import Any, Iterator, Optional

# (This file is tools/from_rustdoc/read/proved.py.)
TOP = os.path.dirname(os.path.dirname(os.path.dirname(os.path.dirname(os.path.abspath(__file__)))))
LIBRARY = "celtisdarts_c"
# Those of this tool, in an order in which none imports one after it.
PACKAGES = ("read", "model", "write", "report", "ask", "later")
# Prints the path of the proved program, by the very conditions of the script `celtisdarts`.
FIND = '. "$here/tools/program.sh" && of_program "$wanted" && if is_current; then echo "$built"; elif is_there "$released" && is_noted "$released" && is_of_these_sources; then echo "$released"; fi'
BUILT = ("celtisdarts", "libceltisdarts")
# Seconds after which a file has another time if it is written again.
SETTLED = 2.0


def cache_folder() -> str:
    """What this tool keeps from one call to the next is there."""
    return os.path.join(os.environ.get("XDG_CACHE_HOME") or os.path.expanduser("~/.cache"), "celtisdarts")


@functools.lru_cache(maxsize=None)
def state() -> Optional[str]:
    """The state of all that these conditions look at. None if something of it was written, or removed, just now."""
    files = sorted(looked_at())
    return state_of(files) if all(map(os.path.exists, files)) else None


def looked_at() -> Iterator[str]:
    yield from filter(os.path.exists, (os.path.join(TOP, "crates.txt"), os.path.join(TOP, "tools", "program.sh")))
    yield from (os.path.join(TOP, "release", name) for name in names_in(os.path.join(TOP, "release")))
    for crate in names_in(os.path.join(TOP, "crates")):
        folder = os.path.join(TOP, "crates", crate)
        for place, _, names in os.walk(os.path.join(folder, "src")):
            yield from (os.path.join(place, name) for name in names if name.endswith(".rt"))
        out = os.path.join(folder, "out")
        yield from (os.path.join(out, name) for name in names_in(out) if name.startswith(BUILT))


def names_in(folder: str) -> list[str]:
    with contextlib.suppress(OSError):
        return os.listdir(folder)
    return []


def state_of(files: list[str]) -> Optional[str]:
    """A sum of the sizes, times and places of files. None if one of them was written just now. Not all have to be there."""
    total = hashlib.sha256()
    newest = 0.0
    for file in files:
        try:
            found = os.stat(file)
        except OSError:
            total.update(repr(file).encode())
            continue
        newest = max(newest, found.st_ctime)
        total.update(repr((file, found.st_size, found.st_mtime_ns, found.st_ctime_ns, found.st_ino, found.st_mode)).encode())
    return total.hexdigest() if time.time() - newest > SETTLED else None


@functools.lru_cache(maxsize=None)
def proved_program(name: str = "celtisdarts") -> Optional[str]:
    """The proved program of the sources that are here: the one that was built here, else that of release/. None if there is none. The
    library for C is found in the same way."""
    file = os.path.join(cache_folder(), f"proved-{name}.json")
    now = state()
    with contextlib.suppress(OSError, ValueError, KeyError, TypeError), open(file, encoding="utf-8") as handle:
        known = json.load(handle)
        if now is not None and known["state"] == now:
            return str(known["path"]) if known["path"] else None
    done = subprocess.run(["sh", "-c", FIND], env={**os.environ, "here": TOP, "wanted": name}, stdout=subprocess.PIPE, stderr=subprocess.DEVNULL, text=True)
    path = done.stdout.strip() or None
    if now is not None:
        keep(file, {"state": now, "path": path})
    return path


@functools.lru_cache(maxsize=None)
def tool_sum() -> str:
    """The sum of this tool's own sources, and of Python's version."""
    here = os.path.join(TOP, "tools", "from_rustdoc")
    total = hashlib.sha256(sys.version.encode())
    for package in ("", *PACKAGES):
        for name in sorted(os.listdir(os.path.join(here, package))):
            if name.endswith(".py"):
                with open(os.path.join(here, package, name), "rb") as handle:
                    total.update(os.path.join(package, name).encode() + handle.read())
    return total.hexdigest()


def known(file: str, state: Optional[str]) -> Optional[str]:
    """What was found in this state and stored by `keep`."""
    with contextlib.suppress(OSError, ValueError, KeyError, TypeError), open(file, encoding="utf-8") as handle:
        found = json.load(handle)
        if state is not None and found["state"] == state:
            return str(found["found"])
    return None


def keep(file: str, data: dict[str, Any]) -> None:
    """Writes the whole file or nothing; where nothing can be stored, it is found again."""
    import tempfile
    with contextlib.suppress(OSError):
        os.makedirs(os.path.dirname(file), exist_ok=True)
        number, part = tempfile.mkstemp(dir=os.path.dirname(file))
        with os.fdopen(number, "w", encoding="utf-8") as handle:
            json.dump(data, handle)
        os.replace(part, file)
