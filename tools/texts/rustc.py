"""Lets rustc judge the crates of a text, and measures that."""
from __future__ import annotations

import os
import shutil
import subprocess
import tempfile
from dataclasses import dataclass
from typing import Optional

from .as_rust import Crate, Form, Translation
from .runs import Limits, Run, run_words

SOLVERS: dict[str, list[str]] = {"default": [], "next": ["-Znext-solver=globally"]}
FLAGS = ["--edition=2021", "--crate-type=lib", "--emit=metadata", "--error-format=short", "--cap-lints=allow"]
NIGHTLY = {"RUSTC_BOOTSTRAP": "1"}
EMPTY = ["crate empty"]


@dataclass(frozen=True)
class Judged:
    """What rustc took for all crates of a text: how many it began, and whether all were accepted."""

    seconds: float
    peak: Optional[int]
    crates: int
    accepted: bool
    stopped: str


def find_rustc() -> Optional[str]:
    """The compiler itself, if there is one: the command on the PATH may be a script that looks for it at each call."""
    found = shutil.which("rustc")
    if found is None:
        return None
    try:
        root = subprocess.run([found, "--print", "sysroot"], capture_output=True, check=True, text=True).stdout.strip()
    except (OSError, subprocess.CalledProcessError):
        return None
    inner = os.path.join(root, "bin", "rustc")
    return inner if os.access(inner, os.X_OK) else found


def version_of(rustc: str) -> str:
    words = subprocess.run([rustc, "--version"], capture_output=True, check=False, text=True).stdout.split()
    return words[1] if len(words) > 1 else "of no version"


def compile_crate(rustc: str, solver: str, crate: Crate, source: str, folder: str, limits: Limits) -> Run:
    path = os.path.join(folder, crate.name + ".rs")
    with open(path, "w", encoding="ascii") as file:
        file.write(source)
    words = [rustc] + FLAGS + SOLVERS[solver] + ["--crate-name", crate.name, "--out-dir", folder, f"-Ldependency={folder}", path]
    words += [f"--extern={it}={os.path.join(folder, 'lib' + it + '.rmeta')}" for it in crate.uses]
    with open(os.devnull, "rb") as nothing:
        return run_words(words, nothing, limits, NIGHTLY, with_peak=True)


def judge(rustc: str, solver: str, lines: list[str], form: Form, depth: int, limits: Limits) -> Judged:
    """Compiles the crates of a text in their order, up to the first that is refused or has no time left."""
    seconds, peak, count = 0.0, 0, 0
    with tempfile.TemporaryDirectory() as folder:
        for crate, source in Translation(lines, form).sources(depth):
            left = Limits(max(1, int(limits.seconds - seconds) + 1), limits.memory)
            run = compile_crate(rustc, solver, crate, source, folder, left)
            seconds, peak, count = seconds + run.seconds, max(peak, run.peak or 0), count + 1
            if run.stopped or seconds > limits.seconds:
                reason = run.stopped or "time"
                return Judged(float(limits.seconds) if reason == "time" else seconds, peak or None, count, False, reason)
            if run.status != 0:
                return Judged(seconds, peak or None, count, False, "")
    return Judged(seconds, peak or None, count, True, "")


def startup_of(rustc: str, solver: str, limits: Limits) -> float:
    """What rustc takes for an empty crate: the best of nine."""
    return min(judge(rustc, solver, EMPTY, Form(), 128, limits).seconds for _ in range(9))
