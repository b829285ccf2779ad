"""What the checks share: paths, programs, runs of them, and counts."""
from __future__ import annotations

import difflib
import functools
import os
import resource
import subprocess
import sys
import traceback
from pathlib import Path
from typing import BinaryIO, Callable, Mapping, NamedTuple, Optional, Sequence, Union

TOP = Path(__file__).resolve().parents[2]
Word = Union[str, Path]


class Wrong(Exception):
    """A case fails, for this reason."""


class Missing(Exception):
    """Something that a check needs is not there."""


def fault_in(case: Callable[[], object]) -> Optional[str]:
    """The fault that the call finds, if there is one."""
    try:
        case()
    except Wrong as wrong:
        return str(wrong)
    except (ValueError, LookupError, OSError):
        return f"what was written cannot be read\n{traceback.format_exc()}"
    return None


class Tally:
    """How many cases passed and failed. Prints each that fails, with the reason, and if `is_verbose` each that passes."""

    def __init__(self, is_verbose: bool = False) -> None:
        self.passed, self.failed, self.is_verbose = 0, 0, is_verbose

    def report(self, name: str, fault: Optional[str]) -> bool:
        """Counts a case, which passes if it has no fault. Returns whether it passes."""
        if fault:
            self.failed += 1
            print(f"FAILED {name}: {fault}", flush=True)
        else:
            self.passed += 1
            if self.is_verbose:
                print(f"passed {name}", flush=True)
        return not fault

    def expect(self, name: str, is_so: bool, fault: str) -> bool:
        return self.report(name, None if is_so else fault)

    def hold(self, name: str, case: Callable[[], object]) -> bool:
        """Counts a case that passes if the call finds no fault."""
        return self.report(name, fault_in(case))

    def go_through(self, part: Callable[[], object]) -> None:
        """Runs a part of a check, which counts its own cases. If it cannot continue, that is one more case, which fails."""
        fault = fault_in(part)
        if fault:
            self.report("the rest of a part", fault)

    def line(self) -> str:
        return f"{self.passed} passed, {self.failed} failed"


class Limits(NamedTuple):
    """Limits of a run: seconds of the processor, bytes of memory, bytes of stack. 0 is no limit."""

    seconds: int = 600
    memory: int = 0
    stack: int = 0

    def put_on(self, process: int) -> None:
        kinds = (resource.RLIMIT_CPU, resource.RLIMIT_AS, resource.RLIMIT_STACK)
        for kind, most in zip(kinds, self):
            try:
                if most:
                    resource.prlimit(process, kind, (most, most))
            except ProcessLookupError:
                pass


class Ended(NamedTuple):
    """The end of a run: its status, or a signal as a negative number, what it wrote to both streams, and its seconds of the processor."""

    status: int
    output: bytes
    errors: bytes
    seconds: float

    def last_line(self) -> str:
        return self.output.decode("latin-1").rstrip("\n").rpartition("\n")[2]


def unnamed_file() -> BinaryIO:
    """A file in memory."""
    return open(os.memfd_create("checks"), "w+b")


def run(words: Sequence[Word], text: bytes = b"", limits: Limits = Limits(),
        cwd: Optional[Path] = None, env: Optional[Mapping[str, str]] = None) -> Ended:
    """Runs a command on the text."""
    with unnamed_file() as source, unnamed_file() as output, unnamed_file() as errors:
        source.write(text)
        source.seek(0)
        child = subprocess.Popen(words, stdin=source, stdout=output, stderr=errors, cwd=cwd, env=env)
        limits.put_on(child.pid)
        _, status, used = os.wait4(child.pid, 0)
        child.returncode = os.waitstatus_to_exitcode(status)
        output.seek(0)
        errors.seek(0)
        return Ended(child.returncode, output.read(), errors.read(), used.ru_utime + used.ru_stime)


def difference(found: bytes, expected: bytes) -> Optional[str]:
    """The lines that differ from the expected output. None if it is equal."""
    if found == expected:
        return None
    before, after = (it.decode("latin-1").splitlines() for it in (expected, found))
    return "\n".join(["the output is not as expected:", *difflib.unified_diff(before, after, "expected", "found", lineterm="", n=0)])


# ---- the crates


def crates() -> dict[str, list[str]]:
    """The crates of crates.txt in its order, each with all libraries that it lists."""
    lines = [it.partition("#")[0].partition(":") for it in (TOP / "crates.txt").read_text(encoding="utf-8").split("\n")]
    return {head.split()[0]: uses.split() for head, _, uses in lines if head.strip()}


def below(listed: Mapping[str, list[str]], name: str) -> list[str]:
    """The crate, and those of the repository below it."""
    found = [name]
    for it in found:
        found += [other for other in listed[it] if other in listed and other not in found]
    return found


# ---- the programs


def built(crate: str, name: str = "") -> str:
    """A program or the tests that were built in the crate."""
    path = TOP / "crates" / crate / "out" / (name or crate)
    if not os.access(path, os.X_OK):
        raise Missing(f"{path.relative_to(TOP)} is not built: `rt ci` makes it")
    return str(path)


@functools.lru_cache(maxsize=None)
def program(name: str) -> str:
    """The program that was built here, or else that of release/, if it is of today's sources."""
    try:
        return built(name)
    except Missing:
        if not is_released(name):
            raise Missing(f"no {name} is built here, and none of today's sources is released: ./celtisdarts --build") from None
    print(f"tools/check: {name} is not built here: release/{name} is tried, which is of today's sources", file=sys.stderr)
    return str(TOP / "release" / name)


def library() -> Path:
    """The archive of the library for C that was built here, or else that of release/, if it is of today's sources."""
    found = TOP / "crates/celtisdarts_c/out/libceltisdarts.a"
    if found.is_file():
        return found
    if not is_released("celtisdarts_c"):
        raise Missing("no libceltisdarts.a is built here, and none of today's sources is released: tools/library")
    return TOP / "release/libceltisdarts.a"


def is_released(name: str) -> bool:
    script = '. "$here/tools/program.sh" && of_program "$1" && is_there "$released" && is_noted "$released" && is_of_these_sources'
    return run(["sh", "-c", script, "sh", name], env={**os.environ, "here": str(TOP)}).status == 0


# ---- the examples


class Example(NamedTuple):
    """A folder of examples/: a text, the depths at which it is answered, and the exit status of each run."""

    folder: Path
    depths: Sequence[str]
    status: int

    @property
    def name(self) -> str:
        return self.folder.name

    @property
    def text(self) -> bytes:
        return (self.folder / "input.txt").read_bytes()

    def file(self, name: str) -> Optional[bytes]:
        """The content of another file of the folder, if there is one."""
        path = self.folder / name
        return path.read_bytes() if path.is_file() else None

    def expected(self) -> bytes:
        return (self.folder / "expected.txt").read_bytes()


def example(name: str) -> Example:
    folder = TOP / "examples" / name
    depths, status = ((folder / it).read_text().split() if (folder / it).is_file() else [] for it in ("depth", "status"))
    return Example(folder, depths or ["8"], int([*status, "0"][0]))


def examples() -> list[Example]:
    return [example(it.name) for it in sorted((TOP / "examples").iterdir()) if it.is_dir()]
