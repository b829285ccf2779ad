"""Results of steps: files of JSON, a line each. The first line is about the step itself, the others about what it found."""
from __future__ import annotations

import json
import os
import resource
import time
from dataclasses import dataclass, field
from typing import Any, Callable, Iterator

from from_rustdoc.read.terms import BadInput, Lossy

Line = dict[str, Any]
DONE, FAILED, SKIPPED = "done", "failed", "skipped"


class Skipped(Exception):
    """A step that has nothing to do, and why."""


@dataclass
class Step:
    """What a step found, and lines of its own on the step: figures that are not of one thing."""
    lines: list[Line] = field(default_factory=list)
    figures: Line = field(default_factory=dict)

    def add(self, kind: str, **values: Any) -> None:
        self.lines.append({"kind": kind, **values})


def processor_seconds() -> float:
    """Of this process and of those that it waited for."""
    used = [resource.getrusage(who) for who in (resource.RUSAGE_SELF, resource.RUSAGE_CHILDREN)]
    return sum(u.ru_utime + u.ru_stime for u in used)


def memory() -> int:
    """The most that one process had, in MB."""
    return max(resource.getrusage(who).ru_maxrss for who in (resource.RUSAGE_SELF, resource.RUSAGE_CHILDREN)) // 1024


def measured(name: str, work: Callable[[Step], None]) -> list[Line]:
    """Does a step. One that fails has a line that says why, with what it found before, and the survey goes on."""
    step, status, why = Step(), DONE, ""
    began, used = time.monotonic(), processor_seconds()
    try:
        work(step)
    except Skipped as error:
        status, why = SKIPPED, str(error)
    except (BadInput, Lossy) as error:
        status, why = FAILED, str(error)
    except Exception as error:  # noqa: BLE001 (a fault of one crate's step is a line among the results)
        status, why = FAILED, f"a fault: {type(error).__name__}: {error}"
    head = {"kind": "step", "step": name, "status": status, "why": why, "seconds": round(time.monotonic() - began, 2),
            "processor": round(processor_seconds() - used, 2), "memory": memory(), **step.figures}
    return [head] + step.lines


def write(file: str, lines: list[Line]) -> None:
    """The whole file or nothing."""
    os.makedirs(os.path.dirname(os.path.abspath(file)), exist_ok=True)
    with open(file + ".part", "w", encoding="utf-8") as handle:
        handle.write("".join(json.dumps(line, sort_keys=True) + "\n" for line in lines))
    os.replace(file + ".part", file)


def read(file: str) -> Iterator[Line]:
    with open(file, encoding="utf-8") as handle:
        for number, text in enumerate(handle, 1):
            try:
                line = json.loads(text)
            except ValueError as error:
                raise BadInput(f"{file}:{number}: not a line of JSON: {error}")
            if not isinstance(line, dict) or "kind" not in line:
                raise BadInput(f"{file}:{number}: a line without a kind")
            yield line


def head(file: str) -> Line:
    """The line on the step itself."""
    found = next(read(file), None)
    if found is None or found["kind"] != "step":
        raise BadInput(f"{file}: no line on the step")
    return found
