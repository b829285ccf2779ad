"""Writes what was measured: as lines, as the table of benches/FIGURES.md, or as JSON for another call."""
from __future__ import annotations

import json
from typing import Any, Optional

from .measure import Figure, Row, exponent_of
from .rustc import Judged

HEAD = ["family", "size", "bytes", "s", "exponent", "MB", "rustc default", "next", "of the faster"]


def seconds_of(seconds: float, stopped: str) -> str:
    """Seconds with two digits that say something; what has no answer says how long it was let run."""
    if stopped == "time":
        return f"> {seconds:.0f}"
    shown = f"{seconds:.4f}" if seconds < 0.01 else f"{seconds:.3f}" if seconds < 1 else f"{seconds:.2f}" if seconds < 10 else f"{seconds:.0f}"
    return f"{stopped} after {shown}" if stopped else shown


def judged_text(found: Optional[Judged]) -> str:
    """What rustc took; a `!` says that it refused the crate."""
    if found is None:
        return "-"
    return seconds_of(found.seconds, found.stopped) + ("" if found.accepted or found.stopped else " !")


def at(found: list[Judged], index: int) -> Optional[Judged]:
    return found[index] if index < len(found) else None


def ratio_of(figure: Figure, row: Row, index: int) -> str:
    """Of the time of rustc's faster solver: a bound, where one of the two was stopped."""
    judged = [it for it in (at(found, index) for found in row.rustc.values()) if it is not None]
    ended = [it.seconds for it in judged if not it.stopped]
    if not judged or (figure.stopped and not ended):
        return "-"
    rustc = max(min(ended) if ended else min(it.seconds for it in judged), 0.001)
    ratio = figure.seconds / rustc
    shown = f"{ratio:.3f}" if ratio < 0.1 else f"{ratio:.2f}" if ratio < 10 else f"{ratio:.0f}"
    return ("> " if figure.stopped else "< " if not ended else "") + shown


def cells_of(row: Row, index: int) -> list[str]:
    figure = row.figures[index]
    exponent = exponent_of(row) if index == 1 else None
    return [
        row.family.name if index == 0 else "",
        f"{figure.size:,}",
        f"{figure.bytes:,}",
        seconds_of(figure.seconds, figure.stopped),
        f"{exponent:.1f}" if exponent is not None else "",
        f"{figure.peak / 1024:.0f}" if figure.peak is not None else "-",
        judged_text(at(row.rustc.get("default", []), index)),
        judged_text(at(row.rustc.get("next", []), index)),
        ratio_of(figure, row, index),
    ]


def lines_of(row: Row) -> list[str]:
    """A line for each size."""
    widths = [24, 8, 10, 10, 8, 6, 13, 10, 13]
    found = []
    for index, figure in enumerate(row.figures):
        cells = cells_of(row, index)
        line = cells[0].ljust(widths[0]) + " ".join(it.rjust(width) for it, width in zip(cells[1:], widths[1:]))
        found.append(f"{line}  depth {figure.depth}: {figure.answer}")
    return found


def head_line() -> str:
    widths = [24, 8, 10, 10, 8, 6, 13, 10, 13]
    return HEAD[0].ljust(widths[0]) + " ".join(it.rjust(width) for it, width in zip(HEAD[1:], widths[1:]))


def markdown_head() -> list[str]:
    return ["| " + " | ".join(HEAD) + " |", "|---|" + "---:|" * (len(HEAD) - 1)]


def markdown_of(row: Row) -> list[str]:
    """A row for each size."""
    return ["| " + " | ".join(cells_of(row, index)) + " |" for index in range(len(row.figures))]


def stored_form(row: Row) -> dict[str, Any]:
    rustc = {solver: [vars(it) for it in found] for solver, found in row.rustc.items()}
    return {"family": row.family.name, "figures": [vars(it) for it in row.figures], "rustc": rustc}


def read_rustc(path: str) -> dict[str, dict[str, list[Judged]]]:
    """What rustc took in an earlier call, by family and solver."""
    found: dict[str, dict[str, list[Judged]]] = {}
    with open(path, encoding="utf-8") as file:
        for line in file:
            stored = json.loads(line)
            found[stored["family"]] = {solver: [Judged(**it) for it in rows] for solver, rows in stored["rustc"].items()}
    return found
