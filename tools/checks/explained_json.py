"""What --explain printed as JSON, compared with what it prints as text.

    tools/check explained_json FILE < OUTPUT      OUTPUT is that of --json, FILE what an example has as `explained`

Each line is an object: one with `$message_type` and `answer` alone, or one with the keys of `rustc --error-format=json` and `answer`,
each of its kind, in spans and children too. The answers with what is `rendered` after each are the file: an empty answer is no line, and
what has one is a further faulty line, or says that not all is explained. (The checks `examples` and `explained` read each output so.)
"""
from __future__ import annotations

import argparse
import json
import re
import sys
from pathlib import Path
from typing import Any, Mapping, NamedTuple, Sequence, Union

from .common import Tally, Wrong

Kind = Union[type, tuple[type, ...]]
NONE: type = type(None)
ANSWER: Mapping[str, Kind] = {"$message_type": str, "answer": str, "parts": dict}
SPAN: Mapping[str, Kind] = {
    "file_name": str, "byte_start": int, "byte_end": int, "line_start": int, "line_end": int, "column_start": int, "column_end": int,
    "is_primary": bool, "text": list, "label": (str, NONE), "suggested_replacement": NONE, "suggestion_applicability": NONE, "expansion": NONE,
}
TEXT: Mapping[str, Kind] = {"text": str, "highlight_start": int, "highlight_end": int}
CODE: Mapping[str, Kind] = {"code": str, "explanation": NONE}
MESSAGE: Mapping[str, Kind] = {"message": str, "code": (dict, NONE), "level": str, "spans": list, "children": list, "rendered": (str, NONE)}
ROW: Mapping[str, Kind] = {"goal": str, "rule": str, "span": (dict, NONE), "premises": list}
LEVELS = ("error", "warning", "note", "help")

# The further members of `parts`, for each kind of answer.
PARTS: Mapping[str, tuple[Mapping[str, Kind], ...]] = {
    "fault": ({"fault": int},), "accepted": ({},), "overlap": ({"impl": int, "with": str, "with_impl": int},),
    "orphan": ({"impl": int, "nonlocal": bool}, {"impl": int, "uncovered": str}, {"impl": int, "uncovered": str, "before": str}),
    "compatible": ({},), "breaking": ({"impl": int},), "held": ({},), "missing": ({"impl": int, "clause": int},),
    "undecided": ({"impl": int, "clause": int},), "yes": ({"values": dict},), "maybe": ({"values": dict},), "unproved": ({},), "no": ({},), "open": ({},),
}
SUBJECTS: Mapping[str, tuple[str, Kind]] = {
    "line": ("line", int), "crate": ("crate", str), "later": ("crate", str), "supers": ("crate", str), "prove": ("question", int), "refute": ("question", int),
}


def need(is_so: bool, what: str, value: object) -> None:
    if not is_so:
        raise Wrong(f"{what}: {json.dumps(value)[:300]}")


def has_keys(value: Any, keys: Mapping[str, Kind], what: str) -> None:
    need(isinstance(value, dict) and set(value) == set(keys), f"other keys in {what}", value)
    for key, kind in keys.items():
        is_so = isinstance(value[key], kind) and not (kind is int and isinstance(value[key], bool))
        need(is_so, f"another kind of `{key}` in {what}", value)


def read_span(span: Any) -> None:
    has_keys(span, SPAN, "a span")
    is_span = span["byte_start"] <= span["byte_end"] and 1 <= span["column_start"] <= span["column_end"] and len(span["text"]) == 1
    need(is_span, "a span that is none", span)
    text = span["text"][0]
    has_keys(text, TEXT, "a line of a span")
    need(1 <= text["highlight_start"] <= text["highlight_end"] <= len(text["text"]) + 1, "marks outside their line", span)


def line_of(answer: str, parts: Mapping[str, Any], subject: str) -> str:
    """The line of an answer, put together again of its parts, its values in the order of that line."""
    words = [parts["kind"], *(f"{key} {parts[key]}" for key in ("impl", "clause", "uncovered", "before") if key in parts)]
    words += ["nonlocal"] if "nonlocal" in parts else []
    words += [f"with {parts['with']} {parts['with_impl']}"] if "with" in parts else []
    words += [str(parts["fault"])] if "fault" in parts else []
    named = parts.get("values", {})
    values = ", ".join(f"{name} = {named[name]}" for name in sorted(named, key=lambda it: answer.find(f"{it} = ")))
    return f"{parts['answered']} {parts[subject]}: {' '.join(words)}" + (f" {values}" if values else "")


def read_parts(answer: str, parts: Any) -> None:
    """The parts of an answer have the keys of its kind, and are the line."""
    subject, kind = SUBJECTS.get(parts.get("answered"), ("", str))
    need(bool(subject), "parts of no answer", parts)
    head: Mapping[str, Kind] = {"answered": str, subject: kind, "kind": str}
    need(any(set(parts) == {*head, *it} for it in PARTS.get(parts.get("kind"), ())), "other keys in the parts of an answer", parts)
    need(line_of(answer, parts, subject) == answer, f"parts that are not those of {answer!r}", parts)


def further_fault(parts: Any) -> str:
    """The line that an answer would have for a further faulty line."""
    has_keys(parts, {"answered": str, "line": int, "kind": str, "fault": int}, "the parts of a further faulty line")
    return f"line {parts['line']}: fault {parts['fault']}"


def count_rows(rows: Any) -> int:
    """How many rows a proof has. Each has its keys."""
    for row in rows:
        has_keys(row, ROW, "a row of a proof")
        if row["span"] is not None:
            read_span(row["span"])
        line = re.match(r"impl at line ([0-9]+)", row["rule"])
        need((row["span"] and row["span"]["line_start"]) == (int(line[1]) if line else None), "another span than the rule's line", row)
    return len(rows) + sum(count_rows(row["premises"]) for row in rows)


def read_proof(message: Any) -> None:
    """The trees of a proof have as many rows as its text."""
    shown = [it["message"] for it in message["children"] if it["message"].startswith("proof:")]
    rows = shown[0].count("\n") if shown else 0
    need(count_rows(message["proof"]) == rows, f"trees that have not the {rows} rows of the proof", message["proof"])


def read_message(message: Any, extra: Mapping[str, Kind]) -> None:
    has_keys(message, {**MESSAGE, **extra}, "a message")
    need(message["level"] in LEVELS, "another level", message)
    if message["code"] is not None:
        has_keys(message["code"], CODE, "a code")
    for span in message["spans"]:
        read_span(span)
    for child in message["children"]:
        read_message(child, {})


class Explained(NamedTuple):
    """A line of the answer, and its explanation."""

    answer: str
    rendered: str
    message: Any


def read_line(line: str) -> Explained:
    value = json.loads(line)
    if isinstance(value, dict) and value.get("$message_type") == "answer":
        has_keys(value, ANSWER, "an answer")
        read_parts(value["answer"], value["parts"])
        return Explained(value["answer"], "", None)
    read_message(value, {**ANSWER, "proof": list})
    read_proof(value)
    if value["answer"]:
        read_parts(value["answer"], value["parts"])
    elif value["parts"]:
        read_parts(further_fault(value["parts"]), value["parts"])
    need(value["$message_type"] == "diagnostic" and value["rendered"] is not None, "another type of message", value)
    return Explained(value["answer"], value["rendered"], value)


def read_lines(output: bytes) -> list[Explained]:
    return list(map(read_line, output.decode("ascii").splitlines()))


def text_of(lines: Sequence[Explained]) -> str:
    return "".join(f"{it.answer}\n{it.rendered}" if it.answer else it.rendered for it in lines)


def add_words(reader: argparse.ArgumentParser) -> None:
    reader.add_argument("file", type=Path)


def compare(file: Path) -> None:
    if text_of(read_lines(sys.stdin.buffer.read())) != file.read_text(encoding="ascii"):
        raise Wrong("JSON and text differ")


def check(tally: Tally, given: argparse.Namespace) -> None:
    tally.hold(str(given.file), lambda: compare(given.file))
