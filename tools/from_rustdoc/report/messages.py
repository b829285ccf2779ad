"""What is said to the user: messages with a class and the places of the real sources, as text in rustc's form or as JSON with rustc's keys."""
from __future__ import annotations

import json
import os
import re
import sys
from dataclasses import dataclass, field
from typing import Any, Iterable, Optional, TextIO

from ..read.terms import Place

FINE, BAD, NO_ANSWER, UNSETTLED = 0, 1, 3, 4
# The level and the exit status of each word; what is not here is a note, and fine.
WORDS = {"breaking": ("error", BAD), "not coherent": ("error", BAD), "not as expected": ("error", BAD), "not settled": ("warning", UNSETTLED),
         "changed": ("warning", UNSETTLED), "waives nothing": ("warning", FINE), "not understood": ("error", NO_ANSWER), "no answer": ("error", NO_ANSWER)}


# What users read for words of the inside; those are in JSON, and in what `--verbose` prints.
PLAIN = (("by law", "certain"), ("argued: ", "not proved: "), ("the question has unknowns", "the question has variables"),
         ("both texts leave open what the unknowns stand for", "it depends on what the variables are"),
         ("a clause on an associated type is asked as a pattern", "a bound on an associated type was written in another form"),
         ("the question leads to chains without end", "the goals that it leads to have no end"), ("the text cannot say the question", "it cannot be asked"),
         ("the upper text has a proof, the lower one none", "it rests on a part that was left out"), ("neither text has a proof", "there is no proof"),
         (": a fresh parameter stands for it", ""), (": any type in the upper text, none in the lower", ""), ("out of both texts: ", ""), (": header: ", ": "))


def plain(text: str) -> str:
    for inside, words in PLAIN:
        text = text.replace(inside, words)
    text = re.sub(r"the upper text says [a-z ]+, the lower one [a-z ]+", "a part that was left out may count", text)
    # (The header is there already.)
    return re.sub(r"` \(std: .*\) is written$", "` is written", text)


@dataclass
class Span:
    """A place, and what is said of it. `version` is "old" for the sources of the older version of a release."""
    place: Place
    label: str = ""
    is_primary: bool = True
    version: str = ""


@dataclass
class Message:
    """`code` is the class, as `bound-added`; `word` the answer; `basis` says on what it rests, `rests_on` on the loss of which impls. `summary`
    of a step says why by the part of it that is new; `values` are those of variables, as a query takes them; `more` are further keys in JSON.
    `waived` is the reason why a change may be, `counted_as` the kind of what is not judged."""
    text: str
    code: str = ""
    word: str = ""
    crate: str = ""
    spans: list[Span] = field(default_factory=list)
    children: list[Message] = field(default_factory=list)
    basis: str = ""
    rests_on: list[str] = field(default_factory=list)
    kind: str = ""
    summary: str = ""
    values: list[tuple[str, str]] = field(default_factory=list)
    more: dict[str, Any] = field(default_factory=dict)
    waived: str = ""
    counted_as: str = ""

    @property
    def level(self) -> str:
        return "note" if self.waived else self.kind or WORDS.get(self.word, ("note", FINE))[0]

    @property
    def status(self) -> int:
        return FINE if self.waived else WORDS.get(self.word, ("note", FINE))[1]

    def note(self, text: str, *spans: Optional[Span]) -> Message:
        """Adds a note; returns the message itself."""
        self.children.append(Message(text, spans=[s for s in spans if s is not None], kind="note"))
        return self

    def help(self, text: str) -> Message:
        self.children.append(Message(text, kind="help"))
        return self


def worst(statuses: Iterable[int]) -> int:
    """One status for several: no answer, then bad, then not settled."""
    found = set(statuses)
    return next((s for s in (NO_ANSWER, BAD, UNSETTLED) if s in found), FINE)


def at(place: Optional[Place], label: str = "", version: str = "", is_primary: bool = True) -> list[Span]:
    return [Span(place, label, is_primary, version)] if place is not None else []


class Sources:
    """The files that places name. rustdoc names those of a workspace from its folder on; `roots` are the folders, by version."""

    def __init__(self, roots: Optional[dict[str, list[str]]] = None) -> None:
        self.roots = roots or {}
        self.texts: dict[str, Optional[bytes]] = {}

    def path(self, span: Span) -> str:
        """The file, as it is reached from here; its name alone where it is not there."""
        name = span.place.file
        for root in [*self.roots.get(span.version, []), "."]:
            if os.path.isfile(os.path.join(root, name)):
                return os.path.normpath(os.path.join(root, name))
        return name

    def shown(self, span: Span) -> str:
        """The file's name for people: from this folder on where it stands below it; of an older version its own name."""
        path = span.place.file if span.version and not os.path.isabs(span.place.file) else self.path(span)
        below = os.path.relpath(path) if os.path.isabs(path) else path
        return path if below.startswith("..") else below

    def text(self, path: str) -> Optional[bytes]:
        if path not in self.texts:
            try:
                with open(path, "rb") as handle:
                    self.texts[path] = handle.read()
            except OSError:
                self.texts[path] = None
        return self.texts[path]

    def line(self, span: Span) -> Optional[str]:
        """The first line of a place."""
        data = self.text(self.path(span))
        lines = data.split(b"\n") if data is not None else []
        return lines[span.place.line - 1].decode("utf-8", "replace").rstrip("\r") if 0 < span.place.line <= len(lines) else None

    def offset(self, span: Span, line: int, column: int) -> int:
        """How many bytes come before a column of a line; 0 where the file is not there."""
        data = self.text(self.path(span))
        lines = data.split(b"\n") if data is not None else []
        if not 0 < line <= len(lines):
            return 0
        before = lines[line - 1].decode("utf-8", "replace")[:column - 1]
        return sum(len(text) + 1 for text in lines[:line - 1]) + len(before.encode())

    def last_column(self, span: Span, line: str) -> int:
        return span.place.end_column if span.place.end_line == span.place.line else len(line) + 1


# ---- as text
def rendered(message: Message, sources: Sources, is_verbose: bool = False) -> str:
    code = f"[{message.code}]" if message.code and message.level in ("error", "warning") else ""
    lines = [f"{message.level}{code}: {message.text}"] + spans_lines(message.spans, sources)
    width = max([len(str(s.place.line)) for s in message.spans] or [1])
    for child in message.children:
        if child.spans:
            lines += [f"{child.level}: {child.text}"] + spans_lines(child.spans, sources)
        else:
            lines.append(f"{' ' * width} = {child.level}: {child.text}")
    notes = [f"rests on {line}" for line in message.rests_on] + ([message.basis] if message.basis else [])
    lines += [f"{' ' * width} = note: {note if is_verbose else plain(note)}" for note in notes]
    return "\n".join(lines) + "\n"


def spans_lines(spans: list[Span], sources: Sources) -> list[str]:
    lines: list[str] = []
    for number, span in enumerate(spans):
        place = span.place
        width = len(str(place.line))
        arrow = "-->" if number == 0 else ":::"
        lines.append(f"{' ' * width}{arrow} {sources.shown(span)}:{place.line}:{place.column}" + (" (the old version)" if span.version == "old" else ""))
        line = sources.line(span)
        if line is None:
            lines += [f"{' ' * width} = {span.label}"] if span.label else []
            continue
        shown = line.replace("\t", " ")
        mark = ("^" if span.is_primary else "-") * max(1, sources.last_column(span, line) - place.column)
        lines += [f"{' ' * width} |", f"{place.line} | {shown}", f"{' ' * width} | {' ' * (place.column - 1)}{mark} {span.label}".rstrip()]
    return lines


# ---- as JSON
def span_json(span: Span, sources: Sources) -> dict[str, Any]:
    place, line = span.place, sources.line(span)
    text = [] if line is None else [{"text": line, "highlight_start": place.column, "highlight_end": sources.last_column(span, line)}]
    label = "; ".join(filter(None, [span.label, "the old version" if span.version == "old" else ""]))
    return {"file_name": sources.shown(span), "byte_start": sources.offset(span, place.line, place.column),
            "byte_end": sources.offset(span, place.end_line, place.end_column), "line_start": place.line, "line_end": place.end_line,
            "column_start": place.column, "column_end": place.end_column, "is_primary": span.is_primary, "text": text, "label": label or None,
            "suggested_replacement": None, "suggestion_applicability": None, "expansion": None}


def message_json(message: Message, sources: Sources, is_child: bool = False) -> dict[str, Any]:
    found = {"message": message.text, "code": {"code": message.code, "explanation": None} if message.code else None, "level": message.level,
             "spans": [span_json(span, sources) for span in message.spans],
             "children": [message_json(child, sources, True) for child in message.children],
             "rendered": None if is_child else rendered(message, sources)}
    if is_child:
        return found
    return {"$message_type": "diagnostic", **found, "class": message.code or None, "answer": message.word or None, "crate": message.crate or None,
            "basis": message.basis or None, "rests_on": message.rests_on, "waived": message.waived or None,
            "values": [{"name": name, "type": value} for name, value in message.values], **message.more}


class Output:
    """Standard output, for people or as JSON; `outputs` has the other forms. `line` is for people alone. `features` says which were asked for, where
    there are several sets; `has_details` whether people see the reasons of answers."""

    features = ""
    has_details = True

    def __init__(self, sources: Optional[Sources] = None, is_json: bool = False, stream: Optional[TextIO] = None, is_verbose: bool = False) -> None:
        self.sources = sources or Sources()
        self.is_json = is_json
        self.is_verbose = is_verbose
        self.stream = stream or sys.stdout

    def write(self, text: str) -> None:
        self.stream.write(text)
        self.stream.flush()

    def line(self, text: str) -> None:
        if not self.is_json:
            self.write(text + "\n")

    def takes(self, message: Message) -> bool:
        """Whether an answer is said as a message, and not in lines for people."""
        return self.is_json

    def message(self, message: Message) -> None:
        if self.is_json:
            self.write(json.dumps({**message_json(message, self.sources), "features": self.features or None}) + "\n")
        elif message.level in ("error", "warning"):
            self.write(rendered(message, self.sources, self.is_verbose) + "\n")
        else:
            self.write(self.in_a_line(message) + "\n")

    def in_a_line(self, message: Message) -> str:
        place = f" ({self.sources.shown(message.spans[0])}:{message.spans[0].place.line})" if message.spans else ""
        notes = "".join(f"; {child.text}" for child in message.children)
        if message.waived:
            return f"waived, {message.word}: {message.text}{place}{f' [{message.code}]' if message.code else ''}; {message.waived}"
        return f"{message.word or message.level}: {message.text}{place}{notes}"

    def summary(self, text: str, crate: str, answer: str, status: int, **more: Any) -> None:
        """The last word on a crate, or on all."""
        if self.is_json:
            self.write(json.dumps({"$message_type": "summary", "message": text, "crate": crate or None, "answer": answer, "status": status, **more,
                                   "features": self.features or None}) + "\n")
        else:
            self.write(text + "\n")
