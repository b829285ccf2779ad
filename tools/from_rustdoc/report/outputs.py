"""The forms in which messages are said: for people, in a line each, as JSON, as annotations of GitHub, and as SARIF.

GitHub's are its workflow commands (`::error file=..,line=..::..`), SARIF is version 2.1.0 of the OASIS standard.
"""
from __future__ import annotations

import argparse
import json
import os
import re
import sys
from dataclasses import dataclass
from typing import Any, Iterator, Optional, TextIO
from urllib.parse import quote

from .classes import CLASSES
from ..read.console import AUTO, BLUE, BOLD, CYAN, END, LEVELS, console, is_coloured
from .messages import NO_ANSWER, Message, Output, Sources, Span, rendered

HUMAN, SHORT, JSON, GITHUB, SARIF = FORMATS = ("human", "short", "json", "github", "sarif")
SCHEMA = "https://docs.oasis-open.org/sarif/sarif/v2.1.0/errata01/os/schemas/sarif-schema-2.1.0.json"
PAGE = "docs/SEMVER.md"


# ---- colours
MARKED = ((re.compile(r"^(error|warning|note|help)(\[[\w-]+\])?(?=:)", re.M), lambda found: LEVELS[found[1]] + found[0] + END),
          (re.compile(r"^( *)(-->|:::)(?= )", re.M), lambda found: f"{found[1]}{BLUE}{found[2]}{END}"),
          (re.compile(r"^((?:\d+)? *\|)( *)([\^-]+)(.*)$", re.M), lambda found: f"{BLUE}{found[1]}{END}{found[2]}{CYAN}{found[3]}{found[4]}{END}"),
          (re.compile(r"^(\d+ +\|)", re.M), lambda found: f"{BLUE}{found[1]}{END}"),
          (re.compile(r"^( *)= (note|help)(?=:)", re.M), lambda found: f"{found[1]}{BLUE}={END} {BOLD}{found[2]}{END}"))


def coloured(text: str) -> str:
    """A rendered message with rustc's colours."""
    for pattern, mark in MARKED:
        text = pattern.sub(mark, text)
    return text


class ForPeople(Output):
    """`is_coloured` says whether messages have colours."""

    is_coloured = False

    def write(self, text: str) -> None:
        console.clear()
        super().write(coloured(text) if self.is_coloured else text)


class Short(ForPeople):
    """Each error and warning in a line, as rustc's `short`."""

    has_details = False

    def message(self, message: Message) -> None:
        if message.level not in ("error", "warning"):
            self.write(self.in_a_line(message) + "\n")
            return
        place = next((f"{self.sources.shown(span)}:{span.place.line}:{span.place.column}{old_version(span)}: " for span in message.spans), "")
        self.write(f"{place}{message.level}{f'[{message.code}]' if message.code else ''}: {message.text}\n")


class AsJson(Output):
    def write(self, text: str) -> None:
        console.clear()
        super().write(text)


def old_version(span: Span) -> str:
    return " (the old version)" if span.version == "old" else ""


# ---- files of a repository
def below_repository(path: str) -> Optional[str]:
    """A file's path from the repository's folder on. Nothing if it is not there or is in none."""
    if not os.path.isfile(path):
        return None
    path = os.path.realpath(path)
    top = repository_of(path)
    below = os.path.relpath(path, top)
    return None if below.startswith("..") else below.replace(os.sep, "/")


def repository_of(path: str) -> str:
    """The folder of the repository that a file is in, as GitHub and git know it; else this folder."""
    place = os.environ.get("GITHUB_WORKSPACE", "")
    if place and (os.path.realpath(path) + os.sep).startswith(os.path.join(os.path.realpath(place), "")):
        return os.path.realpath(place)
    place = os.path.dirname(os.path.realpath(path))
    while not os.path.exists(os.path.join(place, ".git")):
        if place == os.path.dirname(place):
            return os.path.realpath(".")
        place = os.path.dirname(place)
    return place


def located(message: Message, sources: Sources) -> Iterator[tuple[str, Span]]:
    """The primary places of a message that are in the newer version's files."""
    for span in message.spans:
        path = below_repository(sources.path(span)) if not span.version and span.is_primary else None
        if path is not None:
            yield path, span


def whole_text(message: Message, sources: Sources) -> str:
    """What a message says, with its notes and the places that no newer file has."""
    places = [f"{sources.shown(span)}:{span.place.line}{old_version(span)}" for span in message.spans if span.version]
    lines = [message.text + (f" ({', '.join(places)})" if places else ""), *(f"{child.level}: {child.text}" for child in message.children)]
    return "\n".join([*lines, *([f"waived: {message.waived}"] if message.waived else [])])


# ---- GitHub
def escaped(text: str) -> str:
    """As the text of a workflow command."""
    return text.replace("%", "%25").replace("\r", "%0D").replace("\n", "%0A")


def escaped_property(text: str) -> str:
    return escaped(text).replace(":", "%3A").replace(",", "%2C")


def command(level: str, text: str, **properties: object) -> str:
    """A workflow command. The level is `error`, `warning` or `notice`."""
    words = ",".join(f"{name}={escaped_property(str(value))}" for name, value in properties.items() if value not in ("", None))
    return f"::{level}{' ' if words else ''}{words}::{escaped(text)}\n"


class GitHub(ForPeople):
    """Errors and warnings, and what is waived, as annotations; all else as for people, in lines that are no commands."""

    def __init__(self, *words: Any, told: Optional[set[str]] = None, **more: Any) -> None:
        super().__init__(*words, **more)
        self.told: set[str] = set() if told is None else told

    has_details = False

    def takes(self, message: Message) -> bool:
        return message.level in ("error", "warning")

    def message(self, message: Message) -> None:
        if message.level not in ("error", "warning") and not message.waived:
            self.line(self.in_a_line(message))
            return
        level = "notice" if message.waived else message.level
        place: dict[str, object] = {}
        for path, span in located(message, self.sources):
            place = {"file": path, "line": span.place.line, "endLine": span.place.end_line, **columns(span)}
            break
        line = command(level, whole_text(message, self.sources), **place, title=message.code)
        # (What two sets of features have in common is reported once.)
        if line not in self.told:
            self.told.add(line)
            self.write(line)

    def line(self, text: str) -> None:
        """(What begins as a command is none.)"""
        super().line("\n".join(f"- {line}" if line.lstrip().startswith("::") else line.replace("##[", "## [") for line in text.split("\n")))


def columns(span: Span) -> dict[str, object]:
    """(GitHub has columns within one line alone.)"""
    return {"col": span.place.column, "endColumn": span.place.end_column} if span.place.line == span.place.end_line else {}


# ---- SARIF
class SarifLog:
    """All that a call says, which is one document at its end."""

    def __init__(self) -> None:
        self.results: dict[str, dict[str, Any]] = {}
        self.rules: dict[str, int] = {}
        self.summaries: list[dict[str, Any]] = []
        self.notifications: list[dict[str, Any]] = []
        self.notes: list[str] = []

    def add(self, message: Message, sources: Sources) -> None:
        text = whole_text(message, sources)
        if message.status == NO_ANSWER:
            self.notify(text)
            return
        rule = self.rules.setdefault(message.code or "message", len(self.rules))
        found: dict[str, Any] = {"ruleId": message.code or "message", "ruleIndex": rule, "level": message.level, "message": {"text": text},
                                 "locations": [location(path, span) for path, span in located(message, sources)]}
        related = [{**location(path, span), "message": {"text": child.text}} for child in message.children
                   for path, span in located(Message("", spans=child.spans), sources)]
        if related:
            found["relatedLocations"] = related
        if message.waived:
            found["suppressions"] = [{"kind": "external", "status": "accepted", "justification": message.waived}]
        found["properties"] = {"answer": message.word, "crate": message.crate, "basis": message.basis}
        # (What two sets of features have in common is reported once.)
        self.results.setdefault(json.dumps(found, sort_keys=True), found)

    def notify(self, text: str, level: str = "error") -> None:
        self.notifications.append({"level": level, "message": {"text": text}})

    def document(self, status: int) -> dict[str, Any]:
        rules = [{"id": name, "shortDescription": {"text": CLASSES.get(name, name)}} for name in self.rules]
        invocation: dict[str, Any] = {"executionSuccessful": status not in (2, NO_ANSWER), "exitCode": status}
        if self.notifications:
            invocation["toolExecutionNotifications"] = self.notifications
        return {"$schema": SCHEMA, "version": "2.1.0", "runs": [{
            "tool": {"driver": {"name": "cargo-celtisdarts", "rules": rules}}, "columnKind": "unicodeCodePoints", "invocations": [invocation],
            "results": list(self.results.values()), "properties": {"summaries": self.summaries, "notes": self.notes}}]}


def location(path: str, span: Span) -> dict[str, Any]:
    place = span.place
    region = {"startLine": place.line, "startColumn": place.column, "endLine": place.end_line, "endColumn": place.end_column}
    return {"physicalLocation": {"artifactLocation": {"uri": quote(path), "uriBaseId": "%SRCROOT%"}, "region": region}}


class Sarif(Output):
    """Adds to a log. Only errors, warnings and what is waived are results; all else is a note next to them."""

    def __init__(self, log: SarifLog, *words: Any, **more: Any) -> None:
        super().__init__(*words, **more)
        self.log = log

    def line(self, text: str) -> None:
        pass

    def takes(self, message: Message) -> bool:
        return True

    def message(self, message: Message) -> None:
        if message.level in ("error", "warning") or message.waived:
            self.log.add(message, self.sources)
        else:
            self.log.notes.append(self.in_a_line(message))

    def summary(self, text: str, crate: str, answer: str, status: int, **more: Any) -> None:
        self.log.summaries.append({"message": text, "crate": crate, "answer": answer, "status": status, **more, "features": self.features or None})


# ---- one call
@dataclass
class Reporter:
    """Makes the outputs of a call, and ends it. `color` is what `--color` says."""
    form: str = HUMAN
    color: str = AUTO
    is_verbose: bool = False
    stream: Optional[TextIO] = None

    def __post_init__(self) -> None:
        self.log = SarifLog()
        self.told: set[str] = set()

    def output(self, sources: Optional[Sources] = None) -> Output:
        if self.form == JSON:
            return AsJson(sources, True, self.stream)
        if self.form == SARIF:
            return Sarif(self.log, sources, False, self.stream)
        if self.form == GITHUB:
            return GitHub(sources, False, self.stream, self.is_verbose, told=self.told)
        found = (Short if self.form == SHORT else ForPeople)(sources, False, self.stream, self.is_verbose)
        found.is_coloured = is_coloured(self.color, (self.stream or sys.stdout).isatty())
        return found

    def fail(self, complaint: str) -> None:
        """Writes for machines why there is no answer. For people it is on standard error."""
        if self.form == GITHUB:
            self.output().write(command("error", complaint))
        elif self.form == SARIF:
            self.log.notify(complaint)
        elif self.form == JSON:
            self.output().message(Message(complaint, "no-answer", "no answer"))

    def end(self, status: int) -> None:
        if self.form == SARIF:
            stream = self.stream or sys.stdout
            stream.write(json.dumps(self.log.document(status), indent=1) + "\n")
            stream.flush()


def reporter_of(arguments: argparse.Namespace) -> Reporter:
    """The call's own."""
    if not hasattr(arguments, "reporter"):
        arguments.reporter = Reporter(arguments.message_format, is_verbose=arguments.verbose)
    found: Reporter = arguments.reporter
    return found
