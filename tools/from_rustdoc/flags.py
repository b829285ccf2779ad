"""The words of `cargo celtisdarts`: its commands and flags, each with a line of help, and what is said of a word that is none of them.

Flags that cargo has mean what they mean there, and most are passed on to it.
"""
from __future__ import annotations

import argparse
import os
import textwrap
from dataclasses import dataclass, field
from typing import Any, NoReturn, Optional, Sequence

from .later.baseline import named
from .later.bump import RELEASE_TYPES
from .read.console import AUTO, COLOURS
from .read.near import hint
from .report.outputs import FORMATS, HUMAN

CALLED = "cargo celtisdarts"
WIDTH = 100


class WrongWords(Exception):
    """The words are not understood, and why."""


@dataclass(frozen=True)
class Flag:
    """`value` is how its value is called, empty where it has none. `passed` says that cargo takes it too."""
    names: tuple[str, ...]
    help: str
    value: str = ""
    more: dict[str, Any] = field(default_factory=dict)
    passed: bool = False

    @property
    def name(self) -> str:
        return self.names[-1].lstrip("-").replace("-", "_")

    def shown(self) -> str:
        long = ", ".join(self.names) if len(self.names[0]) == 2 else f"    {self.names[-1]}"
        return long + (f" <{self.value}>" if self.value else "")

    def add_to(self, parser: argparse.ArgumentParser) -> None:
        more = {"metavar": self.value, **self.more} if self.value else {"action": "store_true", **self.more}
        parser.add_argument(*self.names, dest=self.name, **more)

    def words(self, given: Any) -> list[str]:
        """The words for cargo."""
        if not self.value:
            return [self.names[-1]] if given else []
        values = given if isinstance(given, list) else [given] if given is not None else []
        return [word for value in values for word in (self.names[-1], str(value))]


def one_of(*known: str) -> Any:
    def read(word: str) -> str:
        if word not in known:
            raise argparse.ArgumentTypeError(f"`{word}` is none of {', '.join(known)}{hint(word, known)}")
        return word
    return read


MANY: dict[str, Any] = {"action": "append", "default": []}
PACKAGES = (
    Flag(("-p", "--package"), "only this package; may be given again", "SPEC", MANY),
    Flag(("--workspace",), "all packages of the workspace"),
    Flag(("--exclude",), "all packages but this one, with --workspace; may be given again", "SPEC", MANY),
)
FEATURES = (
    Flag(("-F", "--features"), "features, with commas or blanks between them; without one of these flags the metadata says which to try", "FEATURES", MANY, True),
    Flag(("--all-features",), "all features", passed=True),
    Flag(("--no-default-features",), "without the default features", passed=True),
)
COMPILED = (
    Flag(("--target",), "compile for this platform (std is read as documented for the host)", "TRIPLE", passed=True),
    Flag(("-j", "--jobs"), "how many processes at once", "N", {"type": int}, True),
)
MANIFEST = (
    Flag(("--manifest-path",), "the Cargo.toml of the project, in place of the one of this folder or of one above", "PATH"),
    Flag(("--locked",), "leave Cargo.lock as it is", passed=True),
    Flag(("--offline",), "without the network", passed=True),
    Flag(("--frozen",), "both", passed=True),
    Flag(("--config",), "cargo's configuration: KEY=VALUE or a file", "CONFIG", MANY, True),
)
SAID = (
    Flag(("-q", "--quiet"), "no notes and no progress"),
    Flag(("-v", "--verbose"), "what answers rest on, in the words of docs/RUSTDOC.md"),
    Flag(("--color",), "auto, always or never", "WHEN", {"type": one_of(*COLOURS), "default": AUTO}),
    Flag(("--message-format",), "human, short, json, github (annotations) or sarif", "FMT", {"type": one_of(*FORMATS), "default": HUMAN}),
    Flag(("-h",), "the flags alone"),
    Flag(("--help",), "this text"),
)
TOOLS = (
    Flag(("--docs",), "the folder of std's documents", "DIR"),
    Flag(("--program",), "the program that answers, in place of the proved one", "FILE"),
    Flag(("--program-that-explains",), "the program that explains", "FILE"),
)
COMMON = {"Package selection": PACKAGES, "Feature selection": FEATURES, "Compilation": COMPILED, "Manifest": MANIFEST, "Output": SAID, "This tool": TOOLS}


@dataclass(frozen=True)
class Command:
    """`about` is its line in the list of all, `text` what else is said of it, `words` what comes after it."""
    name: str
    about: str
    text: str
    flags: tuple[Flag, ...] = ()
    words: str = ""
    least: int = 0

    def groups(self) -> dict[str, tuple[Flag, ...]]:
        return {"Options": self.flags, **COMMON} if self.flags else COMMON

    def all_flags(self) -> list[Flag]:
        return [flag for flags in self.groups().values() for flag in flags]

    def names(self) -> list[str]:
        return [name for flag in self.all_flags() for name in flag.names]


COMMANDS = {command.name: command for command in (
    Command("later", "what breaks crates that use this library?",
            "Compares each library with its older version. A change that breaks users is an error unless the version's number says so (0.3 to 0.4, 1.5 "
            "to 2.0), or [package.metadata.celtisdarts] waives it with a reason.", (
                Flag(("--baseline",), "the older version: a revision of git, or a folder; else the nearest tag", "REV|FOLDER", {"type": named}),
                Flag(("--release-type",), "major, minor or patch, in place of what the two versions' numbers say", "TYPE", {"type": one_of(*RELEASE_TYPES)}),
                Flag(("--strict",), "status 4 too if something that changed is not judged"),
                Flag(("--private",), "private and sealed impls too"),
                Flag(("--no-build-scripts",), "refuse an older version that runs build scripts or procedural macros of its own"))),
    Command("ask", "does a bound hold, as `mine::Pool: Send`, and if not, why not?",
            "Without a question it asks those of [package.metadata.celtisdarts.ask], and an answer other than expected there is an error.", (
                Flag(("--expect",), "yes, no or maybe: another answer is status 1", "ANSWER", {"type": one_of("yes", "no", "maybe")}),
                Flag(("--why",), "the proof of a `yes` too")), "[QUESTION]..."),
    Command("check", "does a proved program find your crates coherent too?",
            "rustc checks the orphan rule and overlap in each build. Run this to have it judged a second time, by the program whose answers are proved, and to "
            "see which impls this tool reads whole: what `ask` and `later` answer rests on these.", (
                Flag(("--all",), "the crates that are used too, not the workspace's own alone"),)),
    Command("conditions", "under which bounds does a question hold, as `Vec<T>: Send`?",
            "Asks again with what was missing as a bound, until the answer is yes. Parameters need not be declared.", (), "QUESTION...", 1),
    Command("traits", "which traits has a type, as `mine::Pool<T>`, and under which bounds?",
            "Lists each trait as an impl with its bounds, then the auto traits that the type does not have.", (), "TYPE...", 1),
    Command("serve", "answers requests on standard input, a line of JSON each",
            "For editors and other tools: the methods are those of the class Project, as docs/QUESTIONS.md says."),
)}
STATUSES = """Status: 0 fine, or broken as the version's number says. 1 breaking, not coherent, or not as expected. 2 wrong arguments. 3 no answer.
4 not settled, `changed`, or not judged with --strict. docs/RUSTDOC.md has all."""
ABOUT = "Judges releases, bounds and impls of real crates. It documents the project of this folder, or of the next one above that has a Cargo.toml."


# ---- help
def short_help(command: Optional[Command] = None) -> str:
    if command is None:
        return "\n".join([f"Usage: {CALLED} <COMMAND> [OPTIONS] [-- CARGO'S FLAGS]", "", *list_of({c.name: c.about for c in COMMANDS.values()}), "",
                          f"`{CALLED} <COMMAND> -h` lists the flags of a command, `--help` says what they are for.", ""])
    flags = "  ".join(flag.shown().strip().replace(" <", " <") for flag in command.all_flags())
    return "\n".join([f"{command.name}: {command.about}", "", usage(command), "", *textwrap.wrap(flags.replace(" <", "\u00a0<").replace(", -", ",\u00a0-"), WIDTH,
                                                                                            break_on_hyphens=False)]).replace("\u00a0", " ") + "\n"


def long_help(command: Optional[Command] = None) -> str:
    if command is None:
        parts = [ABOUT, f"Usage: {CALLED} <COMMAND> [OPTIONS] [-- CARGO'S FLAGS]", "\n".join(list_of({c.name: c.about for c in COMMANDS.values()}))]
        groups = COMMON
    else:
        parts = [f"{command.name}: {command.about}\n\n" + textwrap.fill(command.text, WIDTH), usage(command)]
        groups = command.groups()
    for title, flags in groups.items():
        parts.append("\n".join([f"{title}:", *list_of({flag.shown(): flag.help for flag in flags})]))
    return "\n\n".join([*parts, STATUSES]) + "\n"


def usage(command: Command) -> str:
    return f"Usage: {CALLED} {command.name} [OPTIONS] {f'{command.words} ' if command.words else ''}[-- CARGO'S FLAGS]"


def list_of(lines: dict[str, str]) -> list[str]:
    width = max(map(len, lines)) + 2
    return [f"  {name:<{width}}{text}" for name, text in lines.items()]


# ---- reading
class Parser(argparse.ArgumentParser):
    """(A flag that is cut short is none: another one would be taken for it one day.)"""

    def __init__(self, command: Command) -> None:
        super().__init__(prog=CALLED, add_help=False, allow_abbrev=False)
        self.command = command
        for flag in command.all_flags():
            flag.add_to(self)
        self.add_argument("words", nargs="*")

    def error(self, message: str) -> NoReturn:
        raise WrongWords(message.removeprefix("argument ") if message.startswith("argument ") else message)

    def read(self, words: Sequence[str]) -> argparse.Namespace:
        found, unknown = self.parse_known_intermixed_args(words)
        if unknown:
            raise WrongWords(f"`{self.command.name}` has no flag `{unknown[0]}`{hint(unknown[0].partition('=')[0], self.command.names())}")
        return found


def command_of(words: list[str]) -> tuple[Optional[Command], list[str]]:
    """The command, and the other words. Flags may come before it."""
    place = next((n for n, word in enumerate(words) if word in COMMANDS), None)
    if place is not None and all(word.startswith("-") or n and words[n - 1].startswith("-") for n, word in enumerate(words[:place])):
        return COMMANDS[words[place]], words[:place] + words[place + 1:]
    word = next((word for word in words if not word.startswith("-")), "")
    if words and (word or words[0] not in ("-h", "--help", "-V", "--version")):
        raise WrongWords(f"there is no command `{word or words[0]}`{hint(word or words[0], COMMANDS)}; there are {', '.join(COMMANDS)}")
    return None, words


def read(command: Command, words: Sequence[str]) -> argparse.Namespace:
    """What the words of a command say. `extra` has the words for cargo."""
    found = Parser(command).read(words)
    found.extra = [word for flag in command.all_flags() if flag.passed for word in flag.words(getattr(found, flag.name))]
    if len(found.words) < command.least:
        raise WrongWords(f"`{command.name}` takes {'a type' if command.name == 'traits' else 'a question'}: {command.about}")
    if not command.words and found.words:
        raise WrongWords(f"`{command.name}` takes no `{found.words[0]}`" + (f": is it a question? `{CALLED} ask '{found.words[0]}'`" if ": " in found.words[0] else ""))
    if found.exclude and not found.workspace:
        raise WrongWords("--exclude goes with --workspace alone")
    if found.jobs is not None and found.jobs < 1:
        raise WrongWords("--jobs takes a number from 1 on")
    found.jobs = found.jobs or os.cpu_count() or 1
    return found
