"""Standard error: what is noted, warned of and failed, and the progress, which is on a terminal alone."""
from __future__ import annotations

import os
import sys

ALWAYS, NEVER, AUTO = COLOURS = ("always", "never", "auto")
BOLD, RED, YELLOW, GREEN, CYAN, BLUE, END = ("\x1b[1m", "\x1b[1;91m", "\x1b[1;93m", "\x1b[1;92m", "\x1b[1;96m", "\x1b[1;94m", "\x1b[0m")
ERASE = "\r\x1b[K"
LEVELS = {"error": RED, "warning": YELLOW, "note": BOLD, "help": CYAN}


def is_coloured(choice: str, is_terminal: bool) -> bool:
    """By `--color`, then by cargo's variable; else colours are for terminals, unless NO_COLOR is set."""
    if choice == AUTO:
        choice = os.environ.get("CARGO_TERM_COLOR", AUTO)
    return choice == ALWAYS or choice != NEVER and is_terminal and not os.environ.get("NO_COLOR") and os.environ.get("TERM") != "dumb"


class Console:
    """`name` comes before each line of a script; a subcommand of cargo has the level there, as cargo's own lines do."""

    def __init__(self) -> None:
        self.begin("from-rustdoc")

    def begin(self, name: str, color: str = AUTO, is_quiet: bool = False) -> None:
        """Of one call."""
        self.name = name
        self.color = color
        self.is_quiet = is_quiet
        self.is_progress_there = False

    @property
    def is_coloured(self) -> bool:
        return is_coloured(self.color, sys.stderr.isatty())

    @property
    def has_progress(self) -> bool:
        return sys.stderr.isatty() and not self.is_quiet and os.environ.get("TERM") != "dumb" and os.environ.get("CARGO_TERM_PROGRESS_WHEN") != NEVER

    def note(self, text: str) -> None:
        """What is reported unless the call is quiet."""
        if not self.is_quiet:
            self.line("note", text)

    def warn(self, text: str) -> None:
        self.line("warning", text)

    def fail(self, text: str) -> None:
        self.line("error", text)

    def line(self, level: str, text: str) -> None:
        if not self.name.startswith("cargo"):
            self.write(f"{self.name}: {'warning: ' if level == 'warning' else ''}{text}\n")
        else:
            self.write(f"{LEVELS[level]}{level}{END}: {text}\n" if self.is_coloured else f"{level}: {text}\n")

    def progress(self, text: str) -> None:
        """Takes the place of what was said of the progress before."""
        if self.has_progress:
            width = columns()
            sys.stderr.write(ERASE + (text if len(text) < width else text[:width - 4] + "..."))
            sys.stderr.flush()
            self.is_progress_there = True

    def clear(self) -> None:
        """Before anything else is written to the terminal."""
        if self.is_progress_there:
            sys.stderr.write(ERASE)
            sys.stderr.flush()
            self.is_progress_there = False

    def write(self, text: str) -> None:
        self.clear()
        sys.stderr.write(text)
        sys.stderr.flush()


def columns() -> int:
    import shutil
    return shutil.get_terminal_size().columns


console = Console()
