"""Runs a program on a text within limits of processor time and memory, and measures both."""
from __future__ import annotations

import os
import resource
import signal
import tempfile
from dataclasses import dataclass
from typing import IO, Mapping, Optional

HERE = os.path.dirname(os.path.dirname(os.path.dirname(os.path.realpath(__file__))))
BUILT = os.path.join(HERE, "crates", "celtisdarts", "out", "celtisdarts")
RELEASED = os.path.join(HERE, "release", "celtisdarts")
GNU_TIME = "/usr/bin/time"


@dataclass(frozen=True)
class Limits:
    """How many seconds of the processor and how many bytes of memory a child may take."""

    seconds: int
    memory: int


@dataclass(frozen=True)
class Run:
    """What a child did: its exit status, or why it has none; seconds of the processor, kilobytes at most, and what it wrote."""

    status: Optional[int]
    stopped: str
    seconds: float
    peak: Optional[int]
    output: bytes


def program_here() -> str:
    """The program that was built here, or else that of release/."""
    return BUILT if os.access(BUILT, os.X_OK) else RELEASED


def limits_of(limits: Limits) -> list[tuple[int, tuple[int, int]]]:
    """What the limits are called."""
    processor = (limits.seconds, limits.seconds + 1)
    return [(resource.RLIMIT_CPU, processor), (resource.RLIMIT_AS, (limits.memory, limits.memory)), (resource.RLIMIT_CORE, (0, 0))]


def start(words: list[str], files: list[IO[bytes]], extra: Mapping[str, str], limits: Limits) -> int:
    """Begins a program, and limits it when it has begun: so a child of its own may have begun unlimited, if it has any."""
    actions = [(os.POSIX_SPAWN_DUP2, file.fileno(), number) for number, file in enumerate(files)]
    child = os.posix_spawnp(words[0], words, {**os.environ, **extra}, file_actions=actions)
    try:
        for name, limit in limits_of(limits):
            resource.prlimit(child, name, limit)
    except ProcessLookupError:
        pass  # it has ended
    return child


def start_limited(words: list[str], files: list[IO[bytes]], extra: Mapping[str, str], limits: Limits) -> int:
    """Begins a program that is limited from its first instruction on, with all its children; this takes some more."""
    child = os.fork()
    if child != 0:
        return child
    try:
        for name, limit in limits_of(limits):
            resource.setrlimit(name, limit)
        for number, file in enumerate(files):
            os.dup2(file.fileno(), number)
        os.execvpe(words[0], words, {**os.environ, **extra})
    finally:
        os._exit(127)


def reason_of(number: int, seconds: float, limits: Limits) -> str:
    """Why a child that a signal ended was ended."""
    if number == signal.SIGXCPU or (number == signal.SIGKILL and seconds > limits.seconds - 1):
        return "time"
    return f"signal {number}"


def wait_for(child: int, limits: Limits) -> tuple[Optional[int], str, float]:
    """The exit status, or why there is none, and the seconds of the processor."""
    _, code, used = os.wait4(child, 0)
    seconds = used.ru_utime + used.ru_stime
    if os.WIFSIGNALED(code):
        return None, reason_of(os.WTERMSIG(code), seconds, limits), seconds
    return os.WEXITSTATUS(code), "", seconds


def read_peak(path: str) -> tuple[Optional[int], Optional[int]]:
    """The kilobytes that GNU time wrote, and the signal that ended what it ran, if one did."""
    with open(path, encoding="ascii") as file:
        lines = file.read().split("\n")
    ended = [int(line.split()[-1]) for line in lines if line.startswith("Command terminated by signal")]
    peaks = [int(line) for line in lines if line.isdigit()]
    return (peaks[-1] if peaks else None), (ended[0] if ended else None)


def run_words(words: list[str], text: IO[bytes], limits: Limits, extra: Optional[Mapping[str, str]] = None, with_peak: bool = False) -> Run:
    """Runs the words on the text. The peak is from GNU time, since the figure of wait4 for a child begins with the size of its parent."""
    timed = with_peak and os.access(GNU_TIME, os.X_OK)
    with tempfile.TemporaryFile() as output, tempfile.NamedTemporaryFile() as peak_file, open(os.devnull, "wb") as nowhere:
        text.seek(0)
        front = [GNU_TIME, "-f", "%M", "-o", peak_file.name] if timed else []
        child = (start_limited if timed else start)(front + words, [text, output, nowhere], extra or {}, limits)
        status, stopped, seconds = wait_for(child, limits)
        peak, ended = read_peak(peak_file.name) if timed else (None, None)
        if ended is not None:
            status, stopped = None, reason_of(ended, seconds, limits)
        output.seek(0)
        return Run(status, stopped, seconds, peak, output.read())


def run_program(program: str, depth: int, text: bytes, limits: Limits, with_peak: bool = False) -> Run:
    """Runs a program of this repository on a text."""
    with tempfile.TemporaryFile() as file:
        file.write(text)
        file.flush()
        return run_words([program, str(depth)], file, limits, with_peak=with_peak)
