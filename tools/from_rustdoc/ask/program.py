"""Has the program answer a text, in this process where the library is there, and reads its answer."""
from __future__ import annotations

import functools
import itertools
import json
import os
import re
import subprocess
from dataclasses import dataclass, field
from types import ModuleType
from typing import Any, Callable, Optional

from ..read.proved import LIBRARY, TOP, cache_folder, proved_program
from ..read.terms import BadInput
from . import library
from .library import Fault, NoAnswer

# As deep as rustc goes if a crate does not say otherwise (`recursion_limit`).
DEPTH = 128
# So many texts with queries are answered by runs of the program: to load the library takes longer than these.
FEW = 4
ASKED = itertools.count()


@dataclass
class Answer:
    """What the program prints: verdicts by crate, the words on queries and releases, and the values after the queries' words."""
    crates: dict[str, str] = field(default_factory=dict)
    questions: list[str] = field(default_factory=list)
    values: list[str] = field(default_factory=list)
    releases: list[str] = field(default_factory=list)

    def refusals(self) -> dict[str, str]:
        return {crate: verdict for crate, verdict in self.crates.items() if verdict != "accepted"}


@functools.lru_cache(maxsize=None)
def binding() -> Optional[ModuleType]:
    """The binding over the library of the sources that are here, or over that which is named. None if there is none."""
    return library.binding(None if os.environ.get(library.NAMED) else proved_program(LIBRARY), cache_folder())


def program_path(given: Optional[str]) -> list[str]:
    """The command that answers texts: a proved program, or the script that compiles one for each call."""
    return [given or proved_program() or os.path.join(TOP, "celtisdarts")]


def run(text: str, program: Optional[str] = None, depth: int = DEPTH) -> Answer:
    """The answers to a text, by the program if one is named; an error where there are none, since a text of this translator has no fault."""
    found = None if program else binding()
    return answered(lambda: printed(text, program, depth) if found is None else library.run(found, text, depth))


def ask(text: str, lines: list[str], program: Optional[str] = None, depth: int = DEPTH) -> Answer:
    """The answers to query lines after a text. Verdicts on its crates may be left out."""
    is_run = program or next(ASKED) < FEW and proved_program()
    found = None if is_run else binding()
    if found is None:
        return answered(lambda: printed(text + "".join(line + "\n" for line in lines), program, depth))
    return answered(lambda: "".join(library.ask(found, text, line, depth) for line in lines))


def answered(output: Callable[[], str]) -> Answer:
    try:
        return read_answer(output())
    except Fault as error:
        raise BadInput(f"the program found a fault in the text, which is a mistake of the translator: {error}")
    except NoAnswer as error:
        raise BadInput(str(error))


def printed(text: str, program: Optional[str], depth: int) -> str:
    """What a run of the program prints."""
    done = subprocess.run(program_path(program) + [str(depth)], input=text.encode("ascii"), stdout=subprocess.PIPE, stderr=subprocess.PIPE)
    output = done.stdout.decode("ascii", "replace")
    if done.returncode == 1:
        number = int(re.findall(r"line (\d+)", output)[0])
        raise Fault(f"{output.strip()}: `{text.splitlines()[number - 1]}`")
    if done.returncode != 0:
        raise NoAnswer(f"the program ended with status {done.returncode}: {done.stderr.decode('utf-8', 'replace').strip()}")
    return output


def explaining(program: Optional[str] = None) -> Optional[str]:
    """The program that explains: the one that is named, else the proved one that is here, if there is one."""
    return program or proved_program()


def explain(text: str, program: Optional[str] = None, depth: int = DEPTH) -> list[dict[str, Any]]:
    """What the program that explains says of each line of its answer, as its JSON has it. Nothing if there is no such program."""
    found = explaining(program)
    if found is None:
        return []
    done = subprocess.run([found, str(depth), "--explain", "--json"], input=text.encode("ascii"), stdout=subprocess.PIPE, stderr=subprocess.PIPE)
    if done.returncode not in (0, 4):
        return []
    return [json.loads(line) for line in done.stdout.decode("ascii", "replace").splitlines()]


def read_answer(output: str) -> Answer:
    answer = Answer()
    for line in output.splitlines():
        head, _, rest = line.partition(": ")
        if head.startswith("crate "):
            answer.crates[head[len("crate "):]] = rest
        elif head.startswith("later "):
            answer.releases.append(rest)
        else:
            word, _, values = rest.partition(" ")
            answer.questions.append(word)
            answer.values.append(values)
    return answer
