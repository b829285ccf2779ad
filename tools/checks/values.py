"""Texts with types of traits: the answers to those of texts/values, to the lines that they stand for, and those of rustc.

    tools/check values                       the texts of texts/values, and 100 made from a seed
    tools/check values --texts 500 --rustc   500 made from a seed, which are compared with rustc too
    tools/check values --show 417            prints that text
    tools/check values --first 417 --texts 1 --program FILE

To texts/values/NAME.txt the program has to answer NAME.expected, which was worked out by hand. The plain lines that a text stands for
(tools/texts/plain_lines.py) have the same answer, but for the numbers of impls.

If rustc 1.95 is there its new solver is asked the same of texts/values: whether it refuses each crate, by which rule and at which impl, each
`prove` with its values, each `refute`, and the supertraits. Where it says something else, a comment on the line before says what, as in
`// rustc: maybe`, and docs/DIFFERENCES.md why. A faulty line may have the code of rustc's error there. Of a crate that rustc refuses,
and of those that use it, nothing else is compared. Of a text from a seed, differences of the kinds in `is_known` are passed over.
"""
from __future__ import annotations

import argparse
import re
import sys
import tempfile
from concurrent.futures import ThreadPoolExecutor
from functools import partial
from typing import Iterator, NamedTuple, Optional, Sequence

from texts.plain_lines import Plain
from texts.rust_answers import OPEN_VALUE, Answer, Rustc, codes_of_last, rust_answers
from texts.rustc import find_rustc, version_of
from texts.values import values_text

from .answers import FAULT
from .common import TOP, Ended, Tally, Wrong, difference, program, run

FOLDER = TOP / "texts/values"
DEPTH = "32"
RELEASE, SOLVER = "1.95.", "next"
NOTE = re.compile(r"// rustc: (.*)")
COUNTED = ("prove", "refute")
NUMBERS = re.compile(r"\d+")


class Case(NamedTuple):
    """A text, what the program has to answer, if that is known, and whether rustc is asked."""

    name: str
    lines: Sequence[str]
    expected: Optional[bytes]
    with_rustc: bool

    @property
    def text(self) -> bytes:
        return "".join(f"{line}\n" for line in self.lines).encode("ascii")


def answers_in(output: str) -> list[Answer]:
    return [Answer(of, says) for of, _, says in (line.partition(": ") for line in output.splitlines())]


def notes_of(lines: Sequence[str]) -> dict[str, str]:
    """What rustc says otherwise, by what the line is about. That of a faulty line is by its number."""
    found, asked, note = {}, 0, ""
    for number, line in enumerate(lines, 1):
        first, second, *more = [*line.split(), "", ""]
        asked += first in COUNTED
        if note:
            of = {"crate": f"crate {second}", "supers": f"supers {more[0]}", "prove": f"prove {asked}", "refute": f"refute {asked}"}
            found[of.get(first, f"line {number}")] = note
        told = NOTE.fullmatch(line)
        note = told[1] if told else ""
    return found


def is_alike(answer: Answer, said: str) -> bool:
    """Whether rustc says the same as the program. Of an overlap it names each impl that it refuses, of supertraits the first impl."""
    if answer.says.startswith(("orphan", "missing")):
        return " ".join(answer.says.split()[:3]) == said
    if answer.says.startswith("overlap"):
        own = [NUMBERS.findall(answer.says)[0]]
        words = answer.says.split()
        own += [words[-1]] if f"crate {words[-2]}" == answer.of else []
        return said.startswith("overlap") and bool(set(own) & set(NUMBERS.findall(said)))
    if said == OPEN_VALUE:
        return answer.says.startswith(("yes", "maybe"))
    return answer.says.split(" ")[0] == said


def is_known(case: Case, answer: Answer, said: str) -> bool:
    """Whether a line of a text by lot may differ: rustc has an error that is none of coherence or of the bound, or docs/DIFFERENCES.md has
    it. There are pairs with a binding in a where-clause, and queries that a value, two of them or a supertrait decides."""
    if said.startswith("E0"):
        return True
    if answer.says == "accepted" and said.startswith("overlap"):
        return any("=" in line.partition(" where ")[2].partition("{")[0] for line in case.lines if line.startswith("impl"))
    if answer.says == "open" and said == "no":
        return "=" in line_of(case, answer.of)
    return said == "maybe" and "=" in line_of(case, answer.of)


def line_of(case: Case, of: str) -> str:
    """The line of that query."""
    queries = [line for line in case.lines if line.startswith(COUNTED)]
    return queries[int(of.split()[1]) - 1] if of.startswith(COUNTED) else ""


def hold_plain(path: str, case: Case, answered: Ended) -> None:
    """The plain lines have the same answer, if no line has a fault."""
    if FAULT.fullmatch(answered.output):
        return
    plain = Plain(case.lines)
    found = run([path, DEPTH], "".join(f"{line}\n" for line in plain.lines).encode("ascii"))
    fault = difference(answered.output, plain.answer(found.output.decode("ascii")).encode("ascii"))
    if fault:
        raise Wrong(f"the plain lines have another answer: {fault}")


def differences(case: Case, answers: Sequence[Answer], said: dict[str, str]) -> Iterator[str]:
    """Each line on which rustc does not say what it should."""
    notes = notes_of(case.lines)
    for answer in answers:
        told = said.get(answer.of)
        if told is None:
            continue
        note = notes.get(answer.of)
        if note is None and not is_alike(answer, told) and not (case.expected is None and is_known(case, answer, told)):
            yield f"'{answer.of}: {answer.says}', and rustc says '{told}'"
        if note is not None and told != note:
            yield f"'{answer.of}: {answer.says}', rustc says '{told}', and '{note}' is noted"


def hold_rustc(rustc: str, case: Case, answered: Ended) -> None:
    """rustc says the same of each line that it decides, or what is noted."""
    faulty = FAULT.fullmatch(answered.output)
    with tempfile.TemporaryDirectory() as folder:
        compiler = Rustc(rustc, SOLVER, folder)
        if faulty:
            number = int(faulty[1])
            note = notes_of(case.lines).get(f"line {number}")
            codes = codes_of_last(compiler, case.lines[:number]) if note else set()
            if note and note.split(" ") != (sorted(codes) or ["accepted"]):
                raise Wrong(f"rustc has {sorted(codes)} in line {number}, and '{note}' is noted")
            return
        answers = answers_in(answered.output.decode("ascii"))
        found = list(differences(case, answers, rust_answers(compiler, case.lines, answers)))
    if found:
        raise Wrong("\n    ".join(found))


class Found(Tally):
    """Cases that are counted later."""

    def __init__(self) -> None:
        super().__init__()
        self.found: list[tuple[str, Optional[str]]] = []

    def report(self, name: str, fault: Optional[str]) -> bool:
        self.found.append((name, fault))
        return not fault


def try_case(path: str, rustc: Optional[str], case: Case) -> list[tuple[str, Optional[str]]]:
    """Each try of a text, with its fault."""
    answered = run([path, DEPTH], case.text)
    tally = Found()
    if case.expected is not None:
        tally.report(case.name, difference(answered.output, case.expected))
    tally.hold(f"{case.name}, its plain lines", partial(hold_plain, path, case, answered))
    if rustc and case.with_rustc:
        tally.hold(f"{case.name}, by rustc", partial(hold_rustc, rustc, case, answered))
    return tally.found


def kept() -> Iterator[Case]:
    for file in sorted(FOLDER.glob("*.txt")):
        lines = file.read_text(encoding="ascii").splitlines()
        yield Case(f"values {file.stem}", lines, file.with_suffix(".expected").read_bytes(), True)


def by_lot(number: int, with_rustc: bool) -> Case:
    return Case(f"text {number} by lot", values_text(f"values {number}"), None, with_rustc)


def add_words(reader: argparse.ArgumentParser) -> None:
    reader.add_argument("--texts", type=int, default=100)
    reader.add_argument("--first", type=int, default=1)
    reader.add_argument("--program", metavar="FILE")
    reader.add_argument("--rustc", action="store_true")
    reader.add_argument("--jobs", type=int, default=4)
    reader.add_argument("--show", type=int, metavar="NUMBER")


def check(tally: Tally, given: argparse.Namespace) -> None:
    if given.show is not None:
        sys.stdout.buffer.write(by_lot(given.show, False).text)
        return
    path, rustc = given.program or program("celtisdarts"), find_rustc()
    if not rustc or not version_of(rustc).startswith(RELEASE):
        print(f"tools/check values: there is no rustc {RELEASE}*, so nothing is compared with it", file=sys.stderr)
        rustc = None
    cases = [*kept(), *(by_lot(number, given.rustc) for number in range(given.first, given.first + given.texts))]
    with ThreadPoolExecutor(given.jobs) as pool:
        for found in pool.map(partial(try_case, path, rustc), cases):
            for name, fault in found:
                tally.report(name, fault)
