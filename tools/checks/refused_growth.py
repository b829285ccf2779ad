"""Each request for memory refused in turn, until a run makes fewer requests.

Each run of the built program but the last has to end with status 3 after a prefix of the output, the last one with the whole output. (A
run may also end well if the library, refused a list with room to spare, requests one without and gets it.) The output of the program that
explains has to have the lines of the answer in order, as far as it came. A test of the layers below has to end with the fault `Memory`
(also inside an equation's error, or as the allocator's own error, if the test itself made the request), or to pass if it repeats the
refused call. If no request is refused it has to pass. An explanation requests memory thousands of times, and a search that is given up tens
of thousands: of these each of the first 400 and 4,000 requests is refused, and then each 17th and 97th.

It needs a C compiler under the name cc. A program is run once for each request. A test is run once, and forks at each (tools/driver/refuse.c).
Examples and tests are tried side by side.
"""
from __future__ import annotations

import argparse
import os
import re
import tempfile
from concurrent.futures import ThreadPoolExecutor
from functools import partial
from pathlib import Path
from typing import Callable, Iterator, NamedTuple, Optional, Sequence

from .common import TOP, Ended, Limits, Missing, Tally, example, program, run
from .driver import driver, tests

ANSWERED = """two_crates_accepted orphan_impl an_uncovered_parameter a_local_type_is_not_num a_later_version_may_add_num
    where_clauses_are_proved refuted_and_open values_of_a_type_and_a_const values_with_variables later_versions_are_judged_apart
    a_supertrait_that_is_missing a_supertrait_that_is_there""".split()
EXPLAINED = "a_later_version_may_add_num orphan_impl values_with_variables".split()
# Tests that go through long lists of goals request memory too often, or compare a `Result`.
LONG = ("solver::rules::", "solver::walks::", "solver::worked::", "solver::inferring_by_lot::")
# Tests that refuse requests themselves, and look at whether they were.
REFUSING = "_after_a_refused_request"
MOST = 100000
OF_MEMORY = re.compile(rb"^[Ee]rror: (Fault\()*(Memory|Alloc)", re.M)
# The line of a report after the output of the test that was refused this request.
REQUEST = re.compile(rb"\nrequest (\d+): status (-?\d+)\n")


class Turn(NamedTuple):
    """A run with the request of that number refused, if it came so far."""

    number: int
    ended: Ended
    was_refused: bool


class Refusing:
    """What refuses a request for memory of the program that it is preloaded into."""

    def __init__(self, room: Path) -> None:
        self.object = room / "refuse_nth.so"
        source = TOP / "tools" / "refuse_nth.c"
        try:
            made = run(["cc", "-O2", "-shared", "-fPIC", "-Wall", "-Werror", "-o", self.object, source])
        except FileNotFoundError:
            raise Missing("tools/refuse_nth.c needs a C compiler under the name cc") from None
        if made.status:
            raise Missing(f"tools/refuse_nth.c does not compile: {made.errors.decode()}")

    def turns(self, name: str, words: Sequence[str], text: bytes = b"", dense: int = MOST, step: int = 1) -> Iterator[Turn]:
        """Runs the command with each request refused in turn, from the number `dense` on each one so many further."""
        number, was_refused, report = 1, True, self.object.with_name(f"{name}.report")
        while was_refused and number <= MOST:
            report.unlink(missing_ok=True)
            env = {**os.environ, "REFUSE_NTH": str(number), "REFUSE_REPORT": str(report), "LD_PRELOAD": str(self.object)}
            ended = run(words, text, env=env)
            was_refused = report.is_file()
            yield Turn(number, ended, was_refused)
            number += 1 if number < dense else step


def program_on(tally: Tally, refusing: Refusing, name: str) -> None:
    """The built program on an example."""
    it = example(name)
    expected, refused = it.expected(), 0
    for number, ended, was_refused in refusing.turns(name, [program("celtisdarts"), "8"], it.text):
        refused += was_refused
        is_whole = (ended.status, ended.output) == (0, expected)
        if was_refused:
            is_prefix = ended.status == 3 and expected.startswith(ended.output)
            fault = f"status {ended.status}, 3 is expected, and a prefix of the output"
            tally.expect(f"{name}, request {number} refused", is_whole or is_prefix, fault)
        else:
            tally.expect(f"{name}, none refused", is_whole and refused > 0, f"the run has status {ended.status}, after {refused} refusals")
            print(f"{name}: {refused} requests refused in turn, then the whole output")
    if refused == MOST:
        tally.report(name, f"each of {MOST} requests was refused, and the run had more")


def fault_of_explained(turn: Turn, expected: bytes) -> Optional[str]:
    lines = expected.splitlines()
    found = b"".join(line + b"\n" for line in turn.ended.output.splitlines() if line in lines)
    if turn.ended.status == 0 and found == expected or turn.ended.status == 3 and turn.was_refused and expected.startswith(found):
        return None
    return f"status {turn.ended.status}, or lines of the answer are missing"


def explained_on(tally: Tally, refusing: Refusing, name: str) -> None:
    """The built program with --explain, on an example."""
    it, last = example(name), 0
    for turn in refusing.turns(f"{name}.explained", [program("celtisdarts"), "--explain", "8"], it.text, 400, 17):
        tally.report(f"{name}, explained, request {turn.number} refused", fault_of_explained(turn, it.expected()))
        last = turn.number
    print(f"{name}, explained: requests refused in turn, up to the {last}th")


def test_on(tally: Tally, room: Path, name: str) -> int:
    """A test of the layers below; returns how many requests it was refused."""
    report = room / f"{name}.report"
    ended = run([driver(), name], limits=Limits(seconds=600), env={**os.environ, "REFUSE_EACH": str(report)})
    tally.expect(f"{name}, none refused", ended.status == 0, f"the test ends with status {ended.status}")
    parts = REQUEST.split(report.read_bytes())
    for output, number, status in zip(parts[0::3], parts[1::3], parts[2::3]):
        is_so = status == b"0" or OF_MEMORY.search(output) is not None
        tally.expect(f"{name}, request {int(number)} refused", is_so, f"the test ends with status {int(status)} and no fault of memory")
    return len(parts) // 3


def side_by_side(tally: Tally, cases: Sequence[Callable[[Tally], Optional[int]]]) -> int:
    """Tries the cases, each with a tally of its own, and adds these up. Returns the sum of what they return."""
    tallies = [Tally(tally.is_verbose) for _ in cases]
    with ThreadPoolExecutor(os.cpu_count()) as pool:
        returned = [it or 0 for it in pool.map(lambda case, own: case(own), cases, tallies)]
    tally.passed += sum(it.passed for it in tallies)
    tally.failed += sum(it.failed for it in tallies)
    return sum(returned)


def check(tally: Tally, _: argparse.Namespace) -> None:
    with tempfile.TemporaryDirectory() as folder:
        room = Path(folder)
        refusing = Refusing(room)
        explained = [partial(explained_on, refusing=refusing, name=name) for name in EXPLAINED]
        answered = [partial(program_on, refusing=refusing, name=name) for name in ANSWERED]
        side_by_side(tally, [*explained, *answered])
        of_tests = [partial(test_on, room=room, name=name) for name in tests() if not (name.startswith(LONG) or name.endswith(REFUSING))]
        requests = side_by_side(tally, of_tests)
    print(f"the tests of the layers below: {requests} requests refused in turn")
    tally.expect("the tests of the layers below", requests > 0, "no request was refused at all")
