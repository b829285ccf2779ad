"""Hostile texts, each made from a seed and its number: each is answered, or has a fault that the answer names.

    tools/check hostile                     4,000 texts
    tools/check hostile --texts 1000000     a million texts
    tools/check hostile --show 417          prints that text, and what runs it
    tools/check hostile --first 5000 --seed 7 --kind deep --depth 8 --program FILE
    tools/check hostile --bars              the bars alone
    tools/check hostile --waiting           with the kinds and bars that the program does not pass yet, or one of these by --kind

Whatever comes in, the program answers it or names a fault, within 10 seconds of its processor and 256 MB, and never dies by a
signal; a text of up to 1,024 bytes takes no more than a second, and one of up to 10 KB that works the search hard no more than a second
for each line of its answer. On a busy machine the same work takes several times as many seconds, so a run that took too long is
repeated twice, and the least of the three counts, divided by how much longer than usual the machine took for work of a known length.
Further tries for each text:

- If it is answered: there is a line for each crate, section, `supers` line and query, in the form that docs/FORMAT.md gives. The answers
  are the same with the queries in another order and comments and spaces between, with one query alone (with each alone, for some texts),
  without sections and lines `supers`, with sections that are cut in two before the breaking impl, and with the items of each crate in
  another order in which names are declared before they are used. Then the line of a crate and of its supertraits is of the same kind,
  since impls have other numbers.
- If it is faulty: the lines before the named one have no fault, and with the named one they have the same fault.

The kinds of texts: `crates` (whole ones, without faults), `mutated` (these and the examples with lines and words changed),
`deep` and `doubling` (types at the limits of depth, types and clauses that grow), `colliding` (names that meet), `bytes` (no text at
all), `cyclic` (impls that need each other), `growing` (types that grow by several rules at once), `growing_premises` (types that grow by
two or three premises), and once each the `wide` ones (some thousand items of a kind, and long lines). With `--waiting` there are
`multiplying` and `endless` (supertraits that multiply, some thousand or far too many, of a `dyn`, a where-clause and an impl), `asked` and
`stepping` (impls that need each other, with queries for all), `wide_clauses` (impls with up to 64 where-clauses that lead back or to
larger types) and `costly` (types that grow next to many impls or where-clauses, in width, or with lifetimes). Then types that grow are
queried at all depths.

In texts that are cyclic, grow or wait, an answer in another order may be `maybe` or `open` in place of another, since stored results of
other queries can leave more to try. So may an answer of any text whose items are in another order, if both orders have the same answers
at depth 255: if the depth cuts off one of two impls, it matters which comes first.

Before the texts come the bars (tools/texts/bars.py): if a text becomes at most four times as large, its answer takes at most six times as
long.

A bar or text that fails is counted once, and named with what is wrong.
"""
from __future__ import annotations

import argparse
import random
import re
import signal
import sys
import time
from typing import NamedTuple, Optional, Sequence

from texts import bars, runs

from .answers import FAULT, FAULTS, Answer, first_word, read_answer, statements
from .common import Ended, Limits, Tally, Wrong, program, run
from .makers import HARD, KINDS, WAITING, by_lot, count_wide, joined, wide_text

LIMITS = Limits(seconds=10, memory=256 * 1024 * 1024)
SMALL = 1024
# If a text works the search hard, each line of the answer may take a second, up to this size.
SMALL_AND_HARD = 10240
TEXT_LIMIT = 67108864
# How often a run that took too long is repeated.
AGAIN = 2
# Turns of a loop, and the seconds that they take on a machine with nothing else to do.
YARDSTICK, USUAL_SECONDS = 1_000_000, 0.05
# A text with more lines is only answered.
MOST_LINES = 1500
# In these kinds another answer may leave a query open.
LOOSE = ["cyclic", "growing", *(it.name for it in HARD + WAITING)]
# The greatest depth for these kinds, until a query costs less if types are deep or wide.
DEEPEST = {"growing": 20, "growing_premises": 64}
NAMES = re.compile(r"(?<![A-Za-z0-9_'?])[A-Za-z_][A-Za-z0-9_]*")
DECLARES = re.compile(r" *(?:fundamental +)?(?:auto +)?(?:struct|trait) +([A-Za-z_][A-Za-z0-9_]*)")
AUTO = re.compile(r" *(fundamental +)?auto ")
QUERY = re.compile(r" *(prove|refute) ")
QUERIES = ("prove", "refute")
Lines = list[str]


# ---- the parts of a text without a fault


class Block:
    """A crate with its items, or a section with its impls, and the lines `supers` among them."""

    def __init__(self, head: str) -> None:
        self.head = head
        self.items: Lines = []
        self.supers: Lines = []
        self.is_section = head.lstrip().startswith("later")


def declared_in(lines: Sequence[str]) -> dict[str, int]:
    """The names of structs and traits, with the indices of the lines that declare them."""
    return {found[1]: at for at, line in enumerate(lines) if (found := DECLARES.match(line))}


def names_later(lines: Lines, kinds: Sequence[str]) -> bool:
    """Whether a query uses a name, for its own parameter, that is declared later: then it stays where it is."""
    declared = declared_in(lines)
    queries = [(at, line) for at, (line, kind) in enumerate(zip(lines, kinds)) if kind in QUERIES]
    return any(declared.get(word, -1) > at for at, line in queries for word in NAMES.findall(line))


class Parts:
    """The lines of a text without a fault: blocks, and queries."""

    def __init__(self, lines: Lines, kinds: Sequence[str]) -> None:
        self.blocks = [Block("")]
        self.queries: Lines = []
        for line, kind in zip(lines, kinds):
            if kind in ("crate", "later"):
                self.blocks.append(Block(line))
            elif kind == "supers":
                self.blocks[-1].supers.append(line)
            elif kind in QUERIES:
                self.queries.append(line)
            elif kind:
                self.blocks[-1].items.append(line)
        self.is_movable = not names_later(lines, kinds) and not self.names_crates()

    def names_crates(self) -> bool:
        """Whether a query contains the name of another crate than its own."""
        crates = {block.head.split()[1] for block in self.blocks if block.head and not block.is_section}
        return any(crates & set(NAMES.findall(it)) - {it.split()[2]} for it in self.queries)

    def count_items(self) -> int:
        return sum(len(block.items) for block in self.blocks if not block.is_section)

    def has_checks(self) -> bool:
        return any(block.is_section or block.supers for block in self.blocks)

    def written(self, queries: Lines, mixed: Optional[random.Random] = None, is_checked: bool = True) -> Lines:
        """The text with these queries, with items in another order by `mixed`, and without sections and lines `supers` unless `is_checked`."""
        lines: Lines = []
        for block in self.blocks:
            if block.is_section and not is_checked:
                continue
            lines.append(block.head)
            lines += mixed_items(mixed, block.items) if mixed and not block.is_section else block.items
            lines += block.supers if is_checked else []
        return lines + queries

    def cut(self, rng: random.Random, checks: Sequence[str]) -> tuple[Lines, Lines]:
        """Each section as two, cut before the breaking impl or else anywhere, and their answers."""
        lines: Lines = []
        answers: Lines = []
        left = iter(checks)
        for block in self.blocks:
            lines.append(block.head)
            if block.is_section:
                verdict = next(left)
                at = rng.randrange(len(block.items) + 1) if verdict == "compatible" else int(verdict.split()[-1]) - 1
                lines += block.items[:at] + [block.head] + block.items[at:]
                answers += ["compatible", "compatible" if verdict == "compatible" else "breaking impl 1"]
            else:
                lines += block.items
            lines += block.supers
            answers += [next(left) for _ in block.supers]
        return lines + self.queries, answers


def items_before(items: Lines) -> list[set[int]]:
    """For each item those that stay before it: an item that contains the name of another one stays on the same side of it."""
    declared = declared_in(items)
    before: list[set[int]] = [set() for _ in items]
    autos: list[int] = []
    for at, item in enumerate(items):
        for word in NAMES.findall(item):
            other = declared.get(word, at)
            if other != at:
                before[max(at, other)].add(min(at, other))
        # the auto traits of a `dyn` are printed as they are declared
        if AUTO.match(item):
            before[at].update(autos[-1:])
            autos.append(at)
    return before


def mixed_items(rng: random.Random, items: Lines) -> Lines:
    """The items in another order."""
    before = items_before(items)
    left = list(range(len(items)))
    rng.shuffle(left)
    done: dict[int, None] = {}
    while left:
        at = next(it for it in left if before[it] <= done.keys())
        done[at] = None
        left.remove(at)
    return [items[it] for it in done]


def spaced(rng: random.Random, lines: Lines) -> Lines:
    """The same statements, with comments, empty lines and spaces between."""
    written: Lines = []
    for line in lines:
        if rng.random() < 0.1:
            written.append(rng.choice(["", "   ", "// a comment: crate x", "  //"]))
        written.append(line.replace(", ", " ,") if rng.random() < 0.2 else line)
    return written


# ---- the tries of a text


def slowness() -> float:
    """How many times as long as usual the machine takes now for work of a known length, and at least 1."""
    began = time.process_time()
    for _ in range(YARDSTICK):
        pass
    return max(1.0, (time.process_time() - began) / USUAL_SECONDS)


class Counts:
    """What is counted over all texts."""

    def __init__(self) -> None:
        self.answered = self.faulty = self.runs = self.differ = 0


class Made(NamedTuple):
    """A text of a kind, the state of the random numbers after it, and the depth."""

    kind: str
    rng: random.Random
    text: bytes
    depth: int


def is_open(*answers: str, words: Sequence[str] = ("maybe", "open")) -> bool:
    """Whether one of the answers leaves its query open."""
    return any(first_word(it) in words for it in answers)


class Trial:
    """The tries of one text."""

    def __init__(self, counts: Counts, answering: str, text: Made) -> None:
        self.counts, self.answering = counts, answering
        self.kind, self.rng, self.text, self.depth = text

    def ask(self, text: bytes, depth: int = 0) -> Ended:
        """The answer, or that a fault is named."""
        self.counts.runs += 1
        ended = run([self.answering, str(depth or self.depth)], text, LIMITS)
        if ended.status in (-signal.SIGXCPU, -signal.SIGKILL):
            raise Wrong(f"no answer within {LIMITS.seconds} s of the processor")
        if ended.status < 0:
            raise Wrong(f"died by signal {-ended.status}")
        if ended.status == 3:
            raise Wrong(f"status 3: no memory within {LIMITS.memory >> 20} MB, or a full table")
        if ended.status not in (0, 1):
            raise Wrong(f"status {ended.status}")
        return ended

    def agree(self, one: str, other: str) -> bool:
        """Whether two answers to one query may replace each other."""
        if one == other:
            return True
        if self.kind not in LOOSE or not is_open(one, other, words=("maybe", "open", "undecided")):
            return False
        self.counts.differ += 1
        return True

    def agree_on_checks(self, one: str, other: str, is_mixed: bool) -> bool:
        """The same for sections and supertraits. If items are in another order, impls have other numbers."""
        if is_mixed and first_word(one) in ("held", "missing", "undecided") and "held" not in (one, other):
            return True
        return self.agree(one, other)

    def agree_deeper(self, lines: Lines, original: Lines) -> bool:
        """Whether both texts have the same answers if the depth cuts nothing off. A goal that met an overflow gives its further nested goals
        less depth, so which of two impls comes first can decide between `yes` and `maybe` at a small one."""
        runs_of_both = [self.ask(joined(it), 255) for it in (lines, original)]
        if any(it.status != 0 for it in runs_of_both):
            return False
        one, other = (read_answer(it, statements(it), ended.output) for it, ended in zip((lines, original), runs_of_both))
        self.counts.differ += 1
        return one.answers == other.answers

    def same(self, lines: Lines, expected: Answer, what: str, original: Optional[Lines] = None) -> None:
        """The text has to have this answer, or with items in another order than the original, one that may replace it."""
        ended = self.ask(joined(lines))
        if ended.status != 0:
            raise Wrong(f"{what}: {ended.output.decode().strip()}")
        other = read_answer(lines, statements(lines), ended.output)
        if other.verdicts != expected.verdicts and (not original or [*map(first_word, other.verdicts)] != [*map(first_word, expected.verdicts)]):
            raise Wrong(f"{what}: {other.verdicts} in place of {expected.verdicts}")
        if not all(self.agree_on_checks(one, before, bool(original)) for one, before in zip(other.checks, expected.checks)):
            raise Wrong(f"{what}: {other.checks} in place of {expected.checks}")
        for at, (one, before) in enumerate(zip(other.answers, expected.answers)):
            if not self.agree(one, before) and not (original and is_open(one, before) and self.agree_deeper(lines, original)):
                query = [it for it in lines if QUERY.match(it)][at]
                raise Wrong(f"{what}: '{one}' in place of '{before}' to '{query}'")

    def check(self) -> None:
        ended = self.ask(self.text)
        self.check_time(ended)
        if ended.status == 1:
            self.counts.faulty += 1
            self.check_fault(ended.output)
        else:
            self.counts.answered += 1
            self.check_answer(ended.output)

    def check_time(self, ended: Ended) -> None:
        """A small text takes no more than a second, or one for each line of the answer if it works the search hard."""
        size, lines = len(self.text), max(ended.output.count(b"\n"), 1)
        most = 1 if size <= SMALL and self.kind not in LOOSE else lines
        if size > SMALL_AND_HARD or ended.seconds <= most:
            return
        least = min(self.ask(self.text).seconds / slowness() for _ in range(AGAIN))
        if least > most:
            raise Wrong(f"{least:.1f} s for {size} bytes and {lines} lines of an answer")

    def check_answer(self, output: bytes) -> None:
        if not self.text.isascii():
            raise Wrong("an answer to a text with a byte of 128 or more")
        lines = self.text.decode("ascii").split("\n")
        kinds = statements(lines)
        answer = read_answer(lines, kinds, output)
        if len(lines) > MOST_LINES:
            return
        parts = Parts(lines, kinds)
        if not parts.is_movable:
            return
        self.check_queries(parts, answer)
        if parts.count_items() > 1:
            self.same(parts.written(parts.queries, mixed=self.rng), answer, "items in another order", parts.written(parts.queries))
        if parts.has_checks():
            self.same(parts.written(parts.queries, is_checked=False), answer._replace(checks=[]), "no section and no line `supers`")
            lines, checks = parts.cut(self.rng, answer.checks)
            self.same(lines, answer._replace(checks=checks), "sections cut in two")

    def check_queries(self, parts: Parts, answer: Answer) -> None:
        answers, rng = answer.answers, self.rng
        if len(answers) > 1:
            order = list(range(len(answers)))
            if rng.random() < 0.3:
                order.reverse()
            else:
                rng.shuffle(order)
            moved = spaced(rng, parts.written([parts.queries[k] for k in order]))
            self.same(moved, answer._replace(answers=[answers[k] for k in order]), "queries in another order")
        if answers:
            for k in range(len(answers)) if rng.random() < 0.15 else [rng.randrange(len(answers))]:
                self.same(parts.written([parts.queries[k]]), answer._replace(answers=[answers[k]]), "a query alone")

    def check_fault(self, output: bytes) -> None:
        found = FAULT.fullmatch(output)
        if not found or int(found[2]) not in FAULTS:
            raise Wrong(f"status 1 with '{output.decode().strip()}'")
        if len(self.text) > TEXT_LIMIT:
            return
        line, lines = int(found[1]), self.text.split(b"\n")
        if not 1 <= line <= len(lines):
            raise Wrong(f"line {line} of {len(lines)} named")
        before = self.ask(b"\n".join(lines[: line - 1]))
        if before.status != 0:
            raise Wrong(f"without the named line: '{before.output.decode().strip()}' in place of an answer")
        named = self.ask(b"\n".join(lines[:line])) if line < len(lines) else None
        if named and named.output != output:
            raise Wrong(f"up to the named line: '{named.output.decode().strip()}' in place of '{output.decode().strip()}'")


# ---- words


def made(given: argparse.Namespace, number: int) -> Made:
    """The text of that number."""
    rng = random.Random(f"{given.seed}:{number}")
    if given.kind in (None, "wide") and number <= count_wide():
        return Made("wide", rng, wide_text(number), 8)
    kinds = [it for it in KINDS + HARD + WAITING if it.name == given.kind]
    kind, text = by_lot(rng, kinds or KINDS + HARD + WAITING * given.waiting)
    depth = rng.choice([8, 8, 8, 8, 1, 2, 5, 20, 64, 128, 255])
    return Made(kind, rng, text, given.depth or (depth if given.waiting else min(depth, DEEPEST.get(kind, depth))))


def show(given: argparse.Namespace) -> None:
    one = made(given, given.show)
    sys.stdout.buffer.write(one.text)
    print(f"tools/check hostile: text {given.show}, of the kind {one.kind}, at depth {one.depth}", file=sys.stderr)
    sys.exit(0)


def add_words(reader: argparse.ArgumentParser) -> None:
    reader.add_argument("--texts", type=int, default=4000)
    reader.add_argument("--first", type=int, default=1)
    reader.add_argument("--seed", default="1")
    reader.add_argument("--kind", choices=["wide", *(it.name for it in KINDS + HARD + WAITING)])
    reader.add_argument("--depth", type=int)
    reader.add_argument("--waiting", action="store_true")
    reader.add_argument("--bars", action="store_true")
    reader.add_argument("--show", type=int)
    reader.add_argument("--program")


def try_bars(tally: Tally, answering: str, is_waiting: bool) -> None:
    limits = runs.Limits(LIMITS.seconds, LIMITS.memory)
    for bar in bars.STANDING + bars.WAITING * is_waiting:
        tally.report(f"bar '{bar.name}'", bars.fault_of(answering, bar, limits))


def check(tally: Tally, given: argparse.Namespace) -> None:
    if given.show:
        show(given)
    answering, counts, began = given.program or program("celtisdarts"), Counts(), time.time()
    if given.bars or not given.kind and given.first == 1:
        try_bars(tally, answering, given.waiting)
    if given.bars:
        return
    for number in range(given.first, given.first + given.texts):
        one = made(given, number)
        tally.hold(f"text {number} ({one.kind}, {len(one.text)} bytes, depth {one.depth})", Trial(counts, answering, one).check)
        if given.texts > 10000 and number % 10000 == 0:
            print(f"tools/check hostile: {number} texts after {time.time() - began:.0f} s", flush=True)
    print(f"{counts.answered} texts answered, {counts.faulty} with a fault, {counts.runs} runs, {time.time() - began:.0f} s")
    if counts.differ:
        print(f"{counts.differ} answers to texts that are cyclic, grow, wait or are cut off are others in another order")
