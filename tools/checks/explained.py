"""The option --explain: whatever it says, the lines of the answer are those without it.

    tools/check explained                   each example, 200 hostile texts, each of the wide ones, and five of 1 MiB
    tools/check explained --texts 20000 --seed 2
    tools/check explained --show 17         prints that text

Of each text: the exit status is that without it; as JSON each line is an object with the keys of `rustc --error-format=json`
and `answer`, and these answers are the lines without it, in their order; as text it prints the same answers, with what is `rendered`
after each; no row of an excerpt or of a proof has more than 100 columns. It takes at most three times as much of the processor as
without it, half a second, and a second for each 10 MB that it prints, within 10 seconds and 512 MB. For an example it prints the same text
with colours, with nothing but colours added. A text of 100,000 bytes and more is not tried as JSON: the lines of the answer have to be in
the output, in their order.

The line before the last has the text that took longest, and the time of its answer.
"""
from __future__ import annotations

import argparse
import random
import re
import sys
from functools import partial
from typing import Iterator, NamedTuple

from .common import Ended, Limits, Tally, Wrong, examples, program, run
from .explained_json import read_lines, text_of
from .makers import KINDS, Lines, by_lot, joined, wide_texts

LIMITS = Limits(seconds=10, memory=512 * 1024 * 1024)
COLUMNS = 100
LARGE = 100000
PRINTED_IN_A_SECOND = 10_000_000
COLOR = re.compile(rb"\x1b\[[0-9]+m")
ROW = re.compile(rb" *[0-9]* *\|")
PROOF = re.compile(rb" *= proof: ")


class Text(NamedTuple):
    """A text by its name, and the depth of its run."""

    name: str
    text: bytes
    depth: str
    is_colored: bool = False


def rows_of(printed: bytes) -> Iterator[bytes]:
    """The rows of excerpts and of proofs. The first of a proof says so, and the others are indented as far."""
    indent = b""
    for row in printed.split(b"\n"):
        first = PROOF.match(row)
        if first:
            indent = b" " * first.end()
        elif not row.startswith(indent):
            indent = b""
        if indent or ROW.match(row):
            yield row


class Checks:
    """The program, and which text took the longest."""

    def __init__(self, given: argparse.Namespace) -> None:
        self.path = given.program or program("celtisdarts")
        self.slowest = (0.0, 0.0, "")

    def run(self, it: Text, *words: str) -> Ended:
        ended = run([self.path, it.depth, *words], it.text, LIMITS)
        if ended.status < 0:
            raise Wrong(f"{' '.join([it.depth, *words])} died by signal {-ended.status}")
        return ended

    def check(self, it: Text) -> None:
        answer, printed = self.run(it), self.run(it, "--explain")
        self.slowest = max(self.slowest, (printed.seconds, answer.seconds, it.name))
        if printed.seconds > 3 * answer.seconds + 0.5 + len(printed.output) / PRINTED_IN_A_SECOND:
            raise Wrong(f"{printed.seconds:.2f} s, where the answer takes {answer.seconds:.2f}")
        if printed.status != answer.status:
            raise Wrong(f"status {printed.status}, where the answer has {answer.status}")
        for row in rows_of(printed.output):
            if len(row) > COLUMNS:
                raise Wrong(f"a row of {len(row)} columns: {row[:60]!r}")
        if len(it.text) < LARGE:
            self.check_json(it, answer, printed.output)
        else:
            check_lines(answer.output, printed.output)
        if it.is_colored and COLOR.sub(b"", self.run(it, "--explain", "--color", "always").output) != printed.output:
            raise Wrong("with colours another text")

    def check_json(self, it: Text, answer: Ended, printed: bytes) -> None:
        ended = self.run(it, "--explain", "--json")
        if ended.status != answer.status:
            raise Wrong(f"status {ended.status} as JSON, where the answer has {answer.status}")
        objects = read_lines(ended.output)
        if "".join(f"{one.answer}\n" for one in objects if one.answer).encode("ascii") != answer.output:
            raise Wrong("other lines than those of the answer")
        if text_of(objects).encode("ascii") != printed:
            raise Wrong("JSON and text differ")


def check_lines(lines: bytes, printed: bytes) -> None:
    rows = iter(printed.split(b"\n"))
    if not all(line in rows for line in lines.splitlines()):
        raise Wrong("lines of the answer are missing")


def large_texts() -> Iterator[Lines]:
    """Texts of some 1 MiB each: queries that hold, that fail deep down, that stay open, crates that use one another, and a fault in the last line."""
    head = ["crate base", "trait Show", "trait Num", "struct V<T>"]
    head += ["impl<T> Show for V<T> where T: Show", "impl Show for u8", "impl<T> Num for &T where T: Num"]
    yield head + ["prove in base V<V<V<V<V<V<u8>>>>>>: Show"] * 24000
    yield head + [f"prove in base V<V<[u8; {k}]>>: Show" for k in range(26000)]
    yield head + [it for k in range(13000) for it in (f"prove in base V<?x{k}>: Show", f"refute in base &[u8; {k}]: Num")]
    items = {c: [it for k in range(1900) for it in (f"struct A{c}_{k}", f"impl T{c} for A{c}_{k}")] for c in range(1, 16)}
    yield [it for c in items for it in [f"crate c{c}" + (f" uses c{c - 1}" if c > 1 else ""), f"trait T{c}", *items[c]]]
    yield head + [f"struct S{k}(V<u8>)" for k in range(4000)] + ["// " + "x" * 900] * 1000 + ["impl Show for Unknown"]


def made(seed: str, number: int) -> tuple[str, bytes, int]:
    """A hostile text, by its kind, and the depth of its run."""
    rng = random.Random(f"{seed}:explained:{number}")
    kind, text = by_lot(rng, KINDS)
    return kind, text, rng.choice([8, 8, 8, 1, 2, 20, 64])


def texts(given: argparse.Namespace) -> Iterator[Text]:
    for example in examples():
        yield Text(f"example {example.name}", example.text, example.depths[0], True)
    for number in range(1, given.texts + 1):
        kind, text, depth = made(given.seed, number)
        yield Text(f"text {number} ({kind})", text, str(depth))
    for name, several in (("wide", wide_texts()), ("large", large_texts())):
        for number, lines in enumerate(several, 1):
            yield Text(f"{name} text {number}", joined(lines), "8")


def show(given: argparse.Namespace) -> None:
    kind, text, depth = made(given.seed, given.show)
    sys.stdout.buffer.write(text)
    print(f"tools/check explained: text {given.show}, of the kind {kind}, at depth {depth}", file=sys.stderr)
    sys.exit(0)


def add_words(reader: argparse.ArgumentParser) -> None:
    reader.add_argument("--texts", type=int, default=200)
    reader.add_argument("--seed", default="1")
    reader.add_argument("--show", type=int)
    reader.add_argument("--program")


def check(tally: Tally, given: argparse.Namespace) -> None:
    if given.show:
        show(given)
    checks = Checks(given)
    for it in texts(given):
        tally.hold(f"{it.name} ({len(it.text)} bytes, depth {it.depth})", partial(checks.check, it))
    took, answered, name = checks.slowest
    print(f"longest: {name}, {took:.2f} s, where the answer takes {answered:.2f}")
