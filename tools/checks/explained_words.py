"""What --explain says of the answers: each claim is queried again, or looked up in the text.

    tools/check explained_words                   each example, and 400 texts that are made here
    tools/check explained_words --texts 20000 --seed 2
    tools/check explained_words --queries 80      with so many more queries in each text, for the headers of its impls
    tools/check explained_words FILE...           these texts instead
    tools/check explained_words --show 17         prints that text with its explanations

For each `prove` and `refute` query, and each unproved supertrait of a header, if its explanation has no variable and is not cut:

    a bound that "was not proved", also one that a candidate needs        `prove` does not answer `yes`
    each row of the proofs of its bounds                                  `prove` answers `yes`, and a separate checker of proofs finds its rule
                                                                          (explained_proofs.py)
    what "no such crate can give", and what no crate can make hold        `refute` answers `no`
    "the impl at line N fits", "applies", "may apply"                     its header and the goal can be one bound
    "no impl of ... fits"                                                 no impl that the crate sees can be the goal
    "required for X to implement B", at the marks of an impl              its header can be `X: B`, and if the next inner bound is named,
                                                                          that is one of its where-clauses
    an overlap for a type                                                 both headers that are marked can be that
    a where-clause of such impls, or an open goal, that "holds"           `prove` answers `yes`
    "downstream crates may implement" a trait                             a new crate that uses the crate of the query writes the impl, with a
                                                                          struct of its own for each variable: no fault 6, 11 or 12, it is
                                                                          accepted, and so is each crate that was. If all are accepted, `prove`
                                                                          does not answer `yes`
    "upstream crates may add a new impl"                                  with the impl in a section of the trait's crate: none of these faults,
                                                                          and `compatible`. With the impl in that crate, and a struct of its own
                                                                          for each variable: each crate that was accepted is, except for pairs of
                                                                          other impls that are disjoint only without it, and `prove` as before

Without it the program answers the queries, because answers are proved. A case is a text. The line before the last has the number of claims
of each kind.
"""
from __future__ import annotations

import argparse
import itertools
import re
import sys
from collections import Counter
from pathlib import Path
from typing import Any, Callable, Iterator, NamedTuple, Optional, Sequence

from .answers import first_word
from .common import Limits, Tally, examples, program, run
from .explained_json import read_lines
from .explained_proofs import CUT, Declared, Header, Query, Wrongs
from .terms import Reader, Term, Unread, Values, owned, reference_of, unify
from .makers import PlainText, joined

LIMITS = Limits(seconds=60)
QUOTED = re.compile(r"`([^`]*)`")
OVERLAP = re.compile(r"conflicting implementations of trait `([^`]*)` for type `([^`]*)`(?:: lines? .*)?$")
FITS = re.compile(r"the impl at line (\d+) (?:fits(?:, not checked)?, but needs `([^`]*)`, (.*)|fits(?:, not checked)?, and .*|(?:applies|may apply)(?:, not checked)?)$")
NONE_FITS = re.compile(r"no impl (and no built-in rule )?of `")
REQUIRED = re.compile(r"required for `([^`]*)` to implement `([^`]*)`(?:, not checked)?$")
HOLDS = re.compile(r"`([^`]*)` holds(?:, not checked|, by the .*)?$")
ADDED = re.compile(r"(down|up)stream crates may (?:implement|add a new impl of) trait `([^`]*)` for type `([^`]*)`(?:.* is of crate `(\w+)`\))?")
NOT_REFUSED = re.compile(r"`([^`]*)` (?:is not refused|needs itself)")
LENGTH = re.compile(r"; *(?:\?\w+|_)(?=\])")
VARIABLE = re.compile(r"\?\w+|\b_\b")
CANNOT = re.compile(r"line \d+: fault (6|11|12)$")
ROW = re.compile(r"[|` -]*(.*?)  +(\S.*)$")
HOLE = re.compile(r"\b_\b")
QUERY = re.compile(r"(prove|refute) (\d+): (.*)$")
ANSWERED = re.compile(r"(prove|refute) \d+: (.*)$")
OVERLAPPED = re.compile(r"crate (\w+): overlap impl (\d+) with (\w+) (\d+)$")
FAULT = re.compile(r"line (\d+): fault")
Is = Callable[[str], bool]


# ---- the lines of a text


def params_before(text: str) -> tuple[list[str], str, str]:
    """The parameters for types and constants at the front of a text, `<...>` as it is written, and what follows."""
    text = text.lstrip()
    if not text.startswith("<"):
        return [], "", text
    end = text.index(">") + 1
    names = [it.strip() for it in text[1 : end - 1].split(",")]
    return [it.removeprefix("const ").strip() for it in names if not it.startswith("'")], text[:end], text[end:]


class Impl(NamedTuple):
    """An impl by its line and its crate: its header and its where-clauses, with variables for its parameters."""

    number: int
    home: str
    header: Term
    clauses: list[Term]


def read_impl(line: str, number: int, home: str) -> Optional[Impl]:
    """The impl of a line. None if its form is not supported."""
    head, _, clauses = line.strip().partition(" where ")
    try:
        names, _, rest = params_before(head.strip().removeprefix("impl"))
        bound, _, subject = re.sub(r"\bfor\s*<", "FOR<", rest).partition(" for ")
        header = reference_of(f"{subject}: {bound}".replace("FOR<", "for<"), names)
        return Impl(number, home, owned(header), list(map(owned, read_clauses(clauses, names))))
    except (Unread, ValueError):
        return None


def read_clauses(text: str, names: Sequence[str]) -> Iterator[Term]:
    reader = Reader(text, names)
    while reader.peek():
        yield reader.reference()
        if reader.peek():
            reader.take(",")


def bounds_of(text: str) -> list[str]:
    """The bounds of a query: what is between the commas outside of brackets."""
    found, depth = [""], 0
    for sign in re.findall(r"->|.", text):
        depth += (sign in ("<", "(", "[")) - (sign in (">", ")", "]"))
        found = [*found, ""] if sign == "," and depth == 0 else [*found[:-1], found[-1] + sign]
    return [it.strip() for it in found]


class Scope(NamedTuple):
    """What a claim is about: a crate, with the parameters and where-clauses of a query or an impl."""

    crate: str
    names: Sequence[str] = ()
    params: str = ""
    clauses: str = ""


def scope_of(crate: str, line: str) -> Scope:
    """The scope of an impl, or of the part of a query after its crate."""
    head, _, clauses = line.partition(" where ")
    names, params, _ = params_before(head.strip().removeprefix("impl"))
    return Scope(crate, names, params, clauses)


class Text:
    """What is read of a text without a fault."""

    def __init__(self, lines: list[str]) -> None:
        self.lines = lines
        self.impls: dict[int, Optional[Impl]] = {}
        self.uses: dict[str, list[str]] = {"core": []}
        self.scopes: list[Scope] = []
        self.references: list[list[str]] = []
        self.others: list[str] = []
        crate, in_section = "core", False
        for number, line in enumerate(lines, 1):
            words = line.split()
            first = words[0] if words else ""
            if first in ("prove", "refute"):
                rest = line.strip().split(None, 2)[2].removeprefix(words[2])
                self.scopes.append(scope_of(words[2], rest))
                self.references.append(bounds_of(params_before(rest.partition(" where ")[0])[2]))
                continue
            self.others.append(line)
            if first == "crate":
                crate, in_section = words[1], False
                self.uses[crate] = [it.strip(",") for it in words[3:]]
            elif first == "later":
                in_section = True
            elif first.partition("<")[0] == "impl" and not in_section:
                self.impls[number] = read_impl(line, number, crate)

    def sees(self, crate: str, other: str) -> bool:
        return other in (crate, "core") or any(self.sees(it, other) for it in self.uses.get(crate, ()))


# ---- claims


class Claim(NamedTuple):
    """A query that is answered again, what its answer has to be, and the sentence of the explanation."""

    line: str
    is_right: Is
    sentence: str


def is_yes(answer: str) -> bool:
    return answer.startswith("yes")


def is_no(answer: str) -> bool:
    return answer == "no"


def is_not_yes(answer: str) -> bool:
    return not is_yes(answer)


def is_whole(text: str) -> bool:
    return ".." not in text and "?" not in text and not HOLE.search(text)


def goal_of(text: str, scope: Scope) -> Optional[Term]:
    """A bound, in which each `_` is a variable of its own. None if it is cut, or if its form is not supported."""
    holes = itertools.count()
    try:
        return None if ".." in text else reference_of(HOLE.sub(lambda _: f"?_{next(holes)}", text), scope.names)
    except Unread:
        return None


class Written(NamedTuple):
    """An impl that may be written according to a sentence: its lines, the crate at whose end they are inserted (empty: at the end), the answer
    if that is right, and the sentence."""

    lines: list[str]
    home: str
    answer: str
    sentence: str


def filled(bound: str, subject: str, value: Callable[[str], str]) -> str:
    """The line of an impl, with a type for each variable, and a length that no impl names for each variable that is a length."""
    bound, subject = (VARIABLE.sub(lambda it: value(it[0]), LENGTH.sub("; 65521", it)) for it in (bound, subject))
    return f"impl {bound} for {subject}"


def with_own(bound: str, subject: str, are_same: bool) -> list[str]:
    """The lines of an impl with structs of its own, one for each variable that has a name. Those without a name are the same one, or not."""
    names: list[str] = []

    def own(name: str) -> str:
        if name not in names or name == "_" and not are_same:
            names.append(name)
        return f"Adder{len(names) - 1 - names[::-1].index(name)}"

    line = filled(bound, subject, own)
    return [*(f"struct Adder{number}" for number in range(len(names))), line]


def written(crate: str, found: re.Match[str]) -> Iterator[list[Written]]:
    """What other crates may write according to an explanation, in forms of which one has to be right. Nothing if it is cut."""
    direction, bound, subject, home = found.groups()
    if ".." in bound + subject:
        return
    forms = [with_own(bound, subject, are_same) for are_same in (False, True)[: 2 if (bound + subject).count("_") > 1 else 1]]
    if direction == "down":
        yield [Written([f"crate Added uses {crate}", *own], "", "crate Added: accepted$", found[0]) for own in forms]
    elif home:
        yield [Written([f"later {home}", filled(bound, subject, lambda _: "u8")], "", f"later {home}: compatible$", found[0])]
    if direction == "up" and home and home != "core":
        yield [Written(own, home, "", found[0]) for own in forms]


def end_of_crate(lines: list[str], home: str) -> int:
    """Where the crate of this name ends."""
    at = next(number for number, line in enumerate(lines, 1) if line.split()[:2] == ["crate", home])
    return next((number for number, line in enumerate(lines) if number >= at and line.split()[:1] in (["crate"], ["later"])), len(lines))


def line_of_impl(lines: list[str], crate: str, number: int) -> int:
    """Where the impl of a crate with this number is."""
    at = next(index for index, line in enumerate(lines) if line.split()[:2] == ["crate", crate])
    own = (index for index in range(at, end_of_crate(lines, crate)) if re.match(r" *impl\b", lines[index]))
    return next(itertools.islice(own, number - 1, None))


def accepted(rows: Sequence[str]) -> set[str]:
    """The crates that are accepted."""
    return {it for it in rows if it.startswith("crate ") and it.endswith(": accepted")}


class Claims:
    """The queries for the claims on a text, what was confirmed, and what is wrong."""

    def __init__(self, text: Text) -> None:
        self.text = text
        self.queries: list[Claim] = []
        self.written: list[list[Written]] = []
        self.are_accepted = True
        self.accepted = set[str]()
        self.declared = Declared(text.others)
        self.wrong: list[str] = []
        self.confirmed: Counter[str] = Counter()

    def ask(self, word: str, scope: Scope, reference: str, is_right: Is, sentence: str) -> None:
        if is_whole(reference):
            clauses = f" where {scope.clauses}" if word == "prove" and scope.clauses else ""
            self.queries.append(Claim(f"{word} in {scope.crate} {scope.params} {reference}{clauses}", is_right, sentence))

    def hold(self, kind: str, is_so: bool, sentence: str) -> None:
        if is_so:
            self.confirmed[kind] += 1
        else:
            self.wrong.append(sentence)

    def fits(self, number: int, reference: str, scope: Scope, sentence: str) -> None:
        impl, goal = self.text.impls.get(number), goal_of(reference, scope)
        if impl and goal:
            self.hold("fits", unify(impl.header, goal, {}), sentence)

    def none_fits(self, reference: str, scope: Scope, sentence: str) -> None:
        goal = None if "?" in reference else goal_of(reference, scope)
        for impl in self.text.impls.values():
            if goal and impl and self.text.sees(scope.crate, impl.home):
                self.hold("does not fit", not unify(impl.header, goal, {}), f"{sentence} ({reference}, line {impl.number})")

    def note(self, scope: Scope, goal: str, it: Any, inner: Optional[str]) -> Optional[str]:
        """Takes one note on a goal. Returns the bound that it is about, if that is on the path from the goal to the query."""
        message = it["message"]
        added, open_goal = ADDED.match(message), HOLDS.match(message) or NOT_REFUSED.match(message)
        if added:
            self.written += written(scope.crate, added)
            if self.are_accepted:
                self.ask("prove", scope, f"{added[3]}: {added[2]}", is_not_yes, message)
            return f"{added[3]}: {added[2]}"
        if open_goal:
            if " holds" in message:
                self.ask("prove", scope, open_goal[1], is_yes, message)
            return open_goal[1]
        found = FITS.match(message)
        if found:
            self.fits(int(found[1]), goal, scope, message)
            if found[3] == "which was not proved":
                self.ask("prove", scope, found[2], is_not_yes, message)
            if found[3] == "which no such crate can give":
                self.ask("refute", scope, found[2], is_no, message)
        if NONE_FITS.match(message):
            self.none_fits(goal, scope, message)
        found = REQUIRED.match(message)
        if found:
            outer = f"{found[1]}: {found[2]}"
            self.link(scope, outer, inner, it["spans"], message)
            return outer
        return None if "hidden" in message else inner

    def link(self, scope: Scope, outer: str, inner: Optional[str], spans: Any, sentence: str) -> None:
        """The impl that is marked can be the outer bound, and the inner one is one of its where-clauses."""
        lines = {it["line_start"] for it in spans}
        impl = self.text.impls.get(lines.pop()) if len(lines) == 1 and is_whole(outer) else None
        if not impl:
            return
        try:
            goal = reference_of(outer, scope.names)
            needed = reference_of(inner, scope.names) if inner and is_whole(inner) else None
        except Unread:
            return
        values: Values = {}
        self.hold("is required for", unify(impl.header, goal, values), sentence)
        if needed:
            is_clause = any(unify(it, needed, dict(values)) for it in impl.clauses)
            self.hold("is a where-clause", is_clause, f"{sentence} ({inner})")

    def overlap(self, crate: str, explained: Any) -> None:
        """Both impls that are marked can be the bound that is named, and where-clauses that are said to hold do."""
        inner = None
        for it in explained["children"]:
            inner = self.note(Scope(crate), "", it, inner)
        found = OVERLAP.match(explained["message"])
        goal = goal_of(f"{found[2]}: {found[1]}", Scope(crate)) if found else None
        for line in {it["line_start"] for it in explained["spans"]}:
            impl = self.text.impls.get(line)
            if goal and impl:
                self.hold("overlaps", unify(impl.header, goal, {}), explained["message"])

    def query(self, scope: Scope, answer: str, explained: Any) -> None:
        """Takes the explanation of a query, or of a supertrait."""
        message = explained["message"]
        quoted = QUOTED.search(message)
        goal = quoted[1] if quoted else ""
        expected: dict[str, tuple[str, Is]] = {"unproved": ("prove", is_not_yes), "no": ("refute", is_no), "yes": ("prove", is_yes)}
        if goal and first_word(answer) in expected:
            word, is_right = expected[first_word(answer)]
            self.ask(word, scope, goal, is_right, message)
        # if a limit was met, the message names the query, and the path to it begins with a goal that is not named
        inner = None if message.startswith("overflow") else goal
        for it in explained["children"]:
            if it["message"].startswith("proof:"):
                self.proof(scope, it["message"].split("\n")[1:])
            inner = self.note(scope, goal, it, inner)

    def proof(self, scope: Scope, rows: Sequence[str]) -> None:
        for row in rows:
            found = ROW.match(row)
            if found and "not checked" not in row and "assumed" not in row:
                self.ask("prove", scope, found[1], is_yes, row)

    def check_proof(self, scope: Scope, references: Sequence[str], parts: Any, message: Any) -> None:
        """The proofs of the bounds of a query are some, by a separate checker."""
        for reference, tree in zip(references, message["proof"]):
            is_cut = any(CUT in it["message"] for it in message["children"])
            try:
                clauses = list(read_clauses(scope.clauses, scope.names))
                query = Query(goal_of(reference, scope), clauses, scope.names, self.seen_by(scope.crate))
            except Unread:
                return
            wrongs = Wrongs(self.declared, query)
            wrongs.root(tree, parts["values"])
            wrongs.row(tree, [], is_cut)
            self.confirmed["proofs"] += not wrongs.wrong
            self.confirmed["rows of proofs"] += wrongs.rows - wrongs.unread
            self.wrong += wrongs.wrong

    def seen_by(self, crate: str) -> dict[int, Optional[Header]]:
        """The impls that a crate sees, by their lines."""
        seen = {number: it for number, it in self.text.impls.items() if not it or self.text.sees(crate, it.home)}
        return {number: it and Header(it.header, it.clauses) for number, it in seen.items()}

    def add_explanation(self, answer: str, message: Any) -> None:
        """Takes the explanation of a line of the output."""
        overlap = re.match(r"crate (\w+): overlap impl ", answer)
        if overlap:
            self.overlap(overlap[1], message)
        supers = re.match(r"supers (\w+): (missing|undecided)", answer)
        if supers and message["spans"]:
            line = self.text.lines[message["spans"][0]["line_start"] - 1]
            self.query(scope_of(supers[1], line), "unproved" if supers[2] == "missing" else "maybe", message)
        query = QUERY.match(answer)
        if query:
            scope = self.text.scopes[int(query[2]) - 1]
            self.query(scope, query[3], message)
            if query[3].startswith("yes"):
                self.check_proof(scope, self.text.references[int(query[2]) - 1], message["parts"], message)

    def answer_again(self, answering: str, depth: str) -> None:
        """Lets all queries be answered, after the other lines of the text."""
        while self.queries:
            text = "\n".join([*self.text.others, *(it.line for it in self.queries)])
            ended = run([answering, depth], text.encode("latin-1"), LIMITS)
            output = ended.output.decode("latin-1").splitlines()
            fault = FAULT.match(output[0]) if ended.status and output else None
            if not fault or int(fault[1]) <= len(self.text.others):
                self.compare(ended.status, output)
                return
            # printed types have no lifetimes, so some are no types of a query
            del self.queries[int(fault[1]) - len(self.text.others) - 1]

    def is_written(self, it: Written, answering: str, depth: str) -> Optional[str]:
        """What is wrong with an impl. Empty if it may be written, and None if that is not known."""
        lines = list(self.text.others)
        at = end_of_crate(lines, it.home) if it.home else len(lines)
        lines[at:at] = it.lines
        while True:
            ended = run([answering, depth], "\n".join(lines).encode("latin-1"), LIMITS)
            output = ended.output.decode("latin-1").splitlines()
            if ended.status and output and not CANNOT.match(output[0]):
                return None  # printed types have no lifetimes, so some are no types of an impl
            if any(re.match(it.answer, line) for line in output) and self.accepted <= accepted(output):
                return ""
            pair = next(filter(None, map(OVERLAPPED.match, output)), None)
            other = line_of_impl(lines, pair[1], int(pair[2])) if pair and f"crate {pair[1]}: accepted" in self.accepted else -1
            earlier = line_of_impl(lines, pair[3], int(pair[4])) if pair and other >= 0 and pair[3] != "core" else -1
            if other < 0 or it.lines[-1] in (lines[other], lines[earlier]):
                return f"{it.sentence} -- {it.lines[-1]} -- {output[:1] if ended.status else output}"
            # two others that are disjoint only without this impl
            self.confirmed["others disjoint without it"] += 1
            lines[other] = ""

    def write(self, answering: str, depth: str) -> None:
        """Writes each impl that may be written, after the other lines of the text or in its crate."""
        for forms in self.written:
            found = [self.is_written(it, answering, depth) for it in forms]
            wrong = [it for it in found if it is not None]
            if wrong:
                answer = forms[0].answer
                self.hold(f"written: {answer.split()[0] if answer else 'in its crate'}", "" in wrong, wrong[0])

    def compare(self, status: int, output: list[str]) -> None:
        rows = [(row, found) for row in output if (found := ANSWERED.match(row))]
        if status or len(rows) != len(self.queries):
            self.wrong.append(f"no second answer: status {status}, {output[:1]}")
            return
        for (row, found), claim in zip(rows, self.queries):
            self.hold(f"{found[1]} {first_word(found[2])}", claim.is_right(found[2]), f"{claim.sentence} -- {claim.line} -- {row}")


class Words:
    """The program, and how many claims of each kind were confirmed."""

    def __init__(self, given: argparse.Namespace) -> None:
        self.path = given.program or program("celtisdarts")
        self.kinds: Counter[str] = Counter()

    def fault_of(self, text: bytes, depth: str) -> Optional[str]:
        """What is wrong with the explanations of a text."""
        status, output, *_ = run([self.path, depth, "--explain", "--json"], text, LIMITS)
        if status:
            return None
        claims = Claims(Text(text.decode("latin-1").split("\n")))
        lines = read_lines(output)
        claims.are_accepted = all(it.answer.endswith(": accepted") for it in lines if it.answer.startswith("crate "))
        claims.accepted = accepted([it.answer for it in lines])
        for it in lines:
            if it.message:
                claims.add_explanation(it.answer, it.message)
        claims.answer_again(self.path, depth)
        claims.write(self.path, depth)
        self.kinds.update(claims.confirmed)
        return "\n".join(claims.wrong) or None


def add_query_by_impl(maker: PlainText, crate: str) -> None:
    """A query for a header that the crate sees, with types or variables for its parameters, some under a clause of the same form; or a
    refutation with variables."""
    owner, headers = "", list[str]()
    for line in maker.lines:
        owner = line.split()[1] if line.startswith("crate ") else owner
        if line.startswith("impl") and maker.sees(crate, owner):
            headers.append(params_before(line.partition(" where ")[0].removeprefix("impl"))[2].strip())
    if not headers:
        return maker.add_query(crate)
    bound, _, subject = maker.random.choice(headers).partition(" for ")

    def filled_by(types: Sequence[str]) -> str:
        values = {it: maker.random.choice([*types, maker.type(crate, [], 1)]) for it in "TU"}
        return re.sub(r"\b[TU]\b", lambda it: values[it[0]], f"{subject}: {bound}")

    if maker.chance(40):
        params = maker.random.choice([[], ["?x"], ["?x", "?y"]])
        bounds = [maker.reference(crate, 2, 1, params) for _ in range(maker.random.choice([1, 1, 1, 2, 3]))]
        return maker.lines.append(f"refute in {crate} {', '.join(bounds)}")
    clauses = [filled_by(["P", "u8", "bool"]) for _ in range(maker.random.choice([0, 0, 0, 1, 2]))]
    bounds = [filled_by(["?x", "P", "&?x", "(?x, ?y)"])]
    while maker.chance(25):
        bound, _, subject = maker.random.choice(headers).partition(" for ")
        bounds.append(filled_by(["?x", "?y", "P", "u8"]))
    maker.lines.append(f"prove in {crate} <P> {', '.join(bounds)}" + (f" where {', '.join(clauses)}" if clauses else ""))


def made(given: argparse.Namespace, number: int) -> bytes:
    maker = PlainText(number * 7919 + given.seed)
    maker.make()
    crates = [it for it in maker.uses if maker.seen(it, maker.traits)]
    for _ in range(given.queries):
        add_query_by_impl(maker, maker.random.choice(crates))
    return joined(maker.lines)


def texts(given: argparse.Namespace) -> Iterator[tuple[str, bytes, str]]:
    """The texts by name, with their depths."""
    for file in given.files:
        yield str(file), file.read_bytes(), "8"
    for example in examples() if not given.files else []:
        yield example.name, example.text, example.depths[0]
    for number in range(given.texts if not given.files else 0):
        yield f"text {number}", made(given, number), "8"


def add_words(reader: argparse.ArgumentParser) -> None:
    reader.add_argument("files", nargs="*", type=Path)
    reader.add_argument("--texts", type=int, default=400)
    reader.add_argument("--seed", type=int, default=1)
    reader.add_argument("--queries", type=int, default=0)
    reader.add_argument("--show", type=int)
    reader.add_argument("--program")


def check(tally: Tally, given: argparse.Namespace) -> None:
    words = Words(given)
    if given.show is not None:
        text = made(given, given.show)
        print(text.decode() + run([words.path, "8", "--explain"], text).output.decode())
        sys.exit(0)
    for name, text, depth in texts(given):
        tally.report(name, words.fault_of(text, depth))
    print(", ".join(f"{kind}: {count}" for kind, count in sorted(words.kinds.items())))
