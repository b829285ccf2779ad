"""A separate checker of the proofs that --explain prints, by docs/FORMAT.md and the lines of the text.

Each row is compared with its rule. For an impl, its header is the goal, with its where-clauses below it, one for one. A where-clause is one
of the query, or has the goal as a supertrait. A built-in rule has the premises of the page. A row that is marked `not checked` has to be a
rule of calls, of a `dyn` or of `Unsize`. (The check `explained_words` calls this.)
"""
from __future__ import annotations

import itertools
import re
from typing import Any, Iterator, NamedTuple, Optional, Sequence

from .terms import Reader, Term, Unread, Values, reference_of, unify

HOLE = re.compile(r"\b_\b")
IMPL = re.compile(r"impl at line (\d+)$")
CORE_IMPL = re.compile(r"impl (\d+) of `core`$")
INTEGERS = [f"{sign}{size}" for sign in "iu" for size in ("8", "16", "32", "64", "128", "size")]
SCALARS = ["bool", "char", "!", *INTEGERS]
CALLS = ("FnOnce", "FnMut", "Fn")
CUT = "the rest of the proof is not shown"
NOT_SHOWN = "holds; its proof is not shown"


def tuple_of(*items: Term) -> Term:
    return Term("tuple", items)


class Header(NamedTuple):
    """An impl by its header and its where-clauses, with variables of its own for its parameters."""

    header: Term
    clauses: Sequence[Term]


def core_impls() -> list[Header]:
    """The impls of `core` in their order."""
    item, length = Term("own T"), Term("own N")
    pointers = [Term("&", (item,)), Term("*const", (item,)), Term("*mut", (item,))]
    array = Term("array", (item, length))

    def of(name: str) -> list[Header]:
        bare = [Header(Term(name, (it,)), ()) for it in [*map(Term, SCALARS), *pointers]]
        return [*bare, Header(Term(name, (array,)), (Term(name, (item,)),))]

    return [*of("Clone"), Header(Term("Clone", (Term("Box", (item,)),)), (Term("Clone", (item,)),)), *of("Copy")]


class Trait(NamedTuple):
    """A trait of the text: its parameters, whether it is an auto trait, and its bounds, of Self as a parameter."""

    params: Sequence[str]
    is_auto: bool
    bounds: Sequence[Term]


class Struct(NamedTuple):
    params: Sequence[str]
    fields: Sequence[Term]


def params_of(reader: Reader) -> list[str]:
    """The parameters for types and constants of a declaration, where it has some."""
    names: list[str] = []

    def one() -> None:
        reader.passes("const")
        name = reader.take()
        if not name.startswith("'"):
            names.append(name)

    if reader.passes("<"):
        reader.listed(">", one)
    return names


def with_values(term: Term, values: dict[str, Term]) -> Term:
    """With terms for parameters."""
    if term.head in values:
        return values[term.head]
    return Term(term.head, tuple(with_values(it, values) for it in term.args))


class Declared:
    """The traits and structs of a text, with those of `core`."""

    def __init__(self, lines: Sequence[str]) -> None:
        own = Term("param Self")
        self.core = core_impls()
        self.traits = {
            "Sized": Trait([], False, []), "Clone": Trait([], False, [Term("Sized", (own,))]), "Copy": Trait([], False, [Term("Clone", (own,))]),
            "Tuple": Trait([], False, []), "FnPtr": Trait([], False, []), "FnOnce": Trait(["A"], False, []), "Unsize": Trait(["T"], False, []),
            "FnMut": Trait(["A"], False, [Term("FnOnce", (own, Term("param A")))]), "Fn": Trait(["A"], False, [Term("FnMut", (own, Term("param A")))]),
        }
        self.structs = {"Box": Struct(["T"], [Term("*const", (Term("param T"),))])}
        for line in lines:
            try:
                self.read(line)
            except Unread:
                pass

    def read(self, line: str) -> None:
        words = line.split(None, 2)
        if not words or line.lstrip().startswith("//") or not {"struct", "trait"} & set(re.findall(r"\w+", line)[:3]):
            return
        reader = Reader(line)
        reader.passes("fundamental")
        is_auto = reader.passes("auto")
        kind, name = reader.take(), reader.take()
        params = params_of(reader)
        reader.params = ["Self", *params]
        if kind == "struct":
            self.structs[name] = Struct(params, reader.listed(")", reader.type) if reader.passes("(") else ())
        elif kind == "trait":
            bounds = [reader.bound()] if reader.passes(":") else []
            while reader.passes("+"):
                bounds.append(reader.bound())
            own = Term("param Self")
            self.traits[name] = Trait(params, is_auto, [Term(it.head, (own, *it.args)) for it in bounds])

    def supertraits(self, goal: Term) -> Iterator[Term]:
        """The supertraits of a reference, through all levels."""
        todo, met = [goal], set[Term]()
        for it in todo:
            found = self.traits.get(it.head)
            if found and it not in met:
                met.add(it)
                values = dict(zip([f"param {name}" for name in ("Self", *found.params)], it.args))
                todo += [with_values(bound, values) for bound in found.bounds]
        yield from todo[1:]

    def is_auto(self, name: str) -> bool:
        return name in self.traits and self.traits[name].is_auto

    def fields(self, subject: Term) -> Sequence[Term]:
        found = self.structs[subject.head]
        values = dict(zip([f"param {name}" for name in found.params], subject.args))
        return [with_values(it, values) for it in found.fields]


class Query(NamedTuple):
    """What a proof is of: its reference, its where-clauses, its parameters, and the impls that its crate sees, by their lines: none for one of a
    form that is not looked at."""

    goal: Optional[Term]
    clauses: Sequence[Term]
    names: Sequence[str]
    impls: dict[int, Optional[Header]]


def fixed(term: Term) -> Term:
    """The term with its named variables as constants: no step gives them values."""
    head = re.sub(r"^\?(?!_)", "fixed ", term.head)
    return Term(head, tuple(map(fixed, term.args)))


class Wrongs:
    """The rows of proofs that are wrong, and how many were looked at."""

    def __init__(self, declared: Declared, query: Query) -> None:
        self.declared, self.query = declared, query
        self.holes = itertools.count()
        self.shown: list[str] = []
        self.rows = self.unread = 0
        self.wrong: list[str] = []

    def read(self, text: str) -> Optional[Term]:
        """A goal; none where it is cut, or of a form that is not looked at."""
        try:
            return None if ".." in text else fixed(reference_of(HOLE.sub(lambda _: f"?_{next(self.holes)}", text), self.query.names))
        except Unread:
            return None

    def hold(self, is_so: bool, row: Any, why: str) -> None:
        if not is_so:
            self.wrong.append(f"{row['goal']} -- {row['rule']} -- {why}")

    def are(self, expected: Sequence[Term], row: Any, values: Values, is_cut: bool) -> None:
        """The premises of a row are these."""
        found = row["premises"]
        self.hold(len(found) == len(expected) or is_cut, row, f"{len(found)} premises, and not {len(expected)}")
        for it, other in zip(expected, found):
            goal = self.read(other["goal"])
            self.hold(goal is None or unify(it, goal, values), row, f"the premise {other['goal']}")

    def impl(self, found: Optional[Header], goal: Term, row: Any, is_cut: bool) -> None:
        values: Values = {}
        if found and unify(found.header, goal, values):
            self.are(found.clauses, row, values, is_cut)
        elif found:
            self.hold(False, row, "its header is another one")

    def clause(self, goal: Term, row: Any) -> None:
        clauses = list(map(fixed, self.query.clauses))
        if row["rule"] != "where-clause":
            clauses = [it for clause in clauses for it in self.declared.supertraits(clause)]
        self.hold(any(unify(it, goal, {}) for it in clauses), row, "there is no such where-clause")
        self.hold(not row["premises"], row, "it has premises")

    def has_impl(self, trait: str, struct: str) -> bool:
        """Whether an impl of an auto trait is for a struct, whatever its arguments are."""
        return any(it and it.header.head == trait and it.header.args[0].head == struct for it in self.query.impls.values())

    def built_in(self, goal: Term) -> Optional[Sequence[Term]]:
        """The premises of a built-in rule; none where there is no rule."""
        trait, (subject, *_) = goal.head, goal.args
        if trait == "Sized":
            return self.sized(subject)
        if trait in ("Copy", "Clone"):
            forms = {"fn": (), "tuple": subject.args}
            return [Term(trait, (it,)) for it in forms[subject.head]] if subject.head in forms else None
        if trait in ("Tuple", "FnPtr"):
            return [] if subject.head == {"Tuple": "tuple", "FnPtr": "fn"}[trait] else None
        return self.auto(trait, subject) if self.declared.is_auto(trait) else None

    def sized(self, subject: Term) -> Optional[Sequence[Term]]:
        if subject.head in [*SCALARS, "fn", "*const", "*mut", "&", "&mut", "array"]:
            return []
        if subject.head != "tuple" and subject.head not in self.declared.structs:
            return None
        items = subject.args if subject.head == "tuple" else self.declared.fields(subject)
        return [Term("Sized", (it,)) for it in items[-1:]]

    def auto(self, trait: str, subject: Term) -> Optional[Sequence[Term]]:
        parts: Sequence[Term]
        if subject.head in [*SCALARS, "fn"]:
            parts = ()
        elif subject.head == "str":
            parts = [Term("slice", (Term("u8"),))]
        elif subject.head in ("*const", "*mut", "&", "&mut", "slice", "array"):
            parts = subject.args[:1]
        elif subject.head == "tuple":
            parts = subject.args
        elif subject.head in self.declared.structs and not self.has_impl(trait, subject.head):
            parts = self.declared.fields(subject)
        else:
            return None
        return [Term(trait, (it,)) for it in parts]

    def may_be_unchecked(self, goal: Term) -> bool:
        return goal.head in CALLS or goal.head == "Unsize" or goal.args[0].head == "dyn"

    def assumed(self, row: Any, above: Sequence[Any]) -> None:
        """The goal is one above, and all from there on are of coinductive traits."""
        goals = [it["goal"] for it in above]
        cycle = above[len(goals) - goals[::-1].index(row["goal"]) - 1:] if row["goal"] in goals else None
        self.hold(cycle is not None, row, "it is no goal above")
        for it in cycle or []:
            trait = (self.read(it["goal"]) or Term("Sized")).head
            self.hold(trait == "Sized" or self.declared.is_auto(trait), it, "its trait is not coinductive")

    def by_rule(self, goal: Term, row: Any, above: Sequence[Any], is_cut: bool) -> None:
        rule = row["rule"]
        found, of_core = IMPL.match(rule), CORE_IMPL.match(rule)
        if found:
            number = int(found[1])
            self.hold(number in self.query.impls, row, "there is no such impl")
            self.impl(self.query.impls.get(number), goal, row, is_cut)
        elif of_core:
            number = int(of_core[1])
            self.hold(number <= len(self.declared.core), row, "there is no such impl")
            self.impl(self.declared.core[number - 1] if number <= len(self.declared.core) else None, goal, row, is_cut)
        elif rule in ("where-clause", "supertrait of a where-clause"):
            self.clause(goal, row)
        elif rule == "built-in rule":
            expected = self.built_in(goal)
            self.hold(expected is not None, row, "there is no such rule")
            self.are(expected or [], row, {}, is_cut)
        elif rule == "shown above":
            self.hold(row["goal"] in self.shown, row, "it is not shown above")
        elif rule.startswith("assumed: "):
            self.assumed(row, above)
        elif rule.endswith(", not checked"):
            self.hold(not rule.startswith(("impl", "where-clause")) and self.may_be_unchecked(goal), row, "it has to be checked")
        else:
            self.hold(rule == NOT_SHOWN, row, "it is no rule")

    def row(self, row: Any, above: Sequence[Any], is_cut: bool) -> None:
        goal = self.read(row["goal"])
        self.rows += 1
        if goal is None:
            self.unread += 1
        else:
            self.by_rule(goal, row, above, is_cut)
        self.shown.append(row["goal"])
        for it in row["premises"]:
            self.row(it, [*above, row], is_cut)

    def root(self, row: Any, values: dict[str, str]) -> None:
        """The first row is the query, with the values of its answer."""
        goal, found = self.read(row["goal"]), dict[Term, Term]()
        if goal is None or self.query.goal is None:
            return
        self.hold(unify(self.query.goal, goal, found), row, "the query is another one")
        for name, value in values.items():
            try:
                expected = fixed(Reader(HOLE.sub(lambda _: f"?_{next(self.holes)}", re.sub(r"\?\d+", "_", value)), self.query.names).arg() or Term(""))
            except Unread:
                continue
            if ".." not in value and Term(name) in found:
                self.hold(unify(found[Term(name)], expected, {}), row, f"{name} is {value}")
