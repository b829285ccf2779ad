"""Reads types and bounds, up to lifetimes, and finds whether two of them can be one."""
from __future__ import annotations

import re
from typing import Callable, NamedTuple, Optional, Sequence, TypeVar

Read = TypeVar("Read")
TOKEN = re.compile(r"\s*(->|[?']?\w+|[<>()\[\],:;&*+!=])")


class Unread(Exception):
    """A text that is no type here: cut, or of a form that is not looked at."""


class Term(NamedTuple):
    """A head with its arguments. The head of a variable begins with ?, that of a parameter with 'param', that of an impl's own with 'own'."""

    head: str
    args: tuple[Term, ...] = ()


def tokens_of(text: str) -> list[str]:
    found, at, text = list[str](), 0, text.rstrip()
    while at < len(text):
        it = TOKEN.match(text, at)
        if not it:
            raise Unread(text)
        found.append(it[1])
        at = it.end()
    return found


class Reader:
    def __init__(self, text: str, params: Sequence[str] = ()) -> None:
        self.tokens, self.at, self.params = tokens_of(text), 0, params

    def peek(self) -> str:
        return self.tokens[self.at] if self.at < len(self.tokens) else ""

    def take(self, expected: str = "") -> str:
        it = self.peek()
        if not it or expected and it != expected:
            raise Unread(f"{expected} at {self.at} of {self.tokens}")
        self.at += 1
        return it

    def passes(self, expected: str) -> bool:
        is_there = self.peek() == expected
        self.at += is_there
        return is_there

    def passes_lifetime(self) -> bool:
        is_there = self.peek().startswith("'")
        self.at += is_there
        return is_there

    def listed(self, close: str, one: Callable[[], Optional[Read]]) -> tuple[Read, ...]:
        """The arguments before the closing sign, without lifetimes."""
        found = []
        while not self.passes(close):
            found.append(one())
            if not self.passes(","):
                self.take(close)
                break
        return tuple(it for it in found if it is not None)

    def binder(self) -> None:
        if self.passes("for"):
            self.take("<")
            self.listed(">", self.take)

    def arg(self) -> Optional[Term]:
        if self.passes_lifetime():
            return None
        return Term("value " + self.take()) if self.peek().isdigit() else self.type()

    def named(self, name: str) -> Term:
        return Term(name, self.listed(">", self.arg) if self.passes("<") else ())

    def bound(self) -> Term:
        self.binder()
        return self.named(self.take())

    def item(self) -> Optional[Term]:
        """A bound of a `dyn`."""
        if self.passes_lifetime():
            return None
        bound = self.bound()
        return Term("bound " + bound.head, bound.args)

    def dyn(self) -> Term:
        items = [self.item()]
        while self.passes("+"):
            items.append(self.item())
        return Term("dyn", tuple(sorted({it for it in items if it})))

    def bracketed(self) -> Term:
        inner = self.type()
        length = self.arg() if self.passes(";") else None
        self.take("]")
        return Term("array", (inner, length)) if length else Term("slice", (inner,))

    def function(self) -> Term:
        self.take("(")
        inputs = self.listed(")", self.type)
        return Term("fn", (*inputs, self.type() if self.passes("->") else Term("tuple")))

    def type(self) -> Term:
        self.binder()
        it = self.take()
        if it == "&":
            self.passes_lifetime()
            return Term("&mut" if self.passes("mut") else "&", (self.type(),))
        if it == "*":
            return Term("*" + self.take(), (self.type(),))
        if it == "(":
            return Term("tuple", self.listed(")", self.type))
        forms = {"[": self.bracketed, "fn": self.function, "dyn": self.dyn}
        if it in forms:
            return forms[it]()
        if it in self.params:
            return Term("param " + it)
        if it.startswith("?"):
            return Term(it)
        if not re.match(r"[A-Za-z_!]", it):
            raise Unread(it)
        return self.named(it)

    def reference(self) -> Term:
        """`type: bound`, as a trait and its arguments with the self type first."""
        subject = self.type()
        self.take(":")
        bound = self.bound()
        return Term(bound.head, (subject, *bound.args))


def reference_of(text: str, params: Sequence[str] = ()) -> Term:
    reader = Reader(text, params)
    found = reader.reference()
    if reader.peek():
        raise Unread(reader.tokens)
    return found


def owned(term: Term) -> Term:
    """The parameters of an impl as new variables."""
    return Term(re.sub(r"^param ", "own ", term.head), tuple(map(owned, term.args)))


# ---- two bounds as one, by values for variables

Values = dict[Term, Term]


def is_variable(term: Term) -> bool:
    return term.head.startswith(("?", "own "))


def walked(term: Term, values: Values) -> Term:
    while is_variable(term) and term in values:
        term = values[term]
    return term


def occurs(variable: Term, term: Term, values: Values) -> bool:
    term = walked(term, values)
    return term == variable or any(occurs(variable, it, values) for it in term.args)


def unify(left: Term, right: Term, values: Values) -> bool:
    left, right = walked(left, values), walked(right, values)
    if left == right:
        return True
    for it, other in ((left, right), (right, left)):
        if is_variable(it):
            if occurs(it, other, values):
                return False
            values[it] = other
            return True
    is_like = left.head == right.head and len(left.args) == len(right.args)
    return is_like and all(unify(a, b, values) for a, b in zip(left.args, right.args))
