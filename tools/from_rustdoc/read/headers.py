"""A reader of Rust's impl headers, declarations and types as they are written: in the documents of std, and in queries."""
from __future__ import annotations

import re
from typing import Callable, Optional

from .terms import (UNIT, Alias, Array, Bound, BoundsOf, Constant, Dyn, Function, Named, Never, Param, Parameter, Pointer, Predicate, Primitive, Projection,
                    Reference, Slice, Tuple, Type, Unknown, Unsayable)

INTEGERS = "i8 i16 i32 i64 i128 isize u8 u16 u32 u64 u128 usize".split()
FLOATS = ("f16", "f32", "f64", "f128")
WRITTEN = ("word", "sign", "number")
PRIMITIVES = frozenset(["bool", "char", "str"] + INTEGERS)

# What a path names: its class ("struct", "enum", "union", "trait", "type", "word"), its key, and its last name.
Named_ = tuple[str, Optional[str], str]


class NotUnderstood(Exception):
    """The text is not a header or type that this reader knows."""


def qualifier(is_unsafe: bool, abi: str) -> str:
    """What comes before the `fn` of a pointer; `abi` is empty for Rust's own."""
    return ("unsafe " if is_unsafe else "") + (f'extern "{abi}" ' if abi else "")


class Reader:
    """Reads tokens. `lookup` says what a path stands for: it gets the words of the path, or the number of a marked link."""

    TOKEN = re.compile(r"\s+|(?P<mark>\x01\d+\x02)|(?P<lifetime>'\w+)|(?P<unknown>\?[A-Za-z_]\w*)|(?P<word>(?:r#)?[^\W\d]\w*(?:@\d[\w.+-]*)?)|(?P<number>\d\w*)"
                       r"|(?P<sign>::|->|=>|\.\.\.|\.\.|[<>()\[\]{},:;&*+!?=~#\"\-/|.])|(?P<other>.)")

    def __init__(self, text: str, lookup: Callable[[list[str]], Named_], unknowns: bool = False, params: Optional[set[str]] = None) -> None:
        """`params` are the parameters in scope, where they are known."""
        self.text = text
        self.lookup = lookup
        self.params = params
        # Whether the path that is read now is that of a trait, by where it stands.
        self.wants_trait = False
        self.tokens: list[tuple[str, str]] = []
        self.places: list[int] = []
        self.at = 0
        for found in self.TOKEN.finditer(text):
            kind = found.lastgroup
            if kind == "unknown" and not unknowns:
                self.tokens += [("sign", "?"), ("word", found.group()[1:])]
                self.places += [found.start(), found.start() + 1]
            elif kind:
                self.tokens.append((kind, found.group(kind)))
                self.places.append(found.start())

    # ---- tokens
    def peek(self, ahead: int = 0) -> tuple[str, str]:
        return self.tokens[self.at + ahead] if self.at + ahead < len(self.tokens) else ("end", "")

    def place(self) -> int:
        """Where the next token begins in the text."""
        return self.places[self.at] if self.at < len(self.places) else len(self.text)

    def at_end(self) -> bool:
        return self.peek()[0] == "end"

    def eat(self, text: str) -> bool:
        if self.at >= len(self.tokens):
            return False
        kind, value = self.tokens[self.at]
        if value != text or kind not in WRITTEN:
            return False
        self.at += 1
        return True

    def need(self, text: str) -> None:
        if not self.eat(text):
            raise self.expected(f"`{text}`", " ".join(value for _, value in self.tokens[self.at:self.at + 5]))

    @staticmethod
    def expected(what: str, place: str) -> NotUnderstood:
        return NotUnderstood(f"{what} expected at " + (f"`{place}`" if place else "the end"))

    def word(self) -> str:
        kind, value = self.peek()
        if kind != "word":
            raise self.expected("a name", value)
        self.at += 1
        return value

    def has_generics(self) -> bool:
        """Whether what comes is `<..>` with parameters, and not `<T as Trait>::Name`."""
        if self.peek()[1] != "<":
            return False
        ahead, depth = 0, 0
        while self.peek(ahead)[0] != "end":
            depth += (self.peek(ahead)[1] == "<") - (self.peek(ahead)[1] == ">")
            ahead += 1
            if depth == 0:
                return self.peek(ahead)[1] != "::"
        return True

    # ---- generics, bounds and where-clauses
    def generics(self) -> tuple[list[Param], list[Predicate]]:
        params: list[Param] = []
        predicates: list[Predicate] = []
        if not self.eat("<"):
            return params, predicates
        while not self.eat(">"):
            kind, value = self.peek()
            if kind == "lifetime":
                self.at += 1
                if self.eat(":"):
                    self.bounds()
            elif self.eat("const"):
                name = self.word()
                if self.eat(":"):
                    self.type()
                default = Constant(self.constant()) if self.eat("=") else None
                params.append(Param("const", name, default))
            elif kind == "word":
                self.at += 1
                if self.eat(":"):
                    predicates += [(Parameter(value), b) for b in self.bounds()]
                params.append(Param("type", value, self.type() if self.eat("=") else None))
            else:
                raise self.expected("a parameter", value)
            self.eat(",")
        return params, predicates

    def where(self) -> list[Predicate]:
        predicates: list[Predicate] = []
        while not self.at_end() and self.peek()[1] not in "{;":
            if self.peek()[0] == "lifetime":
                self.at += 1
                self.need(":")
                self.bounds()
                self.eat(",")
                continue
            if self.eat("for"):
                self.skip_binder()
            subject = self.type()
            self.need(":")
            predicates += [(subject, b) for b in self.bounds()]
            if not self.eat(","):
                break
        return predicates

    def skip_binder(self) -> None:
        self.need("<")
        while not self.eat(">"):
            if self.at_end():
                raise NotUnderstood("`>` expected")
            self.at += 1

    def bounds(self) -> list[Bound]:
        found: list[Bound] = []
        while not self.at_end() and self.peek()[1] not in (",", "{", ">", "=", ")", "where", ";", "]"):
            bound = self.bound()
            if bound:
                found.append(bound)
            if not self.eat("+"):
                break
        return found

    def bound(self) -> Optional[Bound]:
        """A bound; None for a lifetime."""
        if self.peek()[0] == "lifetime":
            self.at += 1
            return None
        inside = self.eat("(")
        maybe = self.eat("?")
        if self.eat("~"):
            self.eat("const")
        if self.eat("["):
            self.eat("const")
            self.need("]")
        self.eat("const")
        if self.eat("for"):
            self.skip_binder()
        if self.eat("use"):
            self.skip_binder()
            return None
        if self.peek()[0] == "unknown":
            # `?Sized`, in a text where `?name` is a variable.
            maybe = True
            self.tokens[self.at] = ("word", self.peek()[1][1:])
        self.wants_trait = True
        _, key, name = self.path()
        arguments, constraints = self.arguments()
        if inside:
            self.need(")")
        return Bound(key or "?" + name, tuple(arguments), tuple(constraints), maybe)

    # ---- paths and arguments
    def path(self) -> Named_:
        words: list[str] = []
        self.eat("::")
        while True:
            kind, value = self.peek()
            self.at += 1
            if kind == "mark":
                return self.lookup([value])
            if kind != "word":
                raise self.expected("a path", value)
            words.append(value.removeprefix("r#"))
            if not (self.peek()[1] == "::" and self.peek(1)[0] in ("word", "mark")):
                return self.lookup(words)
            self.at += 1

    def arguments(self) -> tuple[list[Type], list[tuple[str, Type]]]:
        arguments: list[Type] = []
        constraints: list[tuple[str, Type]] = []
        if self.peek()[1] == "::" and self.peek(1)[1] == "<":
            self.at += 1
        if self.eat("<"):
            while not self.eat(">"):
                kind, value = self.peek()
                following = self.peek(1)[1]
                if kind == "lifetime":
                    self.at += 1
                elif kind == "word" and following == "=":
                    self.at += 2
                    constraints.append((value, self.type()))
                elif kind == "word" and following == ":":
                    self.at += 2
                    constraints.append((value, BoundsOf(tuple(self.bounds()))))
                elif kind == "word" and following == "<" and self.is_generic_constraint():
                    self.at += 1
                    self.skip_binder()
                    if self.eat(":"):
                        self.bounds()
                    else:
                        self.need("=")
                        self.type()
                    constraints.append((value, Unsayable("a generic associated type")))
                elif kind == "number" or value in ("{", "-", "true", "false"):
                    arguments.append(Constant(self.constant()))
                else:
                    arguments.append(self.type())
                if not self.eat(",") and self.peek()[1] != ">":
                    raise self.expected("`,` or `>`", self.peek()[1])
        elif self.eat("("):
            inputs: list[Type] = []
            while not self.eat(")"):
                inputs.append(self.type())
                self.eat(",")
            arguments.append(Tuple(tuple(inputs)))
            constraints.append(("Output", self.type() if self.eat("->") else UNIT))
        return arguments, constraints

    def is_generic_constraint(self) -> bool:
        """Whether `name<..>` is followed by `=` or `:`, as `Item<'a> = T` is."""
        ahead, depth = 1, 0
        while True:
            kind, value = self.peek(ahead)
            if kind == "end":
                return False
            depth += (value == "<") - (value == ">")
            ahead += 1
            if depth == 0:
                return self.peek(ahead)[1] in ("=", ":")

    def constant(self) -> str:
        kind, value = self.peek()
        if value == "{":
            depth, text = 0, ""
            while True:
                kind, value = self.peek()
                self.at += 1
                text += value
                depth += (value == "{") - (value == "}")
                if depth == 0 or kind == "end":
                    return text
        if self.eat("-"):
            value = "-" + self.peek()[1]
        self.at += 1
        return value

    # ---- types
    def type(self) -> Type:
        term = self.plain_type()
        while self.peek()[1] == "::" and self.peek(1)[0] == "word":
            self.at += 1
            name = self.word()
            if self.peek()[1] == "<":
                raise NotUnderstood("a generic associated type")
            term = Projection(term, None, name)
        if self.peek() == ("word", "is"):
            raise NotUnderstood("a pattern type")
        return term

    def plain_type(self) -> Type:
        kind, value = self.peek()
        if kind == "unknown":
            self.at += 1
            return Unknown(value[1:])
        if self.eat("&"):
            if self.peek()[0] == "lifetime":
                self.at += 1
            mutable = self.eat("mut")
            return Reference(mutable, self.type())
        if self.eat("*"):
            mutable = self.eat("mut")
            if not mutable:
                self.need("const")
            return Pointer(mutable, self.type())
        if self.eat("["):
            return self.rest_of_slice_or_array()
        if self.eat("("):
            items: list[Type] = []
            comma = True
            while not self.eat(")"):
                items.append(self.type())
                comma = self.eat(",")
                if not comma and self.peek()[1] != ")":
                    raise self.expected("`)`", self.peek()[1])
            return items[0] if len(items) == 1 and not comma else Tuple(tuple(items))
        if self.eat("!"):
            return Never()
        if self.eat("dyn"):
            return Dyn(tuple(self.bounds()))
        if self.eat("impl"):
            self.bounds()
            return Unsayable("impl Trait")
        if self.eat("for"):
            self.skip_binder()
            return self.type()
        if value in ("unsafe", "extern", "fn"):
            return self.function()
        if self.eat("<"):
            subject = self.type()
            bound = self.bound() if self.eat("as") else None
            self.need(">")
            self.need("::")
            return Projection(subject, bound, self.word())
        if kind in ("word", "mark"):
            return self.path_type()
        raise self.expected("a type", value)

    def rest_of_slice_or_array(self) -> Type:
        element = self.type()
        if self.eat(";"):
            length = self.constant()
            self.need("]")
            return Array(element, length)
        self.need("]")
        return Slice(element)

    def function(self) -> Type:
        before = ""
        while not self.eat("fn"):
            before += self.peek()[1]
            self.at += 1
            if self.at_end():
                raise NotUnderstood("`fn` expected")
        name = before.partition("extern")[2].strip('"') or ("C" if "extern" in before else "")
        self.need("(")
        inputs: list[Type] = []
        while not self.eat(")"):
            if self.peek()[0] == "word" and self.peek(1)[1] == ":":
                self.at += 2
            if self.eat("..."):
                raise NotUnderstood("a variadic fn")
            inputs.append(self.type())
            self.eat(",")
        return Function(tuple(inputs), self.type() if self.eat("->") else UNIT, qualifier("unsafe" in before, name))

    def path_type(self) -> Type:
        kind, value = self.peek()
        if kind == "word" and self.peek(1)[1] == "::" and self.peek(2)[0] == "word" and (value == "Self" or value in self.scope()):
            self.at += 1
            return Parameter(value)
        self.wants_trait = False
        what, key, name = self.path()
        if what == "word":
            if name in PRIMITIVES or name in FLOATS:
                return Primitive(name)
            if name == "_":
                return Unsayable("`_`")
            return Parameter(name)
        if key is None:
            raise NotUnderstood(f"no page of `{name}`")
        if what == "trait":
            raise NotUnderstood(f"`{name}` is a trait, and a type is wanted; its objects are `dyn {name}`")
        arguments, _ = self.arguments()
        return Alias(key, tuple(arguments)) if what == "type" else Named(key, tuple(arguments))

    def scope(self) -> frozenset[str]:
        """Names that are parameters where `name::Item` is read: in the documents paths are links, so any short or plain name."""
        if self.params is not None:
            return frozenset(self.params)
        return frozenset(v for k, v in self.tokens if k == "word" and (len(v) <= 2 or v[0].isupper()))
