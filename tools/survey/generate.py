"""Queries about the public types and traits of a crate, drawn by a seed: the translator answers each, and rustc compiles it.

They are only plausible. The comparison drops a query that rustc does not take as well-formed.
"""
from __future__ import annotations

import random
from dataclasses import dataclass, field, replace
from typing import Callable, Optional

from .documents import TYPES, Crate, Json, body_of
from .rust import FN_TRAITS, NotWritten, Parameters, Printer, parameters

AUTO = ("Send", "Sync", "Unpin", "std::panic::UnwindSafe", "std::panic::RefUnwindSafe")
PLAIN = ("Clone", "Copy", "std::fmt::Debug", "Default", "PartialEq", "Eq", "PartialOrd", "Ord", "std::hash::Hash", "std::fmt::Display",
         "std::error::Error", "Iterator", "IntoIterator", "DoubleEndedIterator", "ExactSizeIterator", "std::iter::FusedIterator", "ToString", "ToOwned",
         "std::str::FromStr", "std::io::Read", "std::io::Write", "std::future::Future", "std::ops::Deref", "std::ops::DerefMut", "std::hash::Hasher",
         "std::hash::BuildHasher", "std::ops::Not", "std::ops::Neg", "std::fmt::Write", "std::any::Any", "std::iter::Sum", "Sized")
WITH_ARGUMENT = ("From", "Into", "TryFrom", "TryInto", "AsRef", "AsMut", "std::borrow::Borrow", "std::borrow::BorrowMut", "PartialEq", "PartialOrd", "Extend",
                 "FromIterator", "std::ops::Add", "std::ops::Sub", "std::ops::Mul", "std::ops::Index", "std::ops::AddAssign", "std::ops::BitOr", "std::ops::Shl")
POOL = ("u8", "usize", "i32", "bool", "char", "()", "f64", "String", "&'static str", "Vec<u8>", "Option<String>", "[u8; 4]", "&'static [u8]", "Box<str>",
        "std::rc::Rc<u8>", "std::sync::Arc<str>", "std::cell::Cell<u8>", "*const u8", "std::io::Error", "(u8, String)", "fn(u8) -> bool",
        "std::collections::HashMap<String, u8>", "std::num::NonZeroU32", "std::time::Duration", "Box<dyn std::error::Error + Send + Sync>")
UNSIZED = ("str", "[u8]", "dyn std::fmt::Debug", "(dyn std::error::Error + Send)")
AROUND = ("Vec<{}>", "Option<{}>", "std::rc::Rc<{}>", "std::sync::Arc<{}>", "std::cell::Cell<{}>", "std::cell::RefCell<{}>", "Box<{}>", "std::sync::Mutex<{}>",
          "std::marker::PhantomData<{}>", "std::collections::HashMap<u8, {}>", "std::collections::BTreeMap<{}, u8>", "&'static {}", "&'static mut {}", "*const {}",
          "({}, u8)", "[{}; 2]", "[{}; 40]", "fn({}) -> u8", "[{}]", "Result<{}, std::fmt::Error>", "std::pin::Pin<Box<{}>>", "std::borrow::Cow<'static, {}>")
ITERATORS = ("std::vec::IntoIter<u8>", "std::ops::Range<usize>", "std::slice::Iter<'static, u8>", "std::option::IntoIter<String>", "std::iter::Empty<(u8, String)>")
FUTURES = ("std::future::Ready<u8>", "std::future::Pending<String>", "std::pin::Pin<Box<dyn std::future::Future<Output = u8> + Send>>")
FITTING: dict[str, tuple[str, ...]] = {
    "Iterator": ITERATORS, "DoubleEndedIterator": ITERATORS, "ExactSizeIterator": ITERATORS, "FusedIterator": ITERATORS,
    "IntoIterator": (*ITERATORS, "Vec<String>", "[u8; 4]"), "Future": FUTURES, "IntoFuture": FUTURES,
    "Read": ("std::io::Cursor<Vec<u8>>", "std::io::Empty", "&'static [u8]"), "BufRead": ("std::io::Cursor<Vec<u8>>", "&'static [u8]"),
    "Write": ("Vec<u8>", "std::io::Sink", "String"), "Seek": ("std::io::Cursor<Vec<u8>>",), "Error": ("std::io::Error", "std::fmt::Error"),
    "BuildHasher": ("std::collections::hash_map::RandomState",), "Hasher": ("std::collections::hash_map::DefaultHasher",),
    "AsRef": ("Vec<u8>", "String", "&'static str"), "Deref": ("Box<u8>", "std::sync::Arc<str>", "String"), "DerefMut": ("Box<u8>", "Vec<u8>"),
    "Borrow": ("u8", "String", "Vec<u8>"), "Error + Send": ("std::io::Error",)}
ASSOCIATED = {"Iterator": "Item", "IntoIterator": "Item", "Future": "Output", "Deref": "Target", "Add": "Output", "Sub": "Output", "Mul": "Output",
              "Not": "Output", "Index": "Output", "FromStr": "Err", "TryFrom": "Error", "ToOwned": "Owned", "Neg": "Output"}
MAXIMAL_PARAMETERS = 8


@dataclass(frozen=True)
class Query:
    """`<params> subject: bounds where clauses`; `kind` says how it was drawn."""
    kind: str
    subject: str
    bounds: tuple[str, ...]
    params: tuple[str, ...] = ()
    clauses: tuple[str, ...] = ()

    def written(self) -> str:
        """As `from-rustdoc ask` reads it."""
        head = f"<{', '.join(self.params)}> " if self.params else ""
        tail = f" where {', '.join(self.clauses)}" if self.clauses else ""
        return f"{head}{self.subject}: {' + '.join(self.bounds)}{tail}"

    def parts(self) -> list[str]:
        """This query as queries of one bound each."""
        return [replace(self, bounds=(bound,)).written() for bound in self.bounds]

    def rust(self, number: int) -> list[str]:
        """Three lines: one that rustc takes if the bounds are well-formed, one if the subject is, and one if the bounds hold."""
        params = [p if p.startswith("const ") else f"{p}: 'static" for p in self.params]
        names = [p.split(":")[0].replace("const ", "") for p in self.params]
        where = f" where {', '.join(self.clauses)}" if self.clauses else ""
        also = f", {', '.join(self.clauses)}" if self.clauses else ""
        return [f"fn n{number}<{', '.join(['X_: ?Sized', *params])}>() where X_: {' + '.join(self.bounds)}{also} {{}}",
                f"fn w{number}<{', '.join(params)}>(_: &{self.subject}){where} {{}}",
                f"fn q{number}<{', '.join(params)}>(){where} {{ n{number}::<{', '.join([self.subject, *names])}>() }}"]


@dataclass
class Drawn:
    """A type, with the parameters and where-clauses of a query about it. `open` are its type parameters, `own` their declared bounds."""
    text: str
    params: list[str] = field(default_factory=list)
    clauses: list[str] = field(default_factory=list)
    open: list[str] = field(default_factory=list)
    own: Optional[Parameters] = None


class Generator:
    def __init__(self, crate: Crate, seed: str) -> None:
        self.crate = crate
        self.draw = random.Random(seed)
        self.types = crate.of_kinds(TYPES)
        self.traits = crate.of_kinds(("trait",))
        self.impls = crate.impls
        self.makers: list[tuple[int, Callable[[], Query]]] = [
            (16, self.auto), (18, self.plain), (14, self.own_trait), (22, self.of_impl), (18, self.associated), (6, self.function), (6, self.joined)]

    def queries(self, count: int) -> list[Query]:
        """As many as can be drawn in a reasonable number of attempts, each once."""
        found: dict[str, Query] = {}
        weights = [weight for weight, _ in self.makers]
        for _ in range(count * 30):
            if len(found) == count or not self.types and not self.impls:
                break
            _, make = self.draw.choices(self.makers, weights)[0]
            try:
                query = make()
            except (NotWritten, IndexError):
                continue
            if len(query.params) <= MAXIMAL_PARAMETERS:
                found.setdefault(query.written(), query)
        return list(found.values())

    def is_drawn(self, chance: float) -> bool:
        return self.draw.random() < chance

    # ---- types
    def any_type(self) -> str:
        """A term where nothing is known."""
        if self.types and self.is_drawn(0.25):
            return self.type(is_open=False).text
        return self.draw.choice(POOL)

    def type(self, is_open: bool, depth: int = 0) -> Drawn:
        """A public type of the crate, with arguments, or with its parameters as they are declared."""
        number = self.draw.choice(self.types)
        own = parameters(body_of(self.crate.index[number])["generics"])
        path = "::".join(self.crate.public[number])
        return self.applied(path, own, body_of(self.crate.index[number])["generics"], is_open and bool(own.names), depth)

    def applied(self, path: str, own: Parameters, generics: Json, is_open: bool, depth: int) -> Drawn:
        arguments, values = [], self.values(own, is_open, depth)
        for parameter in generics["params"]:
            if "lifetime" in parameter["kind"]:
                arguments.append("'static")
            elif parameter["name"] in own.names:
                arguments.append(values.get(parameter["name"], parameter["name"]))
        drawn = Drawn(path + (f"<{', '.join(arguments)}>" if arguments else ""), own=own)
        if is_open:
            self.open(drawn, own, values)
        return drawn

    def open(self, drawn: Drawn, own: Parameters, values: dict[str, str]) -> None:
        """Gives a drawn type the parameters that stay, with what is declared of them."""
        printer = Printer(self.crate, values)
        for name in own.names:
            if name not in values:
                drawn.params.append(f"const {name}: {own.consts[name]}" if name in own.consts else name)
                drawn.open += [name] * (name not in own.consts)
        drawn.clauses += [f"{name}: ?Sized" for name in sorted(own.unsized) if name in drawn.open]
        drawn.clauses += [printer.clause(subject, bound) for subject, bound in own.bounds]

    def values(self, own: Parameters, is_open: bool, depth: int) -> dict[str, str]:
        """A text for each parameter, and nothing for those that stay."""
        values: dict[str, str] = {}
        for name in own.names:
            if name in own.consts:
                if not is_open:
                    values[name] = {"bool": "true", "char": "'x'"}.get(own.consts[name], self.draw.choice(("0", "3", "16", "33")))
            elif not is_open or own.names != [name] and self.is_drawn(0.15):
                values[name] = self.argument(name, own, values, depth)
        return values

    def argument(self, name: str, own: Parameters, values: dict[str, str], depth: int) -> str:
        bounds = [b for b in own.bounds_of(name) if b["trait_bound"]["trait"]["path"].split("::")[-1] not in AUTO]
        if bounds and not self.is_drawn(0.1):
            fitting = self.fitting(self.draw.choice(bounds)["trait_bound"]["trait"], values)
            if fitting:
                return self.draw.choice(fitting)
        if name in own.defaults and self.is_drawn(0.5):
            return Printer(self.crate, values).type(own.defaults[name])
        if name in own.unsized and self.is_drawn(0.2):
            return self.draw.choice(UNSIZED)
        if depth < 2 and self.types and self.is_drawn(0.15):
            return self.type(False, depth + 1).text
        return self.draw.choice(POOL)

    def fitting(self, trait: Json, values: dict[str, str]) -> list[str]:
        """Types that may have a trait: of a list for std's, those with an impl without parameters for the crate's own."""
        name = trait["path"].split("::")[-1]
        if name in FN_TRAITS:
            signature = (trait["args"] or {}).get("parenthesized")
            if signature is None:
                return []
            written = Printer(self.crate, values).arguments({"parenthesized": signature})
            return ["fn" + written]
        if name in FITTING and trait["id"] not in self.crate.index:
            return list(FITTING[name])
        found = []
        for impl in self.impls:
            if impl["trait"]["id"] == trait["id"] and not impl["generics"]["params"] and not impl["is_negative"]:
                try:
                    found.append(Printer(self.crate).type(impl["for"]))
                except NotWritten:
                    continue
        return found

    def around(self, text: str) -> str:
        return self.draw.choice(AROUND).format(text) if self.is_drawn(0.35) else text

    # ---- bounds
    def plain_bound(self, subject: str) -> str:
        if self.is_drawn(0.6):
            return self.draw.choice(PLAIN)
        argument = subject if self.is_drawn(0.2) else self.any_type()
        return f"{self.draw.choice(WITH_ARGUMENT)}<{argument}>"

    def own_bound(self, drawn: Drawn) -> str:
        """A public trait of the crate, or one that it implements; its arguments are concrete, or parameters of the subject."""
        number = self.draw.choice(self.traits)
        own = parameters(body_of(self.crate.index[number])["generics"])
        values: dict[str, str] = {"Self": drawn.text}
        arguments = []
        for name in own.names:
            if name in own.defaults and self.is_drawn(0.5):
                break
            stays = bool(drawn.open) and name not in own.consts and self.is_drawn(0.3)
            values[name] = self.draw.choice(drawn.open) if stays else self.values(own, False, 1)[name]
            arguments.append(values[name])
        lifetimes = ["'static" for p in body_of(self.crate.index[number])["generics"]["params"] if "lifetime" in p["kind"]]
        path = "::".join(self.crate.public[number])
        return path + (f"<{', '.join(lifetimes + arguments)}>" if lifetimes + arguments else "")

    def bound(self, drawn: Drawn) -> str:
        chance = self.draw.random()
        if chance < 0.4:
            return self.draw.choice(AUTO)
        return self.own_bound(drawn) if chance < 0.6 and self.traits else self.plain_bound(drawn.text)

    def more_clauses(self, drawn: Drawn, bounds: tuple[str, ...]) -> list[str]:
        """Clauses on the parameters that stay: the bounds of the query, others, and some on their associated types."""
        found: list[str] = []
        for name in drawn.open:
            chance = self.draw.random()
            if chance < 0.5:
                found += [f"{name}: {bound}" for bound in bounds if drawn.text not in bound]
            elif chance < 0.65:
                found.append(f"{name}: {self.draw.choice((*AUTO, *PLAIN[:10]))}")
            for bound in drawn.own.bounds_of(name) if drawn.own is not None and self.is_drawn(0.5) else ():
                trait = bound["trait_bound"]["trait"]
                associated = ASSOCIATED.get(trait["path"].split("::")[-1]) or next(iter(self.crate.associated(trait["id"])), None)
                if associated is not None and not trait["args"]:
                    path = Printer(self.crate).path(trait["id"], trait["path"])
                    value = f"<{name} as {path}>::{associated}: {self.draw.choice((*AUTO, *PLAIN[:8]))}"
                    found.append(value if self.is_drawn(0.6) else f"{name}: {path}<{associated} = {self.draw.choice(POOL)}>")
        return found

    # ---- queries
    def query(self, kind: str, drawn: Drawn, bounds: tuple[str, ...]) -> Query:
        clauses = list(dict.fromkeys(drawn.clauses + self.more_clauses(drawn, bounds)))
        return Query(kind, self.around(drawn.text), bounds, tuple(drawn.params), tuple(clauses))

    def auto(self) -> Query:
        return self.query("auto trait", self.type(self.is_drawn(0.5)), (self.draw.choice(AUTO),))

    def plain(self) -> Query:
        drawn = self.type(self.is_drawn(0.45))
        return self.query("trait of std", drawn, (self.plain_bound(drawn.text),))

    def own_trait(self) -> Query:
        drawn = self.type(self.is_drawn(0.4)) if self.is_drawn(0.6) else Drawn(self.any_type())
        return self.query("own trait", drawn, (self.own_bound(drawn),))

    def joined(self) -> Query:
        drawn = self.type(self.is_drawn(0.5))
        bounds = dict.fromkeys(self.bound(drawn) for _ in range(self.draw.choice((2, 2, 3))))
        return self.query("A + B", drawn, tuple(bounds))

    def header(self, impl: Json, is_open: bool) -> tuple[Drawn, Printer]:
        """The type of an impl with arguments, or with the impl's parameters and clauses."""
        own = parameters(impl["generics"])
        values = self.values(own, is_open, 1)
        printer = Printer(self.crate, values)
        drawn = Drawn(printer.type(impl["for"]), own=own)
        printer.values["Self"] = drawn.text
        if is_open:
            self.open(drawn, own, values)
        return drawn, printer

    def of_impl(self) -> Query:
        """What an impl says, or says nearly: with all of its clauses, or with one less."""
        impl = self.draw.choice(self.impls)
        drawn, printer = self.header(impl, self.is_drawn(0.6))
        clauses = [c for c in drawn.clauses if not c.endswith("?Sized")]
        if clauses and self.is_drawn(0.4):
            drawn.clauses.remove(self.draw.choice(clauses))
        return Query("of an impl", drawn.text, (printer.trait(impl["trait"]),), tuple(drawn.params), tuple(drawn.clauses))

    def associated(self) -> Query:
        """The value of an associated type: the right one or another, or a bound on it, or on a type that contains it."""
        impl = self.draw.choice([i for i in self.impls if self.crate.values(i) and not i["is_negative"]])
        drawn, printer = self.header(impl, self.is_drawn(0.5))
        name, value = self.draw.choice(sorted(self.crate.values(impl).items()))
        trait = printer.trait(impl["trait"])
        projection = f"<{drawn.text} as {trait}>::{name}"
        chance = self.draw.random()
        if chance < 0.5:
            right = printer.type(value) if self.is_drawn(0.6) else self.any_type()
            constrained = trait[:-1] + f", {name} = {right}>" if trait.endswith(">") else f"{trait}<{name} = {right}>"
            return Query("associated type", drawn.text, (constrained,), tuple(drawn.params), tuple(drawn.clauses))
        text = projection if chance < 0.8 else self.draw.choice(AROUND).format(projection)
        return Query("projection", text, (self.bound(Drawn(self.any_type())),), tuple(drawn.params), tuple(drawn.clauses))

    def function(self) -> Query:
        """A function or a boxed one, as `Fn(A) -> B`."""
        first, second = self.any_type(), self.any_type()
        name = self.draw.choice(FN_TRAITS)
        subject = self.draw.choice((f"fn({first}) -> {second}", f"Box<dyn {name}({first}) -> {second}>", f"&'static dyn Fn({first}) -> {second}", self.any_type()))
        bound = self.draw.choice((f"{name}({first}) -> {second}", f"{name}({first}) -> {second}", f"{name}({second}) -> {first}", f"{name}({first})"))
        return Query("function", subject, (bound,))
