"""The standard library, read from its documents into the intermediate form: declarations, the impls of a trait, auto traits of a type.

`found` counts: each impl header that is read is stored there, and what becomes of it is put next to it later. None goes without a word.
"""
from __future__ import annotations

import re
from dataclasses import dataclass, replace
from typing import Iterator, Optional

from .headers import NotUnderstood, Reader
from .html_docs import Pages, is_std_key, kind_and_name, rust_crate_of
from .terms import (ANY_HEAD, FUNCTIONS, Array, Bound, Declaration, Function, Impl, Named, Param, Parameter, Predicate, Primitive, Reference, Slice, Tuple,
                    Type, head_of, parameters_of, put, put_bound, rebuilt, rebuilt_bound, walk)

# Of core and alloc one crate is made: core's impls reason about alloc's types by negative impls, which a text has not.
HOMES = {"core": "alloc", "alloc": "alloc"}
FN_TRAITS = ("FnOnce", "FnMut", "Fn")
MAXIMAL_ITEMS = 12
FROM_THE_TOP = "trait.impl"
# Behind this a page has the impls of auto traits that nobody wrote.
COMPUTED = 'id="synthetic-implementations"'
MANY = re.compile(r"\((\w+)₁, \1₂, …, \1ₙ\)")

# Structs of std whose last field may be unsized: private fields are not in the documents. "" stands for the first parameter.
TAILS = {"Cell": "", "UnsafeCell": "", "RefCell": "", "Mutex": "", "RwLock": "", "ManuallyDrop": "", "SyncUnsafeCell": "",
         "Exclusive": "", "ReentrantLock": "", "SyncView": "", "MaybeDangling": "", "UnsafePinned": "", "OsStr": "str",
         "Path": "str", "CStr": "str", "ByteStr": "str", "BStr": "str"}


@dataclass
class Header:
    """An impl header that was found. `fate` is "in the text", "pruned: .." or "reported: ..", or why it need not be
    there ("no impl of a trait"); empty while nothing is known."""
    text: str
    page: str
    fate: str = ""


def home_of(rust_crate: str) -> str:
    return HOMES.get(rust_crate, "std")


def without_thin(predicates: list[Predicate]) -> list[Predicate]:
    """`T: ?Sized + Thin` as `T: Sized`: `Thin` is an alias, and of the types that a text has those are thin that are sized."""
    thin = {subject for subject, bound in predicates if bound.key == "?Thin"}
    return [(t, b) for t, b in predicates if b.key != "?Thin" and not (t in thin and b.maybe)]


class Standard:
    def __init__(self, pages: Pages) -> None:
        self.pages = pages
        self.declarations: dict[str, Declaration] = {}
        self.found: list[Header] = []
        self.values: dict[str, dict[str, dict[str, Type]]] = {}
        self.by_head: dict[str, list[tuple[str, Impl]]] = {}
        self.autos: dict[str, list[tuple[str, str, Impl]]] = {}

    # ---- declarations
    def declaration(self, key: str) -> Declaration:
        if key in self.declarations:
            return self.declarations[key]
        path, text = self.pages.page(self.pages.own_page(key))
        kind, name = kind_and_name(key)
        declaration = Declaration(kind, key, home_of(rust_crate_of(key)), name, source="std: " + path, path=path)
        declaration.is_enum = kind in ("enum", "union")
        self.declarations[key] = declaration
        fragment = re.search(r'item-decl"><code>(.*?)</code></pre>', text, re.S)
        if not fragment:
            declaration.not_understood = f"the page {path} has no declaration"
            return declaration
        reader = self.pages.reader(fragment.group(1), path)
        declaration.is_auto = "auto trait" in reader.text
        params = re.search(rf"\b{name}<([^>]*)>", reader.text)
        declaration.lifetimes = sum(param.strip().startswith("'") for param in params.group(1).split(",")) if params else 0
        declaration.is_fundamental = ("#[fundamental]" in reader.text or (kind == "struct" and name in ("Box", "Pin"))
                                      or (kind == "trait" and name in FN_TRAITS))
        associated = re.findall(r'type <a href="#associatedtype\.([A-Za-z0-9_]+)', fragment.group(1))
        declaration.associated = set(associated)
        try:
            self.read_item_bounds(declaration, fragment.group(1))
            self.read_declaration(declaration, reader)
        except NotUnderstood as error:
            declaration.not_understood = str(error)
        if kind == "struct" and name in TAILS:
            if TAILS[name]:
                declaration.tail = Primitive(TAILS[name])
            elif declaration.params:
                declaration.tail = Parameter(declaration.params[0].name)
        return declaration

    def read_item_bounds(self, declaration: Declaration, fragment: str) -> None:
        """The bounds of associated types: `type IntoIter: Iterator<Item = Self::Item>;`."""
        for name, rest in re.findall(r'type <a href="#associatedtype\.([A-Za-z0-9_]+)"[^>]*>[^<]*</a>(.*?);(?=\s|$)', fragment, re.S):
            reader = self.pages.reader(rest, declaration.path)
            if reader.eat(":"):
                declaration.item_bounds[name] = reader.bounds()

    @staticmethod
    def read_declaration(declaration: Declaration, reader: Reader) -> None:
        while not (reader.peek()[1] in ("struct", "enum", "union", "trait", "type") and reader.peek(1)[1] == declaration.name):
            if reader.at_end():
                raise NotUnderstood("no declaration on its page")
            reader.at += 1
        reader.at += 2
        declaration.params, declaration.predicates = reader.generics()
        if declaration.is_trait and reader.eat(":"):
            declaration.supers = reader.bounds()
        if declaration.kind == "type":
            reader.need("=")
            declaration.fields = [reader.type()]
        if reader.eat("where"):
            declaration.predicates += reader.where()

    # ---- impls
    def impls_of_trait(self, key: str) -> list[tuple[Header, Impl]]:
        """All impls of a trait of std in core, alloc and std, from its page and from `trait.impl`."""
        page, text = self.pages.page(self.pages.own_page(key))
        written = [(fragment, page, rest, rust_crate_of(key)) for fragment, rest in self.pages.impl_sections(text)]
        written += [(fragment, FROM_THE_TOP, "", crate) for crate, fragment in self.pages.foreign_headers(page, text)
                    if crate != rust_crate_of(key)]
        impls: list[tuple[Header, Impl]] = []
        for fragment, place, rest, crate in written:
            header = Header(Pages.plain(fragment), page)
            self.found.append(header)
            if " for " not in header.text:
                header.fate = "no impl of a trait"
                continue
            impls += [(header, impl) for impl in self.expanded(fragment, place, rest, crate)]
        return impls

    def auto_impls(self, key: str) -> list[tuple[Header, Impl]]:
        """The impls of auto traits for a type of std, computed ones too, from its page."""
        if key not in self.autos:
            self.autos[key] = self.read_auto_impls(key)
        rows = [(Header(text, page), impl) for text, page, impl in self.autos[key]]
        self.found += [h for h, _ in rows]
        return rows

    def read_auto_impls(self, key: str) -> list[tuple[str, str, Impl]]:
        page, text = self.pages.page(self.pages.own_page(key))
        impls: list[tuple[str, str, Impl]] = []
        written, _, computed = text.partition(COMPUTED)
        for fragment, is_computed in [(f, False) for f, _ in self.pages.impl_sections(written)] + [(f, True) for f, _ in self.pages.impl_sections(computed)]:
            impl = self.impl(fragment, page, "", rust_crate_of(key))
            if impl.trait is None or not is_std_key(impl.trait.key) or not self.declaration(impl.trait.key).is_auto:
                continue
            impl.is_computed = is_computed
            impls.append((Pages.plain(fragment), page, impl))
        return impls

    def impls_with_head(self, key: str, head: Optional[str]) -> list[Impl]:
        """The impls of a trait whose self type may have the head; all of them for None. `impls_of_trait` counts headers, this does not."""
        if key not in self.by_head:
            before = len(self.found)
            self.by_head[key] = [(head_of(i.self_type), i) for _, i in self.impls_of_trait(key)]
            del self.found[before:]
        return [i for its, i in self.by_head[key] if head is None or its in (head, ANY_HEAD)]

    def traits_on(self, path: str) -> list[str]:
        """The keys of the traits of which the page of a type shows an impl: written, blanket and computed ones."""
        try:
            page, text = self.pages.page(path)
        except NotUnderstood:
            return []
        impls = [self.impl(fragment, page, "", page.split("/")[0]) for fragment, _ in self.pages.impl_sections(text)]
        return list(dict.fromkeys(impl.trait.key for impl in impls if impl.trait is not None and is_std_key(impl.trait.key)))

    def impl(self, fragment: str, page: str, rest: str, crate: str) -> Impl:
        impl = Impl(home_of(crate), "std: " + Pages.plain(fragment))
        try:
            reader = self.pages.reader(fragment, page)
            reader.eat("unsafe")
            reader.eat("const")
            reader.need("impl")
            impl.params, impl.predicates = reader.generics()
            reader.eat("const")
            impl.is_negative = reader.eat("!")
            trait = reader.bound()
            reader.need("for")
            impl.self_type = reader.type()
            if reader.eat("where"):
                impl.predicates += reader.where()
            if not reader.at_end():
                raise NotUnderstood(f"`{reader.peek()[1]}` after the header")
            impl.predicates = without_thin(impl.predicates)
            impl.trait = trait
            impl.associated = self.associated(rest, page)
            self.narrow(impl)
        except NotUnderstood as error:
            impl.error = str(error)
        return impl

    def narrow(self, impl: Impl) -> None:
        """`IntoIterator` for boxed slices: that it does not meet `impl<I: Iterator> IntoIterator for I` std says by negative impls, with
        any allocator; a text can say it of `Global` alone."""
        inner = impl.self_type
        while isinstance(inner, Reference):
            inner = inner.target
        if not (impl.trait and impl.trait.key.endswith("@trait.IntoIterator") and isinstance(inner, Named) and inner.key.endswith("@struct.Box")):
            return
        allocator = self.declaration(inner.key).params[-1]
        if len(inner.arguments) == 2 and isinstance(inner.arguments[0], Slice) and isinstance(inner.arguments[1], Parameter) and allocator.default:
            values = {inner.arguments[1].name: allocator.default}
            impl.self_type = put(impl.self_type, values)
            impl.predicates = [(t, b) for t, b in impl.predicates if t != inner.arguments[1]]
            impl.params = [p for p in impl.params if p.name not in values]
            impl.narrowed = "for the allocator `Global` alone: that others do not meet `impl IntoIterator for I` is said by negative impls"

    def associated(self, rest: str, page: str) -> dict[str, Type]:
        values: dict[str, Type] = {}
        for section in re.findall(r'<section id="associatedtype[^>]*>(.*?)</section>', rest, re.S):
            found = re.search(r'<h4 class="code-header">(.*?)</h4>', section, re.S)
            if not found:
                continue
            reader = self.pages.reader(found.group(1), page)
            try:
                if reader.eat("type"):
                    name = reader.word()
                    if reader.eat("="):
                        values[name] = reader.type()
            except NotUnderstood:
                pass
        return values

    def associated_type(self, impl: Impl, name: str) -> Optional[Type]:
        """The value of an associated type of an impl of std, if the page of a type that its header names shows it: that of `Vec` has
        `impl IntoIterator for &Vec<T, A>`."""
        if not impl.source.startswith("std: ") or impl.trait is None:
            return None
        named = (part.key for term in (impl.self_type, *impl.trait.arguments) for part in walk(term) if isinstance(part, Named) and is_std_key(part.key))
        return next((found[name] for found in (self.values_on(key).get(impl.source, {}) for key in dict.fromkeys(named)) if name in found), None)

    def values_on(self, key: str) -> dict[str, dict[str, Type]]:
        """The values of associated types that the page of a type shows, by the headers of the impls."""
        if key not in self.values:
            self.values[key] = self.read_values(key)
        return self.values[key]

    def read_values(self, key: str) -> dict[str, dict[str, Type]]:
        page, text = self.pages.page(self.pages.own_page(key))
        found = {"std: " + Pages.plain(fragment): self.associated(rest, page) for fragment, rest in self.pages.impl_sections(text)}
        return {header: values for header, values in found.items() if values}

    # ---- headers that stand for many
    def expanded(self, fragment: str, page: str, rest: str, crate: str) -> Iterator[Impl]:
        names = set(MANY.findall(fragment))
        if names:
            for count in range(1, MAXIMAL_ITEMS + 1):
                impl = self.impl(MANY.sub(r"(\1,)", fragment), page, rest, crate)
                if impl.trait is not None:
                    if "[T; N]" in fragment:
                        self.repeat(impl, count)
                    else:
                        self.widen(impl, names, count)
                yield impl
            return
        impl = self.impl(fragment, page, rest, crate)
        if impl.trait is not None and isinstance(impl.self_type, Parameter) and any(
                t == impl.self_type and b.key.endswith("trait.FnPtr") for t, b in impl.predicates):
            for how in ("", *FUNCTIONS):
                for count in range(MAXIMAL_ITEMS + 1):
                    yield self.for_functions(impl, count, how)
            return
        yield impl

    @staticmethod
    def widen(impl: Impl, names: set[str], count: int) -> None:
        """The impl for tuples of one item becomes that for `count` items; `names` are the parameters that are repeated."""
        assert impl.trait is not None
        numbers = range(1, count + 1)

        def changed(term: Type) -> Type:
            if isinstance(term, Tuple) and len(term.items) == 1 and isinstance(term.items[0], Parameter) and term.items[0].name in names:
                return Tuple(tuple(Parameter(f"{term.items[0].name}{n}") for n in numbers))
            return rebuilt(term, changed)

        impl.self_type = changed(impl.self_type)
        impl.trait = rebuilt_bound(impl.trait, changed)
        impl.params = ([Param("type", f"{name}{n}") for n in numbers for name in sorted(names)]
                       + [p for p in impl.params if p.name not in names])
        predicates: list[Predicate] = []
        for subject, bound in impl.predicates:
            inside = parameters_of(subject).union(*map(parameters_of, bound.arguments)) & names
            for n in numbers if inside else [0]:
                values: dict[str, Type] = {name: Parameter(f"{name}{n}") for name in inside}
                predicates.append((put(subject, values), put_bound(bound, values)))
        impl.predicates = predicates
        impl.associated = {}

    @staticmethod
    def repeat(impl: Impl, count: int) -> None:
        """The impl between `[T; N]` and a tuple of one becomes that for `count` items of one type."""
        def changed(term: Type) -> Type:
            if term == Tuple((Parameter("T"),)):
                return Tuple((Parameter("T"),) * count)
            return Array(term.element, str(count)) if isinstance(term, Array) else term

        assert impl.trait is not None
        impl.self_type = changed(impl.self_type)
        impl.trait = replace(impl.trait, arguments=tuple(changed(a) for a in impl.trait.arguments))
        impl.params = [p for p in impl.params if p.kind == "type"]

    @staticmethod
    def for_functions(impl: Impl, count: int, how: str) -> Impl:
        """The impl for all `F: FnPtr` becomes that for fn pointers of `count` inputs."""
        assert impl.trait is not None and isinstance(impl.self_type, Parameter)
        names = [f"A{number}" for number in range(count)] + ["R"]
        function = Function(tuple(Parameter(n) for n in names[:-1]), Parameter("R"), how)
        special = impl.copy()
        special.params = [Param("type", n) for n in names]
        special.predicates = [(Parameter(n), Bound("?Sized", maybe=True)) for n in names]
        special.trait = put_bound(impl.trait, {impl.self_type.name: function})
        special.self_type = function
        return special
