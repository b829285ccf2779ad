"""Types, bounds and impls as Rust writes them, for reports and for queries to rustc."""
from __future__ import annotations

from ..read.html_docs import is_std_key
from ..read.terms import (UNIT, Alias, Array, Bound, BoundsOf, Constant, Declaration, Dyn, Function, Impl, Lossy, Named, Never, Parameter, Pointer, Primitive,
                          Projection, Reference, Slice, Tuple, Type, Unknown, Unsayable)
from .world import World


PRELUDE = """AsMut AsRef Box Clone Copy Default DoubleEndedIterator Drop Eq ExactSizeIterator Extend Fn FnMut FnOnce From FromIterator Into IntoIterator
             Iterator Option Ord PartialEq PartialOrd Result Send Sized String Sync ToOwned ToString TryFrom TryInto Unpin Vec""".split()


class Show:
    """With `exact` a path is the public path of the item, and what has none is lossy; else its last name will do. With `pasted` it
    can be pasted into a crate: lifetimes are `'_`, and what is not in Rust's prelude has its path."""

    def __init__(self, world: World, exact: bool = False, pasted: bool = False) -> None:
        self.world = world
        self.exact = exact
        self.pasted = pasted

    def path(self, key: str) -> str:
        try:
            declaration = self.world.get(key)
        except Lossy:
            if self.exact:
                raise
            return key.split("@")[-1].split(".")[-1].split("::")[-1].split(":")[-1].lstrip("?")
        if is_std_key(declaration.key):
            is_whole = self.exact or self.pasted and declaration.name not in PRELUDE
            return "::".join(self.world.pages.rust_path(declaration.key)) if is_whole else declaration.name
        if declaration.public_path:
            return "::".join(declaration.public_path)
        if self.exact:
            raise Lossy(f"{declaration.name} has no public path")
        return f"{declaration.crate}::{declaration.name}"

    def applied(self, key: str, terms: tuple[Type, ...], constraints: tuple[tuple[str, Type], ...] = ()) -> str:
        """An item with its arguments."""
        declaration = self.world.known(key) if self.pasted else None
        written = ["'_"] * (declaration.lifetimes if declaration is not None else 0) + [self.type(t) for t in terms]
        for name, value in constraints:
            written.append(f"{name}: {self.bounds(value.bounds)}" if isinstance(value, BoundsOf) else f"{name} = {self.type(value)}")
        return self.path(key) + (f"<{', '.join(written)}>" if written else "")

    def bound(self, bound: Bound) -> str:
        return ("?" if bound.maybe else "") + self.applied(bound.key, bound.arguments, bound.constraints)

    def bounds(self, bounds: tuple[Bound, ...]) -> str:
        return " + ".join(self.bound(b) for b in bounds)

    def type(self, term: Type) -> str:
        static = "'static " if self.exact else ""
        match term:
            case Primitive(name) | Parameter(name):
                return name
            case Unknown(name):
                return "?" + name
            case Never():
                return "!"
            case Reference(mutable, target):
                return f"&{static}{'mut ' if mutable else ''}{self.type(target)}"
            case Pointer(mutable, target):
                return f"*{'mut' if mutable else 'const'} {self.type(target)}"
            case Slice(element):
                return f"[{self.type(element)}]"
            case Array(element, length):
                return f"[{self.type(element)}; {length}]"
            case Tuple(items):
                return f"({self.type(items[0])},)" if len(items) == 1 else f"({', '.join(map(self.type, items))})"
            case Function(inputs, output, how):
                return f"{how}fn({', '.join(map(self.type, inputs))})" + ("" if output == UNIT else f" -> {self.type(output)}")
            case Dyn(bounds):
                return f"(dyn {self.bounds(bounds)})" if len(bounds) > 1 else f"dyn {self.bounds(bounds)}"
            case Named(key, arguments) if key in self.world.shape_of_key:
                return self.type(self.world.shape_of_key[key].dyn(arguments))
            case Named(key, arguments) | Alias(key, arguments):
                return self.applied(key, arguments)
            case Constant(text):
                return text
            case Projection(subject, bound, name):
                return f"<{self.type(subject)} as {self.bound(bound)}>::{name}" if bound else f"{self.type(subject)}::{name}"
            case BoundsOf(bounds):
                return f"impl {self.bounds(bounds)}"
            case Unsayable(why):
                if self.exact:
                    raise Lossy(why)
                return f"_ /* {why} */"
        raise Lossy("a type that Rust does not write")

    def header(self, impl: Impl) -> str:
        """`impl<T> Trait for Type`, without where-clauses."""
        if impl.trait is None:
            return impl.source
        params = ", ".join(("const " if p.kind == "const" else "") + p.name for p in impl.params)
        return f"impl{f'<{params}>' if params else ''} {'!' if impl.is_negative else ''}{self.bound(impl.trait)} for {self.type(impl.self_type)}"

    def item(self, declaration: Declaration) -> str:
        return self.path(declaration.key)
