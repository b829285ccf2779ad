"""From the text back to Rust: values of variables, as the program prints them, with the items' own names."""
from __future__ import annotations

from ..model.show import Show
from ..model.world import World
from ..read.headers import FLOATS, Named_, NotUnderstood, Reader
from ..read.html_docs import is_std_key
from ..read.standard import FN_TRAITS
from ..read.terms import FUNCTION_STRUCTS, UNIT, Bound, Constant, Function, Lossy, Named, Pointer, Primitive, Reference, Tuple, Type, rebuilt
from ..write.render import is_packed
from .names import Names


class Askable(Show):
    """Types as a query takes them: paths that name the item, and no arguments that are left to defaults."""

    def __init__(self, world: World) -> None:
        super().__init__(world)
        self.names = Names(world)

    def path(self, key: str) -> str:
        try:
            declaration = self.world.get(key)
        except Lossy:
            return super().path(key)
        if list(self.names.of_word(declaration.name)) == [declaration.key]:
            return declaration.name if is_std_key(declaration.key) else super().path(key)
        if not is_std_key(declaration.key):
            return super().path(key) if declaration.public_path or "#" in declaration.key else declaration.key
        words = self.world.pages.rust_path(declaration.key)
        return "::".join(["std", *words[1:]] if self.names.of_std(["std", *words[1:]]) == declaration.key else words)

    def bound(self, bound: Bound) -> str:
        """`FnOnce(u8) -> bool` as it is written."""
        declaration = self.world.known(bound.key)
        if declaration is None or declaration.name not in FN_TRAITS or not is_std_key(declaration.key):
            return super().bound(bound)
        inputs, outputs = bound.arguments[0] if bound.arguments else UNIT, [value for _, value in bound.constraints]
        if not isinstance(inputs, Tuple) or not outputs:
            return super().bound(bound)
        return f"{declaration.name}({', '.join(map(self.type, inputs.items))})" + (f" -> {self.type(outputs[0])}" if outputs[0] != UNIT else "")

    def type(self, term: Type) -> str:
        return super().type(shortened(self.world, term) if isinstance(term, Named) else term)


def shortened(world: World, term: Named) -> Named:
    """The type without arguments that are as their defaults are."""
    declaration = world.known(term.key)
    given = list(term.arguments)
    while declaration is not None and given and len(given) <= len(declaration.params) and declaration.params[len(given) - 1].default == given[-1]:
        given.pop()
    return Named(term.key, tuple(given))


class Back:
    def __init__(self, world: World) -> None:
        self.world = world
        self.show = Askable(world)
        self.keys = {name: key for key, name in world.names.items()}

    def lookup(self, words: list[str]) -> Named_:
        name = words[-1]
        if name in self.keys:
            kind = "trait" if self.world.get(self.keys[name]).is_trait else "struct"
            return kind, self.keys[name], name
        if name.startswith(("Ref_", "RefMut_", "PtrConst_", "PtrMut_", "Tuple")) or name in FLOATS or name in FUNCTION_STRUCTS:
            return "struct", name, name
        return "word", None, name

    def type(self, term: Type) -> Type:
        term = rebuilt(term, self.type)
        if isinstance(term, Named) and term.key in self.world.shape_of_key:
            return self.world.shape_of_key[term.key].dyn(term.arguments)
        known = self.world.known(term.key) if isinstance(term, Named) else None
        if isinstance(term, Named) and known is not None and is_packed(known.params):
            return Named(term.key, tuple(item for a in term.arguments for item in (a.items if isinstance(a, Tuple) else (a,))))
        if isinstance(term, Named) and known is None:
            if term.key in FLOATS:
                return Primitive(term.key)
            if term.key in FUNCTION_STRUCTS and isinstance(term.arguments[0], Tuple):
                return Function(term.arguments[0].items, term.arguments[1], FUNCTION_STRUCTS[term.key])
            if term.key.startswith("Tuple"):
                return Tuple(tuple(item for part in term.arguments if isinstance(part, Tuple) for item in part.items))
            target = term.arguments[0]
            return Reference("Mut" in term.key, target) if term.key.startswith("Ref") else Pointer("Mut" in term.key, target)
        return term

    def values(self, printed: str) -> str:
        """`?x = Ref_<str>, ?y = u8` as `?x = &str, ?y = u8`. Nothing if that cannot be read back."""
        return ", ".join(f"?{name} = {self.show.type(value)}" for name, value in self.found(printed).items())

    def found(self, printed: str) -> dict[str, Type]:
        """The values of the variables, by their names. None if they cannot be read back."""
        found: dict[str, Type] = {}
        reader = Reader(printed, self.lookup, unknowns=True)
        try:
            while not reader.at_end():
                name = reader.peek()[1]
                reader.at += 1
                reader.need("=")
                found[name[1:]] = Constant(reader.constant()) if reader.peek()[0] == "number" else self.type(reader.type())
                if not reader.eat(",") and not reader.at_end():
                    return {}
        except (NotUnderstood, IndexError):
            return {}
        return found
