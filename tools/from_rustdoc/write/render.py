"""Types and bounds as the text writes them, with what is lost on the way.

Every type of Rust has one form in the text (docs/RUSTDOC.md has the table). What has none is lossy: in a header a fresh
parameter stands for it, elsewhere the caller drops the whole clause or leaves the impl out. No other way is taken.
"""
from __future__ import annotations

import re
from dataclasses import dataclass, field, replace
from typing import Optional

from ..model.objects import OBJECT, above, has_values, shape_of
from ..model.world import World
from ..read.headers import FLOATS, PRIMITIVES
from ..read.html_docs import is_std_key
from ..read.standard import FN_TRAITS
from ..read.terms import (FUNCTIONS, Alias, Array, Bound, BoundsOf, Constant, Declaration, Dyn, Function, Lossy, Named, Never, Param, Parameter, Part, Pointer,
                          Predicate, Primitive, Projection, Reference, Slice, Tuple, Type, Unknown, Unsayable, argument_values, put, put_bound, rebuilt)

HEADER, CLAUSE, FIELD, QUESTION = "header", "clause", "field", "question"
ALWAYS = {"Ref_": "fundamental struct Ref_<T>(T, ())", "RefMut_": "fundamental struct RefMut_<T>(T, ())",
          "PtrConst_": "struct PtrConst_<T>(T, ())", "PtrMut_": "struct PtrMut_<T>(T, ())", "f32": "struct f32", "f64": "struct f64"}
MAXIMAL_PARAMS, MAXIMAL_ITEMS, MAXIMAL_CLAUSES = 64, 12, 64
NEVER = "u8: Never_"
# What a text needs: a kind ("need", "special", "companion", "then", "any"), the key of an item, and a name.
Need = tuple[str, str, str]
THEN = "__Then"


@dataclass
class Scope:
    """What one line has in scope, and what was lost in it. `projections` are those with a name; those of a header are `owed` their clauses.
    `is_closed`: no projection of a query gets a name any more."""
    mode: str
    params: dict[str, str]
    predicates: list[Predicate] = field(default_factory=list)
    losses: list[str] = field(default_factory=list)
    fresh: list[str] = field(default_factory=list)
    fresh_consts: list[str] = field(default_factory=list)
    extra: list[str] = field(default_factory=list)
    projections: dict[Type, tuple[str, frozenset[str]]] = field(default_factory=dict)
    owed: list[tuple[Projection | Part, str]] = field(default_factory=list)
    const_params: set[str] = field(default_factory=set)
    used: set[str] = field(default_factory=set)
    coarse: bool = False
    is_closed: bool = False

    def fresh_type(self) -> str:
        self.fresh.append(f"X{len(self.fresh) + 1}_")
        return self.fresh[-1]


def mentions(text: str, names: list[str]) -> bool:
    return any(re.search(rf"\b{name}\b", text) for name in names)


def bracketed(items: list[str]) -> str:
    items = [i for i in items if i]
    return f"<{', '.join(items)}>" if items else ""


def param_name(name: str) -> str:
    """A parameter's name in the text: short ones as they are, others so that they are no item's."""
    name = re.sub(r"[^A-Za-z0-9_]", "_", name)[:50]
    return name if re.fullmatch(r"[A-Z][0-9]*", name) else "p_" + name


def is_packed(params: list[Param]) -> bool:
    """Whether there are more than a struct of the text may have: then tuples of twelve types each are its arguments."""
    return len(params) > MAXIMAL_PARAMS


def packed(terms: tuple[Type, ...]) -> tuple[Type, ...]:
    return tuple(Tuple(terms[n:n + MAXIMAL_ITEMS]) for n in range(0, len(terms), MAXIMAL_ITEMS))


def text_params(params: list[Param]) -> list[Param]:
    """The parameters in the order of the text, types first."""
    types = [p for p in params if p.kind == "type"]
    if is_packed(params):
        types = [Param("type", f"Types{n}") for n in range(len(packed(tuple(Parameter(p.name) for p in types))))]
    return types + [p for p in params if p.kind == "const"]


def params_text(params: list[Param]) -> str:
    return bracketed([("const " if p.kind == "const" else "") + param_name(p.name) for p in text_params(params)])


def as_arguments(params: str) -> str:
    return params.replace("const ", "")


def names_of(params: list[Param]) -> dict[str, str]:
    return {p.name: param_name(p.name) for p in params}


def is_sizedness(bound: Bound) -> bool:
    """Whether the bound takes the implicit `Sized` away."""
    return bound.maybe or bound.key.endswith(("trait.PointeeSized", "trait.MetaSized"))


class Renderer:
    """`structs`, `traits`, `special`, `companions`, `thens` and `anys` are what the text needs; `grew` says that one of them has become
    larger. `further` are the traits that the text has next to a trait, by name, each with the key of that trait.
    `names_values`: whether each trait that asks patterns has a companion too, for the where-clauses of queries."""

    def __init__(self, world: World) -> None:
        self.world = world
        self.structs: dict[str, Declaration] = {}
        self.traits: dict[str, Declaration] = {}
        self.special: dict[str, None] = {}
        self.companions: dict[tuple[str, str], None] = {}
        self.thens: dict[tuple[str, str], None] = {}
        self.anys: dict[str, None] = {}
        self.further: dict[str, str] = {}
        self.names_values = False
        self.log: Optional[list[Need]] = None
        self.lost_supers: dict[str, list[str]] = {}
        self.cyclic: set[str] = set()
        self.grew = True

    # ---- what the text needs
    def need(self, key: Optional[str], kind: str = "", arguments: tuple[Type, ...] = ()) -> Declaration:
        declaration = self.world.get(key, kind, arguments)
        kept = self.traits if declaration.is_trait else self.structs
        if declaration.is_trait and is_packed(declaration.params):
            raise Lossy(f"the trait `{declaration.name}` of more than 64 parameters")
        if self.log is not None:
            self.log.append(("need", declaration.key, ""))
        if declaration.key not in kept:
            kept[declaration.key] = declaration
            self.grew = True
        return declaration

    def again(self, needs: list[Need]) -> None:
        """Needs what was needed before, in another text."""
        for kind, key, name in needs:
            if kind == "need":
                self.need(key)
            elif kind == "special":
                self.need_special(name)
            elif kind == "any":
                self.any(self.world.get(key))
            else:
                (self.companion if kind == "companion" else self.then)(self.world.get(key), name)

    def need_special(self, name: str) -> str:
        if self.log is not None:
            self.log.append(("special", "", name))
        if name not in self.special:
            self.special[name] = None
            self.grew = True
        return name

    def companion(self, declaration: Declaration, name: str) -> str:
        """The companion trait for an associated type: `Iterator__Item<A>` says that `Item` is `A`."""
        if self.log is not None:
            self.log.append(("companion", declaration.key, name))
        if (declaration.key, name) not in self.companions:
            self.companions[(declaration.key, name)] = None
            self.further[self.companion_name(declaration, name)] = declaration.key
            self.grew = True
        return self.companion_name(declaration, name)

    def companion_name(self, declaration: Declaration, name: str) -> str:
        return f"{self.world.name(declaration)}__{name}"[:56]

    def then(self, declaration: Declaration, name: str) -> str:
        """The trait that asks a pattern of the value of an associated type: `Iterator__Item__Then<Wrap_<K>>` says that K has `Item`."""
        if self.log is not None:
            self.log.append(("then", declaration.key, name))
        if (declaration.key, name) not in self.thens:
            self.thens[(declaration.key, name)] = None
            self.further[self.then_name(declaration, name)] = declaration.key
            self.grew = True
        if self.names_values:
            self.companion(declaration, name)
        return self.then_name(declaration, name)

    def any(self, declaration: Declaration) -> str:
        """Of `Fn`, `FnMut` and `FnOnce` the trait that says that a type has it for some arguments: what has none is reported by that."""
        if self.log is not None:
            self.log.append(("any", declaration.key, ""))
        if declaration.key not in self.anys:
            self.anys[declaration.key] = None
            self.further[self.any_name(declaration)] = declaration.key
            self.grew = True
        return self.any_name(declaration)

    def any_name(self, declaration: Declaration) -> str:
        return self.world.name(declaration) + "__Any"

    @staticmethod
    def is_fn_trait(declaration: Declaration) -> bool:
        return declaration.name in FN_TRAITS and is_std_key(declaration.key)

    def then_name(self, declaration: Declaration, name: str) -> str:
        return self.companion_name(declaration, name) + THEN

    # ---- types
    def type(self, term: Type, scope: Scope) -> str:
        if scope.mode != HEADER:
            return self.exact_type(term, scope)
        try:
            return self.exact_type(term, scope)
        except Lossy as error:
            scope.losses.append(f"header: {error}: a fresh parameter stands for it")
            return scope.fresh_type()

    def types(self, terms: tuple[Type, ...], scope: Scope) -> list[str]:
        return [self.type(t, scope) for t in terms]

    def exact_type(self, term: Type, scope: Scope) -> str:
        match term:
            case Primitive(name):
                if name in PRIMITIVES:
                    return name
                if name in FLOATS:
                    return self.need_special(name)
                raise Lossy(f"the primitive {name}")
            case Never():
                return "!"
            case Parameter(name):
                if name not in scope.params:
                    raise Lossy(f"the name `{name}`")
                scope.used.add(name)
                return scope.params[name]
            case Unknown(name):
                return "?" + name
            case Reference(mutable, target):
                return f"{self.need_special('RefMut_' if mutable else 'Ref_')}<{self.type(target, scope)}>"
            case Pointer(mutable, target):
                return f"{self.need_special('PtrMut_' if mutable else 'PtrConst_')}<{self.type(target, scope)}>"
            case Slice(element):
                return f"[{self.type(element, scope)}]"
            case Array(element, length):
                return f"[{self.type(element, scope)}; {self.constant(length, scope, of_array=True)}]"
            case Tuple(items):
                return self.tuple_type(items, scope)
            case Function(inputs, output, how):
                return self.function(inputs, output, how, scope)
            case Dyn(bounds):
                return self.dyn(bounds, scope)
            case Alias(key, arguments):
                declaration = self.world.get(key)
                if not declaration.fields:
                    raise Lossy(f"the type alias `{declaration.name}` of another crate")
                return self.type(put(declaration.fields[0], argument_values(declaration.params, arguments)), scope)
            case Named(key, arguments):
                declaration = self.need(key, "struct", arguments)
                if declaration.is_trait or declaration.kind == "type":
                    raise Lossy(f"`{declaration.name}` as a type")
                return self.world.name(declaration) + self.arguments(declaration, arguments, scope, term)
            case Projection():
                return self.projection(term, scope)
            case Part():
                return self.named_by_header(term, scope)
            case Unsayable(why):
                raise Lossy(why)
        raise Lossy("a type that the text has not")

    def tuple_type(self, items: tuple[Type, ...], scope: Scope) -> str:
        if scope.coarse and len(items) > 1 and len(items) <= MAXIMAL_ITEMS:
            raise Lossy("more than 64 parameters")
        if len(items) > MAXIMAL_ITEMS:
            parts = [items[n:n + MAXIMAL_ITEMS] for n in range(0, len(items), MAXIMAL_ITEMS)]
            name = self.need_special(f"Tuple{len(items)}_")
            return f"{name}<{', '.join(self.type(Tuple(part), scope) for part in parts)}>"
        written = self.types(items, scope)
        return f"({written[0]},)" if len(written) == 1 else f"({', '.join(written)})"

    def function(self, inputs: tuple[Type, ...], output: Type, how: str, scope: Scope) -> str:
        if scope.mode == FIELD:
            # Each auto trait holds of every fn pointer, and so does `Sized`: a field asks for no more.
            return "fn()"
        if how and how not in FUNCTIONS:
            raise Lossy(f"`{how}fn`")
        if scope.coarse:
            raise Lossy("more than 64 parameters")
        if how:
            return f"{self.need_special(FUNCTIONS[how])}<{self.tuple_type(inputs, scope)}, {self.type(output, scope)}>"
        if len(inputs) > MAXIMAL_ITEMS:
            raise Lossy("a fn of more than 12 inputs")
        written = self.types(inputs, scope)
        result = self.type(output, scope)
        return f"fn({', '.join(written)})" + ("" if result == "()" else f" -> {result}")

    def dyn(self, bounds: tuple[Bound, ...], scope: Scope) -> str:
        principal: list[Bound] = []
        autos: list[Declaration] = []
        for bound in bounds:
            declaration = self.need(bound.key, "trait", bound.arguments)
            if declaration.is_auto and not is_std_key(declaration.key):
                raise Lossy(f"a dyn with the auto trait `{declaration.name}`")
            if self.lost(declaration):
                raise Lossy(f"`dyn {declaration.name}`, of whose supertraits the text cannot say all")
            if declaration.is_auto:
                autos.append(declaration)
            else:
                principal.append(replace(bound, key=declaration.key))
        if len(principal) > 1:
            raise Lossy("a dyn of two traits")
        if not bounds:
            raise Lossy("a dyn without a trait")
        if principal and has_values(self.world, principal[0]):
            try:
                return self.object(principal[0], autos, scope)
            except Lossy:
                if scope.mode != FIELD:
                    raise
        written = [self.bound(self.need(b.key, "trait", b.arguments), b, scope, Unsayable("`Self` of a dyn")) for b in principal]
        return "dyn " + " + ".join(written + [self.world.name(auto) for auto in autos])

    def object(self, bound: Bound, autos: list[Declaration], scope: Scope) -> str:
        """A `dyn` with associated types by the struct of its shape."""
        declaration = self.need(bound.key, "trait", bound.arguments)
        plain = replace(bound, constraints=())
        given: dict[tuple[str, str], Type] = {}
        for name, value in bound.constraints:
            owner = self.bound_with(plain, name)
            if owner is None or isinstance(value, BoundsOf):
                raise Lossy(f"`dyn {declaration.name}` with the associated type `{name}`")
            given[(self.world.get(owner.key).key, name)] = value
        fixed = {(self.world.key_of(b.key), name) for b in above(self.world, plain) for name, _ in b.constraints}
        if set(given) & fixed:
            raise Lossy(f"`dyn {declaration.name}` with an associated type that a supertrait fixes")
        places = tuple(sorted(given))
        shape = shape_of(self.world, plain, places, tuple(sorted(a.key for a in autos)))
        self.need(OBJECT)
        self.need(shape.declaration.key)
        arguments = self.argument_list(declaration, plain.arguments, scope, Unsayable("`Self` of a dyn"))
        count = len(arguments) - sum(p.kind == "const" for p in declaration.params)
        return self.world.name(shape.declaration) + bracketed(arguments[:count] + [self.type(given[place], scope) for place in places] + arguments[count:])

    def constant(self, text: str, scope: Scope, of_array: bool = False) -> str:
        text = str(text).strip().strip("{}").strip()
        if text in scope.params:
            scope.used.add(text)
            return scope.params[text]
        if re.fullmatch(r"\?[A-Za-z_]\w*", text) and scope.mode == QUESTION:
            return text
        number = re.fullmatch(r"([0-9][0-9_]*|0x[0-9a-fA-F_]+)(_?[iu](8|16|32|64|128|size))?", text)
        if number and int(number.group(1).replace("_", ""), 0) < 2 ** 64:
            return str(int(number.group(1).replace("_", ""), 0))
        if text in ("true", "false"):
            return "1" if text == "true" else "0"
        if scope.mode == FIELD and of_array:
            # No rule that a field asks for reads the length of an array.
            return "0"
        if scope.mode == HEADER:
            scope.losses.append(f"header: the constant `{text}`: a fresh parameter stands for it")
            scope.fresh_consts.append(f"N{len(scope.fresh_consts) + 1}_")
            return scope.fresh_consts[-1]
        raise Lossy(f"the constant `{text}`")

    # ---- arguments and bounds
    def filled(self, declaration: Declaration, arguments: tuple[Type, ...], itself: Type) -> list[Type]:
        """The arguments, with defaults where they are missing."""
        params, given = declaration.params, list(arguments)
        if len(given) > len(params):
            raise Lossy(f"the arguments of `{declaration.name}`")
        values: dict[str, Type] = {p.name: a for p, a in zip(params, given)}
        values["Self"] = itself
        for param in params[len(given):]:
            if param.default is None:
                raise Lossy(f"an omitted argument of `{declaration.name}`")
            values[param.name] = put(param.default, values)
            given.append(values[param.name])
        return given

    def arguments(self, declaration: Declaration, arguments: tuple[Type, ...], scope: Scope, itself: Type) -> str:
        return bracketed(self.argument_list(declaration, arguments, scope, itself))

    def argument_list(self, declaration: Declaration, arguments: tuple[Type, ...], scope: Scope, itself: Type) -> list[str]:
        params, given = declaration.params, self.filled(declaration, arguments, itself)
        types = tuple(a for p, a in zip(params, given) if p.kind == "type")
        if any(isinstance(t, Constant) for t in types):
            raise Lossy(f"the arguments of `{declaration.name}`")
        written = self.types(packed(types) if is_packed(params) else types, scope)
        for param, argument in zip(params, given):
            if param.kind != "const":
                continue
            if isinstance(argument, Constant):
                written.append(self.constant(argument.text, scope))
            elif isinstance(argument, Parameter):
                written.append(self.constant(argument.name, scope))
            elif isinstance(argument, Unknown):
                written.append("?" + argument.name)
            else:
                raise Lossy(f"the arguments of `{declaration.name}`")
        return written

    def bound(self, declaration: Declaration, bound: Bound, scope: Scope, itself: Type) -> str:
        self.refuse_fn_of_no_tuple(declaration, bound)
        return self.world.name(declaration) + self.arguments(declaration, bound.arguments, scope, itself)

    @staticmethod
    def refuse_fn_of_no_tuple(declaration: Declaration, bound: Bound) -> None:
        if Renderer.is_fn_trait(declaration) and len(bound.arguments) == 1 and not isinstance(bound.arguments[0], (Tuple, Parameter, Unknown, Projection, Part)):
            raise Lossy(f"`{declaration.name}` of no tuple")

    def lost(self, declaration: Declaration) -> list[str]:
        """The supertraits of a trait, and of those above it, that the text cannot say. A `dyn` of such a trait is not written."""
        if declaration.key not in self.lost_supers:
            self.lost_supers[declaration.key] = []
            found = list(self.supertraits(declaration)[1])
            for bound in declaration.supers:
                if not is_sizedness(bound):
                    try:
                        found += self.lost(self.need(bound.key, "trait", bound.arguments))
                    except Lossy:
                        pass
            self.lost_supers[declaration.key] = found
        return self.lost_supers[declaration.key]

    def supertraits(self, declaration: Declaration) -> tuple[list[tuple[str, str]], list[str]]:
        """The supertraits as the text writes them, each with the key of its trait, and those that it cannot say."""
        written: list[tuple[str, str]] = []
        lost: list[str] = []
        if self.world.is_cores(declaration):
            return written, lost
        if declaration.key in self.cyclic:
            return written, [f"a supertrait of {declaration.name}: it and a trait that names it by a `dyn` are in a cycle"]
        for bound in declaration.supers:
            if is_sizedness(bound):
                continue
            scope = Scope(CLAUSE, names_of(declaration.params))
            try:
                above = self.need(bound.key, "trait", bound.arguments)
                if declaration.is_auto:
                    raise Lossy(f"`{above.name}`, of an auto trait")
                if above.key == declaration.key:
                    raise Lossy("the trait itself")
                text = self.bound(above, bound, scope, Unsayable("`Self` as an argument of a supertrait"))
                if mentions(text, [self.world.name(declaration)]):
                    raise Lossy("a bound that names the trait itself")
                found = [(text, above.key)]
                for name, value in bound.constraints:
                    if not isinstance(value, BoundsOf):
                        found.append((self.companion_bound(above, bound, name, value, scope), above.key))
                written += [entry for entry in found if entry not in written]
            except Lossy as error:
                lost.append(f"a supertrait of {declaration.name}: {error}")
        if len(written) > MAXIMAL_CLAUSES:
            lost.append(f"a supertrait of {declaration.name}: more than 64")
        return written[:MAXIMAL_CLAUSES], lost

    def companion_bound(self, declaration: Declaration, bound: Bound, name: str, value: Type, scope: Scope) -> str:
        if name not in declaration.associated:
            raise Lossy(f"the associated type `{name}` of a supertrait")
        arguments = self.argument_list(declaration, bound.arguments, scope, Unsayable("`Self` as an argument"))
        return self.companion(declaration, name) + bracketed(self.with_value(declaration, arguments, self.type(value, scope)))

    @staticmethod
    def with_value(declaration: Declaration, arguments: list[str], value: str) -> list[str]:
        """The arguments with one more type: after the types, before the constants."""
        place = len(arguments) - sum(p.kind == "const" for p in declaration.params)
        return arguments[:place] + [value] + arguments[place:]

    # ---- associated types
    def bound_with(self, bound: Bound, name: str, depth: int = 0) -> Optional[Bound]:
        """The bound, or one of its supertraits, that has the associated type."""
        if depth > 6:
            return None
        try:
            declaration = self.need(bound.key, "trait", bound.arguments)
        except Lossy:
            return None
        if name in declaration.associated:
            return bound
        values = argument_values(declaration.params, bound.arguments)
        for further in declaration.supers:
            found = self.bound_with(put_bound(further, values), name, depth + 1)
            if found:
                return found
        return None

    def owner(self, term: Projection, scope: Scope) -> Bound:
        """The trait of a projection."""
        found = None
        if term.bound is not None:
            found = self.bound_with(term.bound, term.name)
        if found is None and term.bound is None or found is not None and self.is_short(found):
            for subject, bound in scope.predicates:
                other = self.bound_with(bound, term.name) if self.same_subject(subject, term.subject) else None
                if other is not None and (found is None or self.is_short(found) and self.world.get(other.key).key == self.world.get(found.key).key):
                    found = other
        if found is None:
            raise Lossy(f"the associated type `{term.name}` of an unknown trait")
        return found

    def is_short(self, bound: Bound) -> bool:
        """Whether arguments are left away that have no default, as rustdoc does in `T::Out` of `T: Own<u8>`."""
        params = self.world.get(bound.key, "trait", bound.arguments).params
        return not bound.arguments and any(p.default is None for p in params)

    def same_subject(self, left: Type, right: Type) -> bool:
        """Whether two subjects are one, where `I::Item` may stand for `<I as Iterator>::Item`."""
        if isinstance(left, Projection) and isinstance(right, Projection) and (left.bound is None or right.bound is None):
            return left.name == right.name and self.same_subject(left.subject, right.subject)
        return left == right

    def resolved(self, term: Type, scope: Scope) -> Type:
        """The type with aliases put in, and with the trait and all its arguments in each projection."""
        match term:
            case Alias(key, arguments):
                declaration = self.world.get(key)
                if declaration.fields:
                    return self.resolved(put(declaration.fields[0], argument_values(declaration.params, arguments)), scope)
            case Projection(subject, _, name):
                bound = self.owner(term, scope)
                declaration = self.need(bound.key, "trait", bound.arguments)
                given = self.filled(declaration, bound.arguments, subject)
                arguments = tuple(self.resolved(a, scope) for a in given)
                return Projection(self.resolved(subject, scope), Bound(declaration.key, arguments), name)
        return rebuilt(term, lambda part: self.resolved(part, scope))

    def projection(self, term: Projection, scope: Scope) -> str:
        """A projection goes by the name that an equation or the header gives it; in a header it gets a fresh parameter."""
        place = self.resolved(term, scope)
        assert isinstance(place, Projection) and place.bound is not None
        declaration = self.need(place.bound.key, "trait", place.bound.arguments)
        companion = self.companion(declaration, place.name)
        if scope.mode == HEADER or place in scope.projections:
            return self.named_by_header(place, scope)
        if scope.mode == QUESTION and not scope.is_closed:
            subject = self.type(place.subject, scope)
            arguments = self.argument_list(declaration, place.bound.arguments, scope, place.subject)
            name = scope.fresh_type()
            scope.projections[place] = (name, frozenset())
            scope.extra.append(f"{subject}: {self.world.name(declaration)}{bracketed(arguments)}")
            scope.extra.append(f"{subject}: {companion}{bracketed(self.with_value(declaration, arguments, name))}")
            return name
        raise Lossy(f"the associated type `{term.name}`")

    @staticmethod
    def named_by_header(place: Projection | Part, scope: Scope) -> str:
        """The name of a projection; in a header a new one, which is owed the clauses that say what it is."""
        if place not in scope.projections:
            if scope.mode != HEADER:
                raise Lossy("an associated type")
            name = scope.fresh_type()
            scope.projections[place] = (name, frozenset())
            scope.owed.append((place, name))
        name, used = scope.projections[place]
        scope.used |= used
        return name
