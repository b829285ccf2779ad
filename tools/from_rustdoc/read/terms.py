"""The intermediate form: types, bounds, declarations and impls as rustdoc says them, before any text is written.

A type is one of the frozen classes below. Lifetimes are left away by the readers, since all answers are up to lifetimes.
"""
from __future__ import annotations

from dataclasses import dataclass, field, replace
from typing import Any, Callable, Iterator, Optional, Union


class Lossy(Exception):
    """What was to be written cannot be said in the text; the message says why."""


class BadInput(Exception):
    """The input cannot be read at all; the message says what to do."""


@dataclass(frozen=True)
class Primitive:
    """A built-in type by its name, as `u8` and `str`."""
    name: str


@dataclass(frozen=True)
class Never:
    """`!`."""


@dataclass(frozen=True)
class Parameter:
    """A type parameter."""
    name: str


@dataclass(frozen=True)
class Unknown:
    """`?name` of a query."""
    name: str


@dataclass(frozen=True)
class Reference:
    """`&T`, `&mut T`."""
    mutable: bool
    target: Type


@dataclass(frozen=True)
class Pointer:
    """`*const T`, `*mut T`."""
    mutable: bool
    target: Type


@dataclass(frozen=True)
class Slice:
    """`[T]`."""
    element: Type


@dataclass(frozen=True)
class Array:
    """`[T; N]`, with the length as source."""
    element: Type
    length: str


@dataclass(frozen=True)
class Tuple:
    """`(A, B)`; without items the unit."""
    items: tuple[Type, ...]


@dataclass(frozen=True)
class Function:
    """`how` is what comes before `fn`: nothing, one of `FUNCTIONS`, or what no text has."""
    inputs: tuple[Type, ...]
    output: Type
    how: str = ""


@dataclass(frozen=True)
class Dyn:
    """`dyn A + B`."""
    bounds: tuple[Bound, ...]


@dataclass(frozen=True)
class Named:
    """A struct, enum or union, by its key."""
    key: str
    arguments: tuple[Type, ...]


@dataclass(frozen=True)
class Alias:
    """A type alias of another crate, by its key."""
    key: str
    arguments: tuple[Type, ...]


@dataclass(frozen=True)
class Projection:
    """`<subject as bound>::name`; without a bound the trait has to be looked for."""
    subject: Type
    bound: Optional[Bound]
    name: str


@dataclass(frozen=True)
class Form:
    """A type in which the names stand for any types: of `I: Iterator<Item = (A, B)>` that is (A, B)."""
    pattern: Type
    names: tuple[str, ...]


@dataclass(frozen=True)
class Part:
    """What `name` stands for where the value of the projection has the form."""
    whole: Projection
    form: Form
    name: str


@dataclass(frozen=True)
class Constant:
    """A const argument, as source."""
    text: str


@dataclass(frozen=True)
class BoundsOf:
    """The right side of `Name: bounds` among the arguments of a bound."""
    bounds: tuple[Bound, ...]


@dataclass(frozen=True)
class Unsayable:
    """A type that no text can say, and why. `written` tells it from others, where that is known."""
    why: str
    written: str = ""


Type = Union[Primitive, Never, Parameter, Unknown, Reference, Pointer, Slice, Array, Tuple, Function, Dyn, Named, Alias,
             Projection, Part, Constant, BoundsOf, Unsayable]
UNIT = Tuple(())
# Fn pointers that are no plain ones, by what comes before `fn`: the struct of the text for them, of a tuple of the inputs and the output.
FUNCTIONS = {"unsafe ": "FnUnsafe_", 'extern "C" ': "FnC_", 'unsafe extern "C" ': "FnUnsafeC_"}
FUNCTION_STRUCTS = {name: how for how, name in FUNCTIONS.items()}
ANY_HEAD = "_"


@dataclass(frozen=True)
class Bound:
    """A bound by the trait `key`; `constraints` are its `Name = type` and `Name: bounds`; `maybe` is the `?` of `?Sized`."""
    key: str
    arguments: tuple[Type, ...] = ()
    constraints: tuple[tuple[str, Type], ...] = ()
    maybe: bool = False


@dataclass(frozen=True)
class Param:
    """A type or const parameter (`kind` is "type" or "const") with its default."""
    kind: str
    name: str
    default: Optional[Type] = None


Predicate = tuple[Type, Bound]


@dataclass(frozen=True)
class Place:
    """Where an item is in its source. Lines and columns begin with 1; the last column is the one after the item."""
    file: str
    line: int
    column: int
    end_line: int
    end_column: int


@dataclass
class Declaration:
    """A struct (enums and unions too), a trait, or an alias of std (its one field is what it stands for). `lifetimes` counts its parameters
    that are left away."""
    kind: str
    key: str
    crate: str
    name: str
    source: str = ""
    path: str = ""
    params: list[Param] = field(default_factory=list)
    predicates: list[Predicate] = field(default_factory=list)
    fields: list[Type] = field(default_factory=list)
    supers: list[Bound] = field(default_factory=list)
    associated: set[str] = field(default_factory=set)
    item_bounds: dict[str, list[Bound]] = field(default_factory=dict)
    is_auto: bool = False
    is_fundamental: bool = False
    is_opaque: bool = False
    is_enum: bool = False
    tail: Optional[Type] = None
    not_understood: str = ""
    public_path: Optional[list[str]] = None
    place: Optional[Place] = None
    field_names: list[str] = field(default_factory=list)
    item: dict[str, Any] = field(default_factory=dict)
    lifetimes: int = 0

    @property
    def is_trait(self) -> bool:
        return self.kind == "trait"

    def itself(self) -> Named:
        """The type with its own parameters as arguments."""
        return Named(self.key, tuple(Constant(p.name) if p.kind == "const" else Parameter(p.name) for p in self.params))


@dataclass
class Impl:
    """An impl as read. `trait` is None where the header was not understood (`error` says why). `narrowed` says that it is written for
    less than it holds of, in both texts, and why. `is_computed`: one of an auto trait that nobody wrote. Of associated types that take
    parameters `generic` has the values, and `lifetimes` has those in each value, by their places in the header."""
    crate: str
    source: str
    trait: Optional[Bound] = None
    self_type: Type = UNIT
    params: list[Param] = field(default_factory=list)
    predicates: list[Predicate] = field(default_factory=list)
    is_negative: bool = False
    is_computed: bool = False
    associated: dict[str, Type] = field(default_factory=dict)
    error: str = ""
    narrowed: str = ""
    place: Optional[Place] = None
    generic: dict[str, Type] = field(default_factory=dict)
    lifetimes: dict[str, list[str]] = field(default_factory=dict)

    def copy(self) -> Impl:
        return replace(self, params=list(self.params), predicates=list(self.predicates), associated=dict(self.associated))


def parts(term: Type) -> tuple[Type, ...]:
    """The types that are directly in a type, those of its bounds too."""
    match term:
        case Reference(_, t) | Pointer(_, t) | Slice(t) | Array(t, _):
            return (t,)
        case Tuple(items):
            return items
        case Function(inputs, output, _):
            return inputs + (output,)
        case Named(_, arguments) | Alias(_, arguments):
            return arguments
        case Dyn(bounds) | BoundsOf(bounds):
            return tuple(a for b in bounds for a in b.arguments) + tuple(v for b in bounds for _, v in b.constraints)
        case Projection(subject, bound, _):
            return (subject,) + (bound.arguments if bound else ())
        case Part(whole, _, _):
            return (whole,)
    return ()


def walk(term: Type) -> Iterator[Type]:
    """The type and all that is in it."""
    yield term
    for part in parts(term):
        yield from walk(part)


def rebuilt(term: Type, change: Callable[[Type], Type]) -> Type:
    """The type with each of its direct parts changed."""
    match term:
        case Reference(m, t):
            return Reference(m, change(t))
        case Pointer(m, t):
            return Pointer(m, change(t))
        case Slice(t):
            return Slice(change(t))
        case Array(t, n):
            return Array(change(t), n)
        case Tuple(items):
            return Tuple(tuple(map(change, items)))
        case Function(inputs, output, how):
            return Function(tuple(map(change, inputs)), change(output), how)
        case Named(key, arguments):
            return Named(key, tuple(map(change, arguments)))
        case Alias(key, arguments):
            return Alias(key, tuple(map(change, arguments)))
        case Dyn(bounds):
            return Dyn(tuple(rebuilt_bound(b, change) for b in bounds))
        case BoundsOf(bounds):
            return BoundsOf(tuple(rebuilt_bound(b, change) for b in bounds))
        case Projection(subject, bound, name):
            return Projection(change(subject), rebuilt_bound(bound, change) if bound else None, name)
        case Part(whole, form, name):
            changed = change(whole)
            assert isinstance(changed, Projection)
            return Part(changed, form, name)
    return term


def rebuilt_bound(bound: Bound, change: Callable[[Type], Type]) -> Bound:
    return replace(bound, arguments=tuple(map(change, bound.arguments)),
                   constraints=tuple((n, change(t)) for n, t in bound.constraints))


def put(term: Type, values: dict[str, Type]) -> Type:
    """The type with values for its parameters."""
    if not values:
        return term
    match term:
        case Parameter(name):
            return values.get(name, term)
        case Constant(text):
            return values.get(text.strip("{} "), term)
        case Array(element, length):
            value = values.get(length.strip("{} "))
            if isinstance(value, Constant):
                length = value.text
            elif isinstance(value, Parameter):
                length = value.name
            return Array(put(element, values), length)
    return rebuilt(term, lambda part: put(part, values))


def put_bound(bound: Bound, values: dict[str, Type]) -> Bound:
    return rebuilt_bound(bound, lambda part: put(part, values))


def argument_values(params: list[Param], arguments: tuple[Type, ...]) -> dict[str, Type]:
    """What each parameter stands for, defaults used where arguments are missing."""
    values: dict[str, Type] = {}
    for number, param in enumerate(params):
        if number < len(arguments):
            values[param.name] = arguments[number]
        elif param.default is not None:
            values[param.name] = put(param.default, values)
        else:
            values[param.name] = Unsayable("an omitted argument")
    return values


def leaf_of(inputs: tuple[Type, ...], how: str) -> str:
    """Which fn pointer it is, but for its types."""
    return f"fn:{len(inputs)}" + (f":{how}" if how else "")


def keys_of(term: Type) -> Iterator[str]:
    """The keys of all items that a type names, and `prim:`, `tuple:`, `fn:` words for what else impls are pruned by."""
    for part in walk(term):
        match part:
            case Primitive(name):
                yield "prim:" + name
            case Tuple(items) if items:
                yield f"tuple:{len(items)}"
            case Function(inputs, _, how):
                yield leaf_of(inputs, how)
            case Named(key, _) | Alias(key, _):
                yield key
            case Dyn(bounds) | BoundsOf(bounds):
                yield from (b.key for b in bounds)


def parameters_of(term: Type) -> set[str]:
    """The names of the parameters in a type, const ones too."""
    names: set[str] = set()
    for part in walk(term):
        match part:
            case Parameter(name):
                names.add(name)
            case Constant(text):
                names.add(text.strip("{} "))
            case Array(_, length):
                names.add(length.strip("{} "))
    return names


def head_of(term: Type) -> str:
    """What an impl's self type begins with: an impl concludes nothing of a type with another head. `_` where it may be anything."""
    match term:
        case Named(key, _):
            return key
        case Reference(mutable, _):
            return "&mut" if mutable else "&"
        case Pointer(mutable, _):
            return "*mut" if mutable else "*const"
        case Primitive(name):
            return "prim:" + name
        case Never():
            return "!"
        case Slice(_):
            return "[]"
        case Array(_, _):
            return "[;]"
        case Tuple(items):
            return f"tuple:{len(items)}"
        case Function(inputs, _, how) if not how or how in FUNCTIONS:
            return leaf_of(inputs, how)
        case Dyn(bounds) if not any(b.constraints for b in bounds):
            return "dyn"
    return ANY_HEAD
