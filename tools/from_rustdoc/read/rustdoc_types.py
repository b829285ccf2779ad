"""rustdoc's JSON as it is read: the fields of each object, in the format with the number `FORMAT`. What is here is what the tool may look at.

A class is an object with these fields. One that is not total is one of several forms: an object with one of these keys, or a word of `WORDS`. Its
comment is what messages call it. `Unread` fields may be there, and no answer looks at them; objects of `OPEN` may have any others.
`formats` holds files of other numbers to these classes.
"""
from __future__ import annotations

from typing import Any, Literal, Optional, TypedDict, Union

FORMAT = 57
# The releases of Rust whose rustdoc writes that number, the oldest first.
RELEASES = ("1.95", "1.96")
# Below this number identifiers are strings, and impls and imports have other fields: no file of them was at hand.
OLDEST = 37

Unread = object
Number = int


# ---- paths, bounds and parameters
Path = TypedDict("Path", {"path": str, "id": Number, "args": "Optional[Arguments]"})
Path.__doc__ = "path"


class Arguments(TypedDict, total=False):
    """list of arguments"""
    angle_bracketed: AngleBracketed
    parenthesized: Parenthesized


class AngleBracketed(TypedDict):
    """list of arguments"""
    args: list[Argument]
    constraints: list[Constraint]


class Parenthesized(TypedDict):
    """list of arguments"""
    inputs: list[Type]
    output: Optional[Type]


class Argument(TypedDict, total=False):
    """argument"""
    lifetime: str
    type: Type
    const: Constant


class Constant(TypedDict):
    """constant"""
    expr: str
    value: Optional[str]
    is_literal: Unread


class Constraint(TypedDict):
    """equation"""
    name: str
    args: Optional[Arguments]
    binding: Binding


class Binding(TypedDict, total=False):
    """equation"""
    constraint: list[Bound]
    equality: Term


class Term(TypedDict, total=False):
    """equation"""
    type: Type
    constant: Constant


class Bound(TypedDict, total=False):
    """bound"""
    outlives: str
    use: list
    trait_bound: TraitBound


class TraitBound(TypedDict):
    """bound"""
    trait: Path
    modifier: Literal["none", "maybe", "maybe_const"]
    generic_params: Unread


class Generics(TypedDict):
    """list of parameters"""
    params: list[Param]
    where_predicates: list[Clause]


class Param(TypedDict):
    """parameter"""
    name: str
    kind: ParamKind


class ParamKind(TypedDict, total=False):
    """parameter"""
    lifetime: LifetimeParam
    type: TypeParam
    const: ConstParam


class LifetimeParam(TypedDict):
    """lifetime"""
    outlives: list[str]


class TypeParam(TypedDict):
    """type parameter"""
    bounds: list[Bound]
    default: Optional[Type]
    is_synthetic: bool


class ConstParam(TypedDict):
    """const parameter"""
    type: Type
    default: Optional[str]


class Clause(TypedDict, total=False):
    """where-clause"""
    bound_predicate: BoundPredicate
    lifetime_predicate: LifetimePredicate
    eq_predicate: EqPredicate


class BoundPredicate(TypedDict):
    """where-clause"""
    type: Type
    bounds: list[Bound]
    generic_params: Unread


class LifetimePredicate(TypedDict):
    """where-clause"""
    lifetime: str
    outlives: list[str]


class EqPredicate(TypedDict):
    """where-clause"""
    lhs: Type
    rhs: dict


# ---- types
class Type(TypedDict, total=False):
    """type"""
    resolved_path: Path
    generic: str
    primitive: str
    tuple: list[Type]
    slice: Type
    impl_trait: list[Bound]
    pat: dict
    dyn_trait: DynType
    function_pointer: FunctionPointer
    array: ArrayType
    raw_pointer: Pointer
    borrowed_ref: Reference
    qualified_path: Projection


class DynType(TypedDict):
    """dyn type"""
    traits: list[DynTrait]
    lifetime: Unread


class DynTrait(TypedDict):
    """dyn trait"""
    trait: Path
    generic_params: Unread


class FunctionPointer(TypedDict):
    """function pointer"""
    sig: Signature
    header: PointerHeader
    generic_params: Unread


class PointerHeader(TypedDict):
    """header"""
    is_unsafe: bool
    abi: Union[str, dict]
    is_const: Unread
    is_async: Unread


class Signature(TypedDict):
    """signature"""
    inputs: list[tuple[str, Type]]
    output: Optional[Type]
    is_c_variadic: bool


class ArrayType(TypedDict):
    """array"""
    type: Type
    len: str


class Pointer(TypedDict):
    """pointer"""
    is_mutable: bool
    type: Type


class Reference(TypedDict):
    """reference"""
    is_mutable: bool
    type: Type
    lifetime: Unread


class Projection(TypedDict):
    """projection"""
    name: str
    args: Optional[Arguments]
    self_type: Type
    trait: Optional[Path]


# ---- items
class Module(TypedDict):
    """module"""
    items: list[Number]
    is_crate: Unread
    is_stripped: Unread


class Use(TypedDict):
    """use"""
    name: str
    id: Optional[Number]
    is_glob: bool
    source: Unread


class Struct(TypedDict):
    """struct"""
    generics: Generics
    kind: StructKind
    impls: Unread


class StructKind(TypedDict, total=False):
    """struct"""
    tuple: list[Optional[Number]]
    plain: PlainStruct


class PlainStruct(TypedDict):
    """plain struct"""
    fields: list[Optional[Number]]
    has_stripped_fields: Unread


class Enum(TypedDict):
    """enum"""
    generics: Generics
    variants: list[Number]
    impls: Unread
    has_stripped_variants: Unread


class Union_(TypedDict):
    """union"""
    generics: Generics
    fields: list[Number]
    impls: Unread
    has_stripped_fields: Unread


class Variant(TypedDict):
    """variant"""
    kind: VariantKind
    discriminant: Unread


class VariantKind(TypedDict, total=False):
    """variant"""
    tuple: list[Optional[Number]]
    struct: StructVariant


class StructVariant(TypedDict):
    """struct variant"""
    fields: list[Optional[Number]]
    has_stripped_fields: Unread


class Trait(TypedDict):
    """trait"""
    is_auto: bool
    is_unsafe: bool
    is_dyn_compatible: bool
    items: list[Number]
    generics: Generics
    bounds: list[Bound]
    implementations: Unread


Impl = TypedDict("Impl", {
    "is_unsafe": bool, "generics": "Generics", "trait": "Path", "for": "Type", "items": "list[Number]", "is_negative": bool, "is_synthetic": bool,
    "blanket_impl": type(None), "provided_trait_methods": "Unread"})
Impl.__doc__ = "impl"
# Of impls without a trait, and instances of blanket ones.
OtherImpl = TypedDict("OtherImpl", {"trait": Optional[dict], "is_synthetic": bool, "blanket_impl": Optional[dict], "for": "Type"})
OtherImpl.__doc__ = "impl"


class AssocType(TypedDict):
    """associated type"""
    generics: Generics
    bounds: list[Bound]
    type: Optional[Type]


class TypeAlias(TypedDict):
    """type alias"""
    generics: Generics
    type: Type


class Function(TypedDict):
    """function"""
    has_body: bool
    sig: Signature
    generics: Generics
    header: FunctionHeader


class FunctionHeader(TypedDict):
    """header"""
    abi: Union[str, dict]
    is_const: bool
    is_unsafe: bool
    is_async: bool


class CutFunction(TypedDict):
    """function"""
    has_body: bool


class AssocConst(TypedDict):
    """associated constant"""
    value: Optional[str]


class ConstantItem(TypedDict):
    """constant"""
    type: Type
    const: Constant


class Static(TypedDict):
    """static"""
    type: Type
    is_mutable: bool
    is_unsafe: Unread
    expr: Unread


# Items are of one of these kinds; of others nothing but their names is read.
KINDS: dict[str, Any] = {
    "module": Module, "use": Use, "struct": Struct, "enum": Enum, "union": Union_, "variant": Variant, "struct_field": Type, "trait": Trait, "impl": Impl,
    "assoc_type": AssocType, "type_alias": TypeAlias, "function": Function, "assoc_const": AssocConst,
    "constant": ConstantItem, "static": Static}


# ---- a file
class Item(TypedDict):
    """item"""
    id: Number
    crate_id: int
    name: Optional[str]
    visibility: Union[str, dict]
    inner: dict


class Span(TypedDict):
    """span"""
    filename: str
    begin: list[int]


class ItemPath(TypedDict):
    """path of an item"""
    crate_id: int
    path: list[str]
    kind: str


class ExternalCrate(TypedDict):
    """crate that is used"""
    name: str


class Crate(TypedDict):
    """crate"""
    root: Number
    index: dict
    paths: dict
    external_crates: dict


OPEN = (Item, Span, ItemPath, ExternalCrate, Crate, OtherImpl, CutFunction, AssocConst)
WORDS: dict[Any, tuple[str, ...]] = {Argument: ("infer",), Type: ("infer",), StructKind: ("unit",), VariantKind: ("plain",)}
# What a field was called before, by the object that it is in.
OLDER: dict[Any, dict[str, str]] = {Path: {"path": "name"}}
