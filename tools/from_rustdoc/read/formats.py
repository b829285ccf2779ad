"""The numbers of rustdoc's JSON: a file of any number is read where the fields that are read are as they are known here.

Nearly each release of Rust changes the format, and hardly ever what is read of it. So a file of another number than `FORMAT` is held to the classes
of `rustdoc_types` first: names of older numbers are put right, and it is refused where a field that is read is missing or of another kind,
where there is a variant that is not known, and where what is read has a further field that says something (is not null, false or empty).
"""
from __future__ import annotations

import functools
import types
from typing import Any, Literal, Union, get_args, get_origin, get_type_hints, is_typeddict

from .rustdoc_types import (FORMAT, KINDS, OLDER, OLDEST, OPEN, RELEASES, WORDS, Crate, CutFunction, ExternalCrate, Function, Impl, Item, ItemPath,
                            OtherImpl, Span, Unread)
from .terms import BadInput

NONE = type(None)


def one(where: str) -> str:
    return f"{'an' if where[0] in 'aeiou' else 'a'} {where}"


def called(form: Any) -> str:
    """What messages call an object of the class."""
    return str(form.__doc__)


@functools.lru_cache(maxsize=None)
def fields_of(form: Any) -> dict[str, Any]:
    """The fields of a class, or its forms, with their types."""
    return get_type_hints(form)


class Agreement:
    """Looks at what is read of one file, and puts older names right in place."""

    def __init__(self, file: str, number: Any) -> None:
        self.file = file
        self.number = number

    def fail(self, what: str) -> None:
        raise BadInput(f"{self.file}: rustdoc's JSON has the format number {self.number}, which is not as known here ({FORMAT}, rustdoc {' and '.join(RELEASES)}): "
                       f"{what}. Make it with such a toolchain: `rustup toolchain install {RELEASES[0]}`, then `cargo +{RELEASES[0]} ..`")

    # ---- forms of values
    def value(self, value: Any, form: Any, where: str = "", name: str = "") -> None:
        """A value of any of the types that `rustdoc_types` has; `where` and `name` are the object and the field that it is in."""
        origin, inside = get_origin(form), get_args(form)
        if form is Unread:
            return
        if is_typeddict(form):
            self.fields(value, form) if form.__total__ else self.variant(value, form)
        elif origin is list:
            self.each(value, inside[0], where)
        elif origin is tuple:
            self.value(value, list)
            self.value(value[-1], inside[-1], where)
        elif origin is Literal:
            if value not in inside:
                self.fail(f"{one(where)} has the {name} {value!r}")
        elif origin in (Union, types.UnionType):
            left = [kind for kind in inside if kind is not NONE]
            if value is not None or NONE not in inside:
                self.value(value, left[0], where, name) if len(left) == 1 else self.of_kind(value, left)
        else:
            self.of_kind(value, [form])

    def of_kind(self, value: Any, kinds: list[type]) -> None:
        if type(value) not in kinds:
            self.fail(f"{value!r} stands where {' or '.join(kind.__name__ for kind in kinds)} was known")

    def each(self, value: Any, form: Any, where: str) -> None:
        if not isinstance(value, list):
            self.fail(f"a list is {type(value).__name__}")
        for part in value:
            self.value(part, form, where)

    def fields(self, value: Any, form: Any) -> None:
        """An object with these fields; others have to be known, or to say nothing."""
        where, known = called(form), fields_of(form)
        if not isinstance(value, dict):
            self.fail(f"{one(where)} is no object")
        for name, old in OLDER.get(form, {}).items():
            if name not in value and old in value:
                value[name] = value.pop(old)
        for name, kind in known.items():
            if kind is Unread:
                continue
            if name not in value:
                self.fail(f"{one(where)} has no field `{name}`")
            self.value(value[name], kind, where, name)
        for name, further in value.items() if form not in OPEN else ():
            if name not in known and further not in (None, False, [], {}, ""):
                self.fail(f"{one(where)} has a field `{name}`")

    def variant(self, value: Any, form: Any) -> None:
        """One of several forms: a word, or an object of one field."""
        if isinstance(value, str) and value in WORDS.get(form, ()):
            return
        known = fields_of(form)
        if not isinstance(value, dict) or len(value) != 1 or next(iter(value)) not in known:
            self.fail(f"{one(called(form))} is {next(iter(value)) if isinstance(value, dict) and value else value!r}")
        name, inside = next(iter(value.items()))
        self.value(inside, known[name], called(form), name)

    # ---- a file
    def crate(self, data: dict[str, Any]) -> None:
        self.fields(data, Crate)
        for item in data["index"].values():
            self.item(item)
        for path in data["paths"].values():
            self.fields(path, ItemPath)
        for crate in data["external_crates"].values():
            self.fields(crate, ExternalCrate)

    def item(self, item: dict[str, Any]) -> None:
        self.fields(item, Item)
        kind, body = next(iter(item["inner"].items()))
        if item["crate_id"] != 0 or kind not in KINDS:
            return
        form = KINDS[kind]
        if form is Impl:
            self.fields(body, OtherImpl)
            if body["trait"] is None or body["blanket_impl"] is not None:
                return
        if item.get("span"):
            self.fields(item["span"], Span)
        # (Stored files have no more than this of a function.)
        self.value(body, CutFunction if form is Function and "sig" not in body else form)


def agreed(data: Any, file: str) -> dict[str, Any]:
    """The JSON of a file, with the names of this number where an older one has others; refused where the fields do not agree."""
    if not isinstance(data, dict) or not isinstance(data.get("format_version"), int):
        raise BadInput(f"{file}: this is no JSON of rustdoc: it has no format number")
    number = data["format_version"]
    if number != FORMAT:
        agreement = Agreement(file, number)
        if number < OLDEST:
            agreement.fail(f"below {OLDEST} the fields have other names")
        agreement.crate(data)
    return data


def first_column(data: dict[str, Any]) -> int:
    """The number of a line's first column: 1, and 0 in older files. The crate itself begins there."""
    span = data["index"][str(data["root"])].get("span")
    return int(span["begin"][1]) if span and span["begin"][0] == 1 and span["begin"][1] in (0, 1) else 1
