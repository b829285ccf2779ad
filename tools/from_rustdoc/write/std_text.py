"""The part of std that people name, as a text to be in front of others: `celtisdarts --with std.txt FILE`.

It holds what both texts say alike. An impl that the language cannot say exactly is left out, and named in the text's comments.
"""
from __future__ import annotations

from ..model.world import World
from ..read.terms import BadInput, Bound, Named, Type
from .build import Translation
from .checker import check_texts
from .texts import texts_of

TRAITS = {"core::marker": "Send Sync Unpin Copy", "core::clone": "Clone", "core::default": "Default", "core::fmt": "Debug Display", "core::hash": "Hash",
          "core::cmp": "PartialEq Eq PartialOrd Ord", "core::ops": "Drop Fn FnMut FnOnce Deref", "core::error": "Error",
          "core::iter": "Iterator IntoIterator FromIterator", "core::convert": "AsRef From Into TryFrom", "core::borrow": "Borrow",
          "alloc::borrow": "ToOwned", "alloc::string": "ToString"}
TYPES = {"core::marker": "PhantomData", "core::option": "Option", "core::result": "Result", "core::cell": "Cell RefCell", "alloc::boxed": "Box",
         "alloc::string": "String", "alloc::vec": "Vec", "alloc::rc": "Rc", "alloc::sync": "Arc"}
# Associated types that have a companion: `I: Iterator<Item = X>` is `I: Iterator, I: Iterator__Item<X>`.
VALUES = ("Item", "Output", "Target", "Error", "Owned")
LEAVES = "bool char str u8 u16 u32 u64 u128 usize i8 i16 i32 i64 i128 isize f32 f64".split()
HEAD = """// The part of Rust's std that people name, as std's documents{version} have it. Made by `tools/from-rustdoc std`; docs/RUSTDOC.md has what is
// written otherwise than in Rust. A crate behind it with `uses std` sees all of it."""


def keys_of_names(world: World, names: dict[str, str]) -> list[str]:
    found = []
    for module, listed in names.items():
        for name in listed.split():
            key = world.pages.key_of_any_kind([*module.split("::"), name])
            if key is None:
                raise BadInput(f"std's documents in {world.pages.root} have no {module}::{name}")
            found.append(key)
    return found


def std_text(world: World) -> str:
    """The text, checked as the texts of crates are."""
    translation = Translation(world)
    roots: list[Type | Bound] = [Bound(key) for key in keys_of_names(world, TRAITS)]
    translation.roots = [*roots, *(Named(key, ()) for key in keys_of_names(world, TYPES))]
    translation.leaves |= {f"prim:{name}" for name in LEAVES}
    translation.build()
    for trait in list(translation.renderer.traits.values()):
        for name in trait.associated:
            if name in VALUES:
                translation.renderer.companion(trait, name)
    translation.build()
    problems = check_texts(translation, texts_of(translation))
    if problems:
        raise BadInput(f"std's text breaks the rules of docs/RUSTDOC.md, which is a mistake of the translator: {problems[0]}")
    left_out = [f"// Left out: {w.impl.source}: {why}" for w in translation.of_std for why in (w.losses or w.unknown)[:1]]
    version = world.pages.version
    head = HEAD.replace("{version}", f" of {version}" if version else "")
    return "\n".join([head, *map(ascii_of, left_out), *common_lines(translation)]) + "\n"


def common_lines(translation: Translation) -> list[str]:
    """The lines that are in both texts."""
    lines, pieces = translation.text("upper")
    found = []
    for line, piece in zip(lines, pieces):
        if piece is None or piece.lower is not None and piece.lower.text == line:
            found.append(line)
        elif piece.cut is not None:
            # Without a line the built-in rule would say that the type has the trait.
            raise BadInput(f"std's documents do not say which auto traits {piece.cut.declaration.name} has")
    return found


def ascii_of(line: str) -> str:
    return "".join(c if 32 <= ord(c) < 127 else "?" for c in line)
