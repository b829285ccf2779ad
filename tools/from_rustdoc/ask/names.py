"""What a name of a query stands for: as in a module with `use` of the roots of the own crates, and the prelude of their edition.

A path is one by which an item is there: that of its declaration, or one by public modules and re-exports. A word names an item of an own crate's
root, else one of the prelude. For another word an item may be meant that has no other of its name next to it; where it has, the query is asked back.
"""
from __future__ import annotations

from typing import Iterator, Optional

from ..model.world import World
from ..read.html_docs import kind_and_name, rust_crate_of
from ..read.rustdoc_json import STD_CRATES
from ..read.terms import BadInput, Lossy

# The prelude of each edition has that of those before. Macros and functions are no names of a query.
PRELUDES = {
    "2015": {"core::marker": "Copy Send Sized Sync Unpin", "core::ops": "Drop Fn FnMut FnOnce AsyncFn AsyncFnMut AsyncFnOnce",
             "core::convert": "AsMut AsRef From Into", "core::iter": "DoubleEndedIterator ExactSizeIterator Extend IntoIterator Iterator",
             "core::option": "Option", "core::result": "Result", "core::clone": "Clone", "core::default": "Default",
             "core::cmp": "Eq Ord PartialEq PartialOrd", "alloc::borrow": "ToOwned", "alloc::boxed": "Box", "alloc::string": "String ToString",
             "alloc::vec": "Vec"},
    "2021": {"core::convert": "TryFrom TryInto", "core::iter": "FromIterator"},
    "2024": {"core::future": "Future IntoFuture"}}
# What is no part of a prelude, and is meant by its name alone where nothing else has that name.
KNOWN = {"core::marker": "PhantomData", "core::fmt": "Debug Display", "core::hash": "Hash Hasher BuildHasher", "core::cmp": "Ordering",
         "core::ops": "Deref DerefMut Index IndexMut Add Sub Mul Div Rem Neg Not", "core::error": "Error", "core::cell": "Cell RefCell",
         "core::panic": "UnwindSafe RefUnwindSafe", "core::pin": "Pin", "core::borrow": "Borrow BorrowMut", "core::str": "FromStr", "alloc::rc": "Rc",
         "alloc::sync": "Arc", "alloc::borrow": "Cow", "std::collections": "HashMap HashSet BTreeMap BTreeSet VecDeque", "std::sync": "Mutex RwLock",
         "std::path": "Path PathBuf"}
MAXIMAL_DEPTH, SHOWN = 8, 3


def paths_of(table: dict[str, str]) -> dict[str, list[str]]:
    return {name: [*module.split("::"), name] for module, names in table.items() for name in names.split()}


def prelude(edition: str) -> dict[str, list[str]]:
    """The path of each name; of an edition that is not known what any edition has."""
    return {name: path for since, table in PRELUDES.items() if since <= (edition or "2999") for name, path in paths_of(table).items()}


class NotKnown(BadInput):
    """A path that names nothing."""


class Names:
    def __init__(self, world: World) -> None:
        self.world = world
        editions = world.links.editions if world.links else {}
        used = {other for uses in world.uses.values() for other in uses}
        # (Where cargo has not said which are the own ones, those that no other uses.)
        self.own = [crate for crate in world.crates if (crate in editions if editions else crate not in used)]
        self.prelude = prelude(max((editions.get(c, "") for c in self.own), default=""))
        self.known = paths_of(KNOWN) | {name: path for name, path in prelude("").items() if name not in self.prelude}

    def key(self, words: list[str], wants_trait: Optional[bool] = None) -> str:
        """The key of the item; an error that says what to write where there is none, or more than one: a trait, where one is wanted."""
        found = self.of_word(words[0]) if len(words) == 1 else self.of_path_in_scope(words)
        if len(found) > 1:
            shown = [f"`{path}`" for path in found.values()]
            last = f" or {shown[-1]}" if len(shown) <= SHOWN else f" or {len(shown) - SHOWN} more"
            raise BadInput(f"`{'::'.join(words)}` may be {', '.join(shown[:min(SHOWN, len(shown) - (len(shown) <= SHOWN))])}{last}: write its path")
        if not found:
            raise NotKnown(f"`{'::'.join(words)}` is not known: {self.instead(words, wants_trait)}")
        return self.read(next(iter(found)), words)

    def read(self, key: str, words: list[str]) -> str:
        """The key itself, of an item that was read."""
        try:
            return self.world.get(key).key
        except Lossy as error:
            raise BadInput(f"`{'::'.join(words)}` cannot be asked: {error}")

    # ---- one word
    def of_word(self, word: str) -> dict[str, str]:
        """What the word may name: keys with their paths."""
        own = {key: "::".join(path) for path in ([crate, word] for crate in self.own) for key in [self.of_path(path)] if key}
        if word in self.known:
            return {**own, **(self.elsewhere(word) if not own else {}), **self.of_std_path(self.known[word])}
        if own:
            return own
        return self.of_std_path(self.prelude[word]) if word in self.prelude else self.elsewhere(word)

    def of_std_path(self, path: list[str]) -> dict[str, str]:
        key = self.of_std(path)
        return {key: "::".join(["std", *path[1:]])} if key else {}

    def elsewhere(self, word: str) -> dict[str, str]:
        """Public items of any module of any crate."""
        return {item.key: "::".join(item.public_path) for crate in reversed(self.world.crates.values()) for item in crate.items
                if item.name == word and item.public_path}

    # ---- paths
    def of_path_in_scope(self, words: list[str]) -> dict[str, str]:
        """What a path names that begins with a crate, or with a module of an own crate's root."""
        starts = [[crate] for crate in self.own]
        if words[0] == "crate":
            places = [[*start, *words[1:]] for start in starts]
        else:
            places = [[self.versioned(words[0]), *words[1:]], *([*start, *words] for start in starts)]
        return {key: "::".join(path) for path in reversed(places) for key in [self.of_path(path)] if key}

    def versioned(self, name: str) -> str:
        """The crate of a name: of one that is there in two versions it has to have the version, or how that begins."""
        wanted, _, version = name.partition("@")
        found = [c for c in self.world.crates if c == name or c.partition("@")[0] == wanted and c.partition("@")[2].startswith(version)]
        if not version and wanted in self.world.crates:
            return wanted
        if version and wanted in self.world.crates and self.world.crates[wanted].version.startswith(version):
            return wanted
        if len(found) > 1:
            raise BadInput(f"`{name}` may be any of {', '.join(f'`{c}`' for c in found)}")
        return found[0] if found else name

    def of_path(self, words: list[str], depth: int = 0) -> Optional[str]:
        """The key of the item at a whole path."""
        if words[0] in STD_CRATES:
            return self.of_std(words) if len(words) > 1 else None
        crate = self.world.crates.get(words[0])
        if crate is None or depth > MAXIMAL_DEPTH:
            return None
        key = crate.exports.get("::".join(words[1:]))
        if key is not None:
            return self.world.key_of(key)
        # What is private has the path of its declaration.
        itself = "::".join(words)
        return itself if itself in crate.declarations or itself in crate.aliases else next(self.of_modules(words, depth), None)

    def of_modules(self, words: list[str], depth: int) -> Iterator[str]:
        """Items of modules of other crates that a crate exports."""
        modules = self.world.crates[words[0]].modules
        for end in range(len(words) - 1, 0, -1):
            for target in modules.get("::".join(words[1:end]), ()):
                key = self.of_path([*target.split("::"), *words[end:]], depth + 1)
                if key:
                    yield key

    def of_std(self, words: list[str]) -> Optional[str]:
        """The key of std's item. Some of `core` and `alloc` have a page in `std` alone, as `alloc::collections::BTreeMap`."""
        pages = self.world.pages
        found = pages.key_of_any_kind(words) or pages.key_of_re_export(words)
        if found is None and words[0] in ("core", "alloc"):
            there = pages.key_of_any_kind(["std", *words[1:]])
            found = there if there and rust_crate_of(there) == words[0] else None
        return found

    # ---- what to write instead
    def instead(self, words: list[str], wants_trait: Optional[bool]) -> str:
        """What to write for a path that names nothing: items of the same name, or of like ones."""
        import difflib
        found = sorted(self.elsewhere(words[-1]).values(), key=lambda path: path.split("::")[0] != words[0])
        of_std = {name: "::".join(["std", *path[1:]]) for name, path in {**self.prelude, **self.known}.items()}
        found += [of_std[name] for name in words[-1:] if name in of_std]
        if not found:
            crates = [c for n, c in self.world.crates.items() if len(words) == 1 or n.partition("@")[0] == words[0].partition("@")[0]]
            paths = {item.name: "::".join(item.public_path) for crate in crates for item in crate.items
                     if item.public_path and wants_trait in (None, self.world.get(item.key).is_trait)}
            if len(words) == 1 or words[0] in STD_CRATES:
                there = {name: path for name, path in of_std.items() if wants_trait is None or self.is_std_trait(name) == wants_trait}
                paths = {**there, **{name: name for name in there if name in self.prelude}, **paths}
            found = [paths[name] for name in difflib.get_close_matches(words[-1], paths)]
        return f"is it {' or '.join(f'`{path}`' for path in found[:SHOWN])}?" if found else "write its path, as `bytes::Bytes` or `std::vec::Vec`"

    def is_std_trait(self, word: str) -> bool:
        key = self.of_std(self.known.get(word) or self.prelude[word])
        return key is not None and kind_and_name(key)[0] == "trait"
