"""All crates of one text: those that are read, std, and what is named of crates that were not given. Items by key, and their names in the text."""
from __future__ import annotations

import os
import re
from collections import defaultdict
from typing import Any, Iterator, Optional, Union

from ..read import doc_cfg
from ..read.cargo import Links
from ..read.headers import INTEGERS
from ..read.html_docs import Pages, is_std_key, rust_crate_of
from ..read.kept import KeptCrate, Keeper
from ..read.rustdoc_json import STD_CRATES, JsonCrate
from ..read.standard import FN_TRAITS, Standard
from ..read.terms import ANY_HEAD, BadInput, Constant, Declaration, Impl, Lossy, Param, Type
from .objects import Place, Shape

RESERVED = frozenset(("crate uses fundamental struct auto trait impl for where prove refute in later supers bool char str mut "
                      "const fn dyn type").split() + INTEGERS)
CORE_NAMES = frozenset("Sized Clone Copy Tuple FnPtr FnOnce FnMut Fn Unsize Box core".split())
# Traits of Rust's core that the text's `core` has just so. (Its `Box` and `Fn` have other parameters, and nobody can add to them.)
CORE_TRAITS = frozenset("Sized Clone Copy Tuple Unsize".split())
STD_TEXTS = ("alloc", "std")
AnyCrate = Union[JsonCrate, KeptCrate]


def crate_name(name: str) -> str:
    """A crate's name in the text; `name@version` has its version in it."""
    name = re.sub(r"[^A-Za-z0-9_]", "_", name)
    return name + "_" if name in RESERVED or name == "core" else name


def doubled(crates: list[AnyCrate], given: set[str]) -> list[str]:
    """The crates that are given of which others name more than one unit: it is not known which one is given."""
    named: dict[str, set[str]] = {}
    for crate in crates:
        for name, stem in crate.externals:
            if stem and name in given:
                named.setdefault(name, set()).add(stem)
    return sorted(name for name, stems in named.items() if len(stems) > 1)


class World:
    def __init__(self, pages: Pages, standard: Optional[Standard] = None) -> None:
        self.standard = standard or Standard(pages)
        self.pages = self.standard.pages
        self.crates: dict[str, AnyCrate] = {}
        self.declarations: dict[str, Declaration] = {}
        self.homes: dict[str, AnyCrate] = {}
        self.by_name: dict[tuple[str, str], list[str]] = defaultdict(list)
        self.uses: dict[str, list[str]] = {}
        self.missing: dict[str, int] = defaultdict(int)
        self.doc_cfgs: dict[str, list[str]] = {}
        self.doubled: list[str] = []
        self.artifacts: dict[str, str] = {}
        self.links: Optional[Links] = None
        self.names: dict[str, str] = {}
        self.named: dict[str, str] = {}
        self.taken: set[str] = set()
        self.by_trait: dict[str, dict[str, list[tuple[str, int]]]] = {}
        self.patterns: dict[tuple[str, str], Declaration] = {}
        self.meanings: dict[str, str] = {}
        self.written: dict[tuple[int, bool, bool], Any] = {}
        self.parsed: dict[str, Any] = {}
        self.shapes: dict[tuple[str, tuple[Place, ...], tuple[str, ...]], Shape] = {}
        self.shape_of_key: dict[str, Shape] = {}

    # ---- reading
    def load(self, files: list[str], links: Optional[Links] = None, is_given_what_it_uses: bool = False) -> None:
        """Reads the crates; `links` says which crates each one uses. Without it they use those that their items name. The first may be said to use the
        others, whatever unit it was compiled with."""
        self.links = links
        keeper: Optional[Keeper] = getattr(self.pages, "keeper", None)
        names, self.artifacts = (links.names, links.artifacts) if links else ({}, {})

        def crates() -> list[AnyCrate]:
            of_file = keeper.crate if keeper else JsonCrate
            return [of_file(file, self.pages, names.get(file, ""), self.artifacts) for file in files]

        read = crates()
        given = {crate.name for crate in read}
        self.doubled = [] if self.artifacts else doubled(read[is_given_what_it_uses:], given)
        if self.doubled:
            # (By no compiled file: so that neither unit is taken for the other.)
            self.artifacts = {f"any {name}": name for name in self.doubled}
            read = crates()
        if len(given) < len(read):
            raise BadInput("two of the files are of crates with one name; give one version of a crate at a time")
        for crate in read:
            self.same_std(crate)
            if crate.name in STD_TEXTS:
                raise BadInput(f"{crate.file}: the text has a crate of its own with that name, for std")
            if isinstance(crate, JsonCrate):
                crate.load()
            for item in crate.items:
                self.homes[item.key] = crate
                self.by_name[(crate.name, item.name)].append(item.key)
        for crate in read:
            used = links.uses.get(crate.name) if links else None
            self.uses[crate.name] = [n for n in (crate.names_crates if used is None else used) if n in given and n != crate.name]
        by_name = {crate.name: crate for crate in read}
        done: set[str] = set()

        def visit(name: str) -> None:
            if name not in done:
                done.add(name)
                for used in self.uses[name]:
                    visit(used)
                self.crates[name] = by_name[name]

        for crate in read:
            visit(crate.name)

        self.find_doc_cfgs(links)

    def same_std(self, crate: AnyCrate) -> None:
        """Answers would be of no crate that there is, if it was compiled with another std than the documents are of."""
        known = self.pages.version
        if known and crate.std_version and known != crate.std_version:
            raise BadInput(f"{crate.file} was made by Rust {crate.std_version}, and std's documents in {self.pages.root} are of {known}: "
                           "name those of that version by --docs")

    def find_doc_cfgs(self, links: Optional[Links]) -> None:
        """What rustdoc's `cfg(doc)` may have added to a crate, or hidden."""
        if links is not None and links.doc_cfgs is not None:
            self.doc_cfgs = links.doc_cfgs
            return
        for crate in self.crates.values():
            above = os.path.dirname(os.path.abspath(crate.file))
            roots = [links.root if links else "", above, *(os.path.normpath(os.path.join(above, *[".."] * n)) for n in range(1, 6))]
            found = doc_cfg.places(crate.sources, roots, links.cfgs.get(crate.name) if links else None)
            if found:
                self.doc_cfgs[crate.name] = found

    # ---- items
    def get(self, key: Optional[str], kind: str = "", arguments: tuple[Type, ...] = ()) -> Declaration:
        """The item of a key. One of a crate that was not given becomes opaque, if `kind` says what it would be."""
        if key is None or key.startswith("?"):
            raise Lossy(f"the item `{(key or '')[1:]}` is not known")
        if key in self.declarations:
            found = self.declarations[key]
            if found.not_understood:
                raise Lossy(f"the declaration of `{found.name}` in std is not understood ({found.not_understood})")
            return found
        if key in self.homes:
            home = self.homes[key]
            self.declarations[key] = home.declarations[key] if key in home.declarations else home.aliases[key]
            return self.get(key)
        if is_std_key(key):
            self.declarations[key] = self.standard.declaration(key)
            return self.get(key)
        if key.startswith("other:"):
            crate, rest = key[len("other:"):].split("::", 1)
            same_name = self.by_name.get((crate, rest.split("::")[-1]), [])
            exact = [k for k in same_name if k == f"{crate}::{rest}"]
            if exact or len(same_name) == 1:
                self.declarations[key] = self.get((exact or same_name)[0])
                return self.declarations[key]
            self.missing[key[len("other:"):]] += 1
            source = "not given: " + key[len("other:"):]
            return self.opaque(key, "std" if crate in STD_CRATES else crate, rest.split("::")[-1], kind, arguments, source)
        if key.startswith("hidden:"):
            _, crate, _, name = key.split(":", 3)
            return self.opaque(key, crate, name, kind, arguments, f"declared in a body: {crate}::{name}")
        raise Lossy(f"the item {key} is not known")

    def known(self, key: str) -> Optional[Declaration]:
        """The item, if it is one of a crate that is read or was asked for before."""
        if key not in self.declarations and key in self.homes:
            return self.get(key)
        return self.declarations.get(key)

    def key_of(self, key: str) -> str:
        """The item's own key, for one that another crate names."""
        if key in self.homes or is_std_key(key):
            return key
        try:
            return self.get(key).key
        except Lossy:
            return key

    def impls_of(self, trait: str, head: Optional[str]) -> Iterator[Impl]:
        """The impls that crates have of a trait, those whose self type may have the head; all for None."""
        if not self.by_trait:
            self.find_impls()
        by_head = self.by_trait.get(trait, {})
        for its in list(by_head) if head is None else list(dict.fromkeys((head, ANY_HEAD))):
            for name, number in by_head.get(its, []):
                yield self.crates[name].impls[number]

    def find_impls(self) -> None:
        known: dict[str, str] = {}
        for crate in self.crates.values():
            for number, places in enumerate(crate.heads):
                for place in places:
                    if place not in known:
                        known[place] = self.key_of(place) if "::" in place or is_std_key(place) else place
                self.by_trait.setdefault(known[places[0]], {}).setdefault(known[places[1]], []).append((crate.name, number))

    def opaque(self, key: str, crate: str, name: str, kind: str, arguments: tuple[Type, ...], source: str) -> Declaration:
        if not kind:
            raise Lossy(source)
        params = [Param("const" if isinstance(a, Constant) else "type", f"P{n}") for n, a in enumerate(arguments)]
        declaration = Declaration(kind, key, crate, name, source=source, path=f"{crate}::{name}", params=params, is_opaque=True)
        self.declarations[key] = declaration
        return declaration

    def add_special(self, declaration: Declaration) -> None:
        """An item of the text alone, by its own name."""
        self.declarations[declaration.key] = declaration
        self.names[declaration.key] = declaration.name
        self.named[declaration.name] = declaration.key
        self.taken.add(declaration.name)

    # ---- names
    def is_cores(self, declaration: Declaration) -> bool:
        """Whether the text's `core` has the trait."""
        return declaration.is_trait and is_std_key(declaration.key) and declaration.name in CORE_TRAITS and rust_crate_of(declaration.key) == "core"

    def name(self, declaration: Declaration) -> str:
        if declaration.key in self.names:
            return self.names[declaration.key]
        if self.is_cores(declaration):
            self.names[declaration.key] = declaration.name
            self.named[declaration.name] = declaration.key
            return declaration.name
        for candidate in self.candidates(declaration):
            name = re.sub(r"[^A-Za-z0-9_]", "_", candidate)[:50]
            if name not in self.taken and name not in RESERVED and name not in CORE_NAMES and not name[0].isdigit():
                self.taken.add(name)
                self.names[declaration.key] = name
                self.named[name] = declaration.key
                return name
        raise AssertionError("no name is left")

    def candidates(self, declaration: Declaration) -> list[str]:
        if is_std_key(declaration.key):
            special = declaration.name == "Box" or declaration.name in FN_TRAITS or declaration.name == "FnPtr"
            found = ["std__" + declaration.name] if special else [declaration.name]
            found.append(rust_crate_of(declaration.key) + "__" + declaration.name)
            found.append("__".join(declaration.path.split("/")[:-1] + [declaration.name]))
        else:
            path = [w for w in (declaration.path if declaration.is_opaque else declaration.key).split("::") if not w.startswith("#")]
            last = path[-1].split("#")[0]
            found = [f"{declaration.crate}__{last}"] + ["__".join([declaration.crate] + path[-n - 1:-1] + [last]) for n in range(1, len(path) - 1)]
        return found + [f"{found[-1][:44]}_{n}" for n in range(2, 1000)]
